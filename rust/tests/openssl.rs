//! The cipher over OpenSSL beside published answers, and records of it from one end to the other.

use huskelapse::content_type::APPLICATION_DATA;
use huskelapse::openssl::{KeyError, Keys, Suite};
use huskelapse::{Cipher, CipherError, Reading, Receiver, Refusal, Sender};

const SUITES: [Suite; 3] = [Suite::Aes128Gcm, Suite::Aes256Gcm, Suite::ChaCha20Poly1305];

fn bytes(hex: &str) -> Vec<u8> {
    (0..hex.len()).step_by(2).map(|i| u8::from_str_radix(&hex[i..i + 2], 16).unwrap()).collect()
}

fn array<const N: usize>(hex: &str) -> [u8; N] {
    bytes(hex).try_into().unwrap()
}

/// A published answer of an AEAD.
struct Known<'a> {
    suite: Suite,
    key: &'a str,
    nonce: &'a str,
    header: &'a str,
    text: &'a str,
    sealed: &'a str,
}

impl Known<'_> {
    fn holds(&self) {
        let (key, nonce, header) = (bytes(self.key), array(self.nonce), bytes(self.header));
        let (mut to_seal, mut to_open) = (Keys::to_seal(self.suite), Keys::to_open(self.suite));
        to_seal.add(3, &key, &key).unwrap();
        to_open.add(3, &key, &key).unwrap();
        let mut part = bytes(self.text);
        part.extend([0; 16]);
        to_seal.seal(3, 0, &nonce, &header, &mut part).unwrap();
        assert_eq!(part, bytes(self.sealed));
        assert!(to_open.open(3, 0, &nonce, &header, &mut part));
        assert_eq!(part[..part.len() - 16], bytes(self.text));
        // A changed tag, and then the right one under the same context.
        let mut part = bytes(self.sealed);
        *part.last_mut().unwrap() ^= 1;
        assert!(!to_open.open(3, 0, &nonce, &header, &mut part));
        assert!(to_open.open(3, 0, &nonce, &header, &mut bytes(self.sealed)));
    }
}

const GCM_TEXT: &str = "d9313225f88406e5a55909c5aff5269a86a7a9531534f7da2e4c303d8a318a72\
                        1c3c0c95956809532fcf0e2449a6b525b16aedf5aa0de657ba637b39";

/// Test cases 4 and 16 of the GCM specification.
#[test]
fn aes_gcm() {
    let case_4 = Known {
        suite: Suite::Aes128Gcm,
        key: "feffe9928665731c6d6a8f9467308308",
        nonce: "cafebabefacedbaddecaf888",
        header: "feedfacedeadbeeffeedfacedeadbeefabaddad2",
        text: GCM_TEXT,
        sealed: "42831ec2217774244b7221b784d0d49ce3aa212f2c02a4e035c17e2329aca12e\
                 21d514b25466931c7d8f6a5aac84aa051ba30b396a0aac973d58e091\
                 5bc94fbc3221a5db94fae95ae7121a47",
    };
    case_4.holds();
    let case_16 = Known {
        suite: Suite::Aes256Gcm,
        key: "feffe9928665731c6d6a8f9467308308feffe9928665731c6d6a8f9467308308",
        sealed: "522dc1f099567d07f47f37a32a84427d643a8cdcbfe5c0c97598a2bd2555d1aa\
                 8cb08e48590dbb3da7b08b1056828838c5f61e6393ba7a0abcc9f662\
                 76fc6ece0f4e1768cddf8853bb2d551b",
        ..case_4
    };
    case_16.holds();
}

/// RFC 9001, appendix A.5.
#[test]
fn chacha20_poly1305() {
    let packet = Known {
        suite: Suite::ChaCha20Poly1305,
        key: "c6d98ff3441c3fe1b2182094f69caa2ed4b716b65488960a7a984979fb23e1c8",
        nonce: "e0459b3474bdd0e46d417eb0",
        header: "4200bff4",
        text: "01",
        sealed: "655e5cd55c41f69080575d7999c25a5bfb",
    };
    packet.holds();
}

fn mask(suite: Suite, number_key: &str, sample: &str) -> [u8; 2] {
    let mut keys = Keys::to_open(suite);
    keys.add(3, &bytes(number_key), &bytes(number_key)).unwrap();
    let masks = [(); 2].map(|()| keys.mask(3, &array(sample)).unwrap());
    assert_eq!(masks[0], masks[1]);
    masks[0]
}

/// QUIC masks as DTLS 1.3 does: RFC 9001, appendix A.2 and A.5; AES-256 by FIPS 197, appendix C.3.
#[test]
fn masks() {
    let aes_128 = mask(Suite::Aes128Gcm, "9f50449e04a0e810283a1e9933adedd2", "d1b1c98dd7689fb8ec11d242b123dc9b");
    assert_eq!(aes_128, [0x43, 0x7b]);
    let key = "000102030405060708090a0b0c0d0e0f101112131415161718191a1b1c1d1e1f";
    assert_eq!(mask(Suite::Aes256Gcm, key, "00112233445566778899aabbccddeeff"), [0x8e, 0xa2]);
    let key = "25a282b9e82f06f21f488917a4fc8f1b73573685608597d0efcb076b0ab7a7a4";
    assert_eq!(mask(Suite::ChaCha20Poly1305, key, "5e5cd55c41f69080575d7999c25a5bfb"), [0xae, 0xfe]);
}

#[test]
fn records_from_end_to_end() {
    for suite in SUITES {
        let (mut to_seal, mut to_open) = (Keys::to_seal(suite), Keys::to_open(suite));
        let (mut sender, mut receiver) = (Sender::new(1500, 4).unwrap(), Receiver::new(Receiver::MIN_PROTECTED).unwrap());
        receiver.enable_peer_encryption();
        for epoch in [2, 3, 4] {
            let (key, number_key, iv) = (vec![epoch as u8; suite.key_len()], vec![9; suite.key_len()], [epoch as u8; 12]);
            to_seal.add(epoch, &key, &number_key).unwrap();
            to_open.add(epoch, &key, &number_key).unwrap();
            sender.key(epoch, &iv).unwrap();
            receiver.key(epoch, &iv).unwrap();
            let content = vec![0x55; 1400];
            sender.send(epoch, 22, &content[..40]).unwrap();
            sender.send(epoch, 22, &content).unwrap();
            assert_eq!(sender.seal(&mut to_seal), Ok(2));
            let mut datagram = sender.take_in_place().unwrap().unwrap().to_vec();
            let readings = receiver.read(&mut datagram, &mut to_open, &mut sender).unwrap();
            let opened = [(0, 40), (1, 1400)].map(|(number, length)| {
                let content = &content[..length];
                Reading::Handshake { epoch, number, content }
            });
            assert!(readings.eq(opened));
        }
    }
}

/// Who makes the masks of an epoch at one end: the library, of the mask key, or the cipher.
#[derive(Clone, Copy, PartialEq)]
enum Masks {
    Library,
    Cipher,
}

const BOTH: [Masks; 2] = [Masks::Library, Masks::Cipher];

/// Keys of an epoch in one direction.
struct EpochKeys {
    epoch: u16,
    key: [u8; 32],
    number_key: [u8; 32],
    iv: [u8; 12],
}

impl EpochKeys {
    fn new(epoch: u16, seed: u8) -> EpochKeys {
        let some = |label: u8, i: usize| (i as u8).wrapping_mul(seed | 1).wrapping_add(label ^ seed ^ epoch as u8);
        EpochKeys {
            epoch,
            key: std::array::from_fn(|i| some(1, i)),
            number_key: std::array::from_fn(|i| some(2, i)),
            iv: std::array::from_fn(|i| some(3, i)),
        }
    }

    fn add_to(&self, keys: &mut Keys, masks: Masks) {
        let added = match masks {
            Masks::Library => keys.add_without_mask(self.epoch, &self.key),
            Masks::Cipher => keys.add(self.epoch, &self.key, &self.number_key),
        };
        added.unwrap();
    }

    fn to_send(&self, sender: &mut Sender, keys: &mut Keys, masks: Masks) {
        self.add_to(keys, masks);
        let keyed = match masks {
            Masks::Library => sender.key_masked(self.epoch, &self.iv, &self.number_key),
            Masks::Cipher => sender.key(self.epoch, &self.iv),
        };
        keyed.unwrap();
    }

    fn to_receive(&self, receiver: &mut Receiver, keys: &mut Keys, masks: Masks) {
        self.add_to(keys, masks);
        let keyed = match masks {
            Masks::Library => receiver.key_masked(self.epoch, &self.iv, &self.number_key),
            Masks::Cipher => receiver.key(self.epoch, &self.iv),
        };
        keyed.unwrap();
    }
}

/// The datagrams of some records of an epoch.
fn sent(keys: &EpochKeys, masks: Masks, records: u8) -> Vec<Vec<u8>> {
    let (mut sender, mut to_seal) = (Sender::new(1500, 1).unwrap(), Keys::to_seal(Suite::ChaCha20Poly1305));
    keys.to_send(&mut sender, &mut to_seal, masks);
    let datagram = |i: u8| {
        sender.send(keys.epoch, APPLICATION_DATA, &vec![i; i.into()]).unwrap();
        assert_eq!(sender.seal(&mut to_seal), Ok(1));
        sender.take_in_place().unwrap().unwrap().to_vec()
    };
    (0..records).map(datagram).collect()
}

/// OpenSSL's ChaCha20 makes the library's masks: byte for byte the same datagrams, whoever makes them, and each end reads both.
#[test]
fn the_library_masks_as_the_cipher_does() {
    for seed in (0..=u8::MAX).step_by(17) {
        let keys = EpochKeys::new(3, seed);
        let [ours, theirs] = BOTH.map(|masks| sent(&keys, masks, 200));
        assert!(ours == theirs);
        for masks in BOTH {
            let (mut receiver, mut to_open) =
                (Receiver::new(Receiver::MIN_PROTECTED).unwrap(), Keys::to_open(Suite::ChaCha20Poly1305));
            keys.to_receive(&mut receiver, &mut to_open, masks);
            receiver.enable_peer_encryption();
            for (i, datagram) in (0..).zip(&ours) {
                let (mut datagram, mut sender) = (datagram.clone(), Sender::new(600, 1).unwrap());
                let mut readings = receiver.read(&mut datagram, &mut to_open, &mut sender).unwrap();
                let content = &vec![i; i.into()][..];
                assert_eq!(readings.next(), Some(Reading::ApplicationData { epoch: 3, number: i.into(), content }));
                assert_eq!(readings.next(), None);
            }
        }
    }
}

#[test]
fn epochs_with_masks_of_both_kinds() {
    let (mut sender, mut receiver) = (Sender::new(1500, 4).unwrap(), Receiver::new(Receiver::MIN_PROTECTED).unwrap());
    let (mut to_seal, mut to_open) = (Keys::to_seal(Suite::ChaCha20Poly1305), Keys::to_open(Suite::ChaCha20Poly1305));
    receiver.enable_peer_encryption();
    for (epoch, (sending, receiving)) in (2..).zip([
        (Masks::Cipher, Masks::Library),
        (Masks::Library, Masks::Cipher),
        (Masks::Cipher, Masks::Cipher),
        (Masks::Library, Masks::Library),
    ]) {
        let keys = EpochKeys::new(epoch, 5);
        keys.to_send(&mut sender, &mut to_seal, sending);
        keys.to_receive(&mut receiver, &mut to_open, receiving);
        // The epoch before, if it is 2, stands beside the application epoch in one datagram.
        let epochs = [2, epoch.max(3)];
        for epoch in epochs.into_iter().filter(|e| *e <= epoch) {
            sender.send(epoch, APPLICATION_DATA, b"14.2 kWh").unwrap();
        }
        sender.seal(&mut to_seal).unwrap();
        let mut datagram = sender.take_in_place().unwrap().unwrap().to_vec();
        let read: Vec<_> = receiver.read(&mut datagram, &mut to_open, &mut sender).unwrap().collect();
        let (of_2, of_epoch) = (u64::from(epoch) - 2, epochs[1]);
        let all =
            [(2, of_2), (of_epoch, 0)].map(|(epoch, number)| Reading::ApplicationData { epoch, number, content: b"14.2 kWh" });
        assert_eq!(read, all[..if epoch == 2 { 1 } else { 2 }]);
    }
}

/// RFC 9001, appendix A.5: the mask of its sample is ae fe, so number 0x1234 lies as bc ca.
#[test]
fn the_library_makes_a_published_mask() {
    struct Opens(Option<u64>);
    impl Cipher for Opens {
        fn open(&mut self, _: u16, number: u64, _: &[u8; 12], header: &[u8], _: &mut [u8]) -> bool {
            assert_eq!(header[1..3], [0x12, 0x34]);
            self.0 = Some(number);
            false
        }
        fn seal(&mut self, _: u16, _: u64, _: &[u8; 12], _: &[u8], _: &mut [u8]) -> Result<(), CipherError> {
            unreachable!("a receiver does not seal")
        }
    }
    let number_key = bytes("25a282b9e82f06f21f488917a4fc8f1b73573685608597d0efcb076b0ab7a7a4");
    let mut receiver = Receiver::new(Receiver::MIN_PROTECTED).unwrap();
    receiver.key_masked(3, &[7; 12], &number_key).unwrap();
    receiver.enable_peer_encryption();
    let mut datagram = bytes("2fbcca00205e5cd55c41f69080575d7999c25a5bfb00000000000000000000000000000000");
    let (mut cipher, mut sender) = (Opens(None), Sender::new(600, 1).unwrap());
    let readings: Vec<_> = receiver.read(&mut datagram, &mut cipher, &mut sender).unwrap().collect();
    assert_eq!((readings, cipher.0), (vec![Reading::Dropped(Refusal::NotOpened)], Some(0x1234)));
}

#[test]
fn a_long_part_is_sealed_and_opened_in_pieces() {
    for suite in SUITES {
        let key = vec![1; suite.key_len()];
        let (mut to_seal, mut to_open) = (Keys::to_seal(suite), Keys::to_open(suite));
        to_seal.add(3, &key, &key).unwrap();
        to_open.add(3, &key, &key).unwrap();
        for length in [0, 1, 2047, 2048, 2049, 16_000] {
            let text: Vec<u8> = (0..length).map(|i| i as u8).collect();
            let mut part = text.clone();
            part.extend([0; 16]);
            to_seal.seal(3, 0, &[7; 12], b"header", &mut part).unwrap();
            assert!(to_open.open(3, 0, &[7; 12], b"header", &mut part));
            assert_eq!(part[..text.len()], text);
        }
    }
}

#[test]
fn keys_that_are_absent_or_wrong() {
    let mut keys = Keys::to_seal(Suite::Aes128Gcm);
    assert!(matches!(keys.add(3, &[1; 32], &[1; 16]), Err(KeyError::Length { needed: 16 })));
    assert!(matches!(keys.add(3, &[1; 16], &[1; 15]), Err(KeyError::Length { needed: 16 })));
    keys.add(3, &[1; 16], &[2; 16]).unwrap();
    assert!(matches!(keys.add(3, &[3; 16], &[4; 16]), Err(KeyError::Known)));
    assert!(keys.seal(4, 0, &[0; 12], b"", &mut [0; 20]).is_err());
    assert!(keys.seal(3, 0, &[0; 12], b"", &mut [0; 15]).is_err());
    assert!(keys.mask(4, &[0; 16]).is_err());
    // Keys to seal do not open, and keys to open do not seal.
    assert!(!keys.open(3, 0, &[0; 12], b"", &mut [0; 20]));
    let mut to_open = Keys::to_open(Suite::Aes128Gcm);
    to_open.add(3, &[1; 16], &[2; 16]).unwrap();
    assert!(to_open.seal(3, 0, &[0; 12], b"", &mut [0; 20]).is_err());
    assert!(!to_open.open(3, 0, &[0; 12], b"", &mut [0; 15]));
    assert!(keys.remove(3) && !keys.remove(3));
    assert!(keys.mask(3, &[0; 16]).is_err());
    // Only of ChaCha20 the masks can be made without a number key here.
    assert!(matches!(keys.add_without_mask(3, &[1; 16]), Err(KeyError::NeedsMask)));
    assert!(matches!(Keys::to_open(Suite::Aes256Gcm).add_without_mask(3, &[1; 32]), Err(KeyError::NeedsMask)));
    let mut without = Keys::to_seal(Suite::ChaCha20Poly1305);
    assert!(matches!(without.add_without_mask(3, &[1; 31]), Err(KeyError::Length { needed: 32 })));
    without.add_without_mask(3, &[1; 32]).unwrap();
    assert!(matches!(without.add_without_mask(3, &[1; 32]), Err(KeyError::Known)));
    assert!(matches!(without.add(3, &[1; 32], &[2; 32]), Err(KeyError::Known)));
    assert_eq!(without.mask(3, &[0; 16]).unwrap_err().to_string(), "no number key for this epoch");
    assert!(without.seal(3, 0, &[0; 12], b"", &mut [0; 20]).is_ok());
    assert!(format!("{to_open:?}").contains("epochs: [3]"));
}

/// The sender has an epoch that the cipher lacks: an error, and the sender is done with.
#[test]
fn a_sender_without_the_cipher_s_keys() {
    let mut sender = Sender::new(600, 1).unwrap();
    sender.key(3, &[7; 12]).unwrap();
    sender.send(3, APPLICATION_DATA, b"14.2 kWh").unwrap();
    let failed = sender.seal(&mut Keys::to_seal(Suite::ChaCha20Poly1305)).unwrap_err();
    assert!(failed.to_string().contains("no keys for this epoch"));
}

#[test]
fn a_receiver_without_the_cipher_s_keys() {
    let mut receiver = Receiver::new(Receiver::MIN_PROTECTED).unwrap();
    receiver.key(3, &[7; 12]).unwrap();
    receiver.enable_peer_encryption();
    let mut datagram = [0; 30];
    datagram[..5].copy_from_slice(&[0x2F, 0, 0, 0, 25]);
    let (mut keys, mut sender) = (Keys::to_open(Suite::Aes256Gcm), Sender::new(600, 1).unwrap());
    let readings: Vec<_> = receiver.read(&mut datagram, &mut keys, &mut sender).unwrap().collect();
    assert_eq!(readings, [Reading::Dropped(Refusal::NotOpened)]);
}
