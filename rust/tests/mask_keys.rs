//! Epochs with a mask key: the library makes their masks, and the cipher is asked for none.
#![cfg(feature = "alloc")]

mod toy;

use std::collections::BTreeMap;
use std::panic::{catch_unwind, AssertUnwindSafe};

use huskelapse::content_type::APPLICATION_DATA;
use huskelapse::{Cipher, CipherError, Reading, Receiver, Refusal, SealFailed, Sender};
use huskelapse_sys as ffi;
use toy::Toy;

const IV: [u8; 12] = [7; 12];
const MASK_KEY: [u8; 32] = [9; 32];

/// A cipher that makes no masks.
struct Aead;

impl Cipher for Aead {
    fn open(&mut self, epoch: u16, number: u64, nonce: &[u8; 12], header: &[u8], part: &mut [u8]) -> bool {
        Toy(5).open(epoch, number, nonce, header, part)
    }

    fn seal(&mut self, epoch: u16, number: u64, nonce: &[u8; 12], header: &[u8], part: &mut [u8]) -> Result<(), CipherError> {
        Toy(5).seal(epoch, number, nonce, header, part)
    }
}

/// The same, with masks in these epochs alone.
struct MasksIn<'a>(&'a [u16]);

impl Cipher for MasksIn<'_> {
    fn mask(&mut self, epoch: u16, sample: &[u8; 16]) -> Result<[u8; 2], CipherError> {
        assert!(self.0.contains(&epoch), "asked for a mask of epoch {epoch}");
        Toy(5).mask(epoch, sample)
    }

    fn open(&mut self, epoch: u16, number: u64, nonce: &[u8; 12], header: &[u8], part: &mut [u8]) -> bool {
        Aead.open(epoch, number, nonce, header, part)
    }

    fn seal(&mut self, epoch: u16, number: u64, nonce: &[u8; 12], header: &[u8], part: &mut [u8]) -> Result<(), CipherError> {
        Aead.seal(epoch, number, nonce, header, part)
    }
}

fn receiver() -> Receiver {
    let mut receiver = Receiver::new(Receiver::MIN_PROTECTED).unwrap();
    receiver.enable_peer_encryption();
    receiver
}

fn sender() -> Sender {
    Sender::new(600, 4).unwrap()
}

/// The datagram with one record of an epoch.
fn sent(sender: &mut Sender, epoch: u16, cipher: &mut impl Cipher) -> Vec<u8> {
    sender.send(epoch, APPLICATION_DATA, b"14.2 kWh").unwrap();
    assert_eq!(sender.seal(cipher), Ok(1));
    sender.take_in_place().unwrap().unwrap().to_vec()
}

fn opened(epoch: u16, number: u64) -> Reading<'static> {
    Reading::ApplicationData { epoch, number, content: b"14.2 kWh" }
}

/// The one reading of a copy of a datagram.
fn reading(receiver: &mut Receiver, datagram: &[u8], cipher: &mut impl Cipher) -> Reading<'static> {
    let mut copy = datagram.to_vec();
    let readings: Vec<Reading> = receiver.read(&mut copy, cipher, &mut sender()).unwrap().collect();
    match readings[..] {
        [Reading::ApplicationData { epoch, number, content: b"14.2 kWh" }] => opened(epoch, number),
        [Reading::Dropped(why)] => Reading::Dropped(why),
        _ => panic!("{readings:?}"),
    }
}

#[test]
fn a_cipher_without_masks_seals_and_opens() {
    let (mut sender, mut receiver) = (sender(), receiver());
    sender.key_masked(3, &IV, &MASK_KEY).unwrap();
    receiver.key_masked(3, &IV, &MASK_KEY).unwrap();
    for number in 0..300 {
        let datagram = sent(&mut sender, 3, &mut Aead);
        assert_eq!(reading(&mut receiver, &datagram, &mut Aead), opened(3, number));
        assert_eq!(reading(&mut receiver, &datagram, &mut Aead), Reading::Dropped(Refusal::Seen));
    }
}

#[test]
fn numbers_are_masked_by_the_key() {
    let datagram = |mask_key: &[u8]| {
        let mut sender = sender();
        sender.key_masked(3, &IV, mask_key).unwrap();
        sent(&mut sender, 3, &mut Aead)
    };
    let [one, other] = [MASK_KEY, [10; 32]].map(|mask_key| datagram(&mask_key));
    assert!(one[1..3] != [0, 0] && one[1..3] != other[1..3]);
    assert_eq!((one[0], &one[3..]), (other[0], &other[3..]));
    let mut receiver = receiver();
    receiver.key_masked(3, &IV, &MASK_KEY).unwrap();
    assert_eq!(reading(&mut receiver, &other, &mut Aead), Reading::Dropped(Refusal::NotOpened));
    assert_eq!(reading(&mut receiver, &one, &mut Aead), opened(3, 0));
}

#[test]
fn without_a_mask_key_a_mask_is_needed() {
    let mut sender = sender();
    sender.key(3, &IV).unwrap();
    let datagram = sent(&mut sender, 3, &mut Toy(5));
    let mut receiver = receiver();
    receiver.key(3, &IV).unwrap();
    assert_eq!(reading(&mut receiver, &datagram, &mut Aead), Reading::Dropped(Refusal::NotOpened));
    assert_eq!(reading(&mut receiver, &datagram, &mut Toy(5)), opened(3, 0));
    sender.send(3, APPLICATION_DATA, b"14.2 kWh").unwrap();
    let SealFailed { epoch, number, cause, .. } = sender.seal(&mut Aead).unwrap_err();
    assert_eq!((epoch, number, cause.is_some_and(|cause| cause.to_string().contains("makes no masks"))), (3, 1, true));
}

/// Keys an epoch at both ends, with a mask key or without.
fn key(sender: &mut Sender, receiver: &mut Receiver, epoch: u16, mask_key: Option<[u8; 32]>) {
    let keyed = match mask_key {
        Some(mask_key) => (sender.key_masked(epoch, &IV, &mask_key), receiver.key_masked(epoch, &IV, &mask_key)),
        None => (sender.key(epoch, &IV), receiver.key(epoch, &IV)),
    };
    assert_eq!(keyed, (Ok(()), Ok(())));
}

#[test]
fn epochs_with_and_without_one_stand_beside_each_other() {
    let (mut sender, mut receiver, mut sealed) = (sender(), receiver(), BTreeMap::new());
    for (epoch, mask_key) in [(2, None), (3, Some([1; 32])), (4, None), (5, Some([2; 32])), (6, Some([3; 32]))] {
        key(&mut sender, &mut receiver, epoch, mask_key);
        sealed.insert(epoch, [(); 4].map(|()| sent(&mut sender, epoch, &mut MasksIn(&[2, 4]))));
    }
    let read = |receiver: &mut Receiver, epochs: &[u16], number: usize| {
        for epoch in epochs {
            let datagram = &sealed[epoch][number];
            assert_eq!(reading(receiver, datagram, &mut MasksIn(&[2, 4])), opened(*epoch, number as u64));
        }
    };
    // Epoch bits 2 mean epoch 2 until application data is released, and then 6.
    read(&mut receiver, &[2, 3, 4, 5], 0);
    receiver.release_application_data();
    read(&mut receiver, &[6], 0);
    // One that goes leaves the others their own mask keys.
    for (number, (gone, left)) in (1..).zip([(2, &[3, 4, 5, 6][..]), (4, &[3, 5, 6]), (3, &[5, 6])]) {
        assert_eq!(receiver.remove(gone), Ok(false));
        read(&mut receiver, left, number);
    }
    // And nothing of a mask key is left for the next epochs.
    for (epoch, mask_key, masks) in [(7, None, &[7][..]), (8, Some([4; 32]), &[])] {
        key(&mut sender, &mut receiver, epoch, mask_key);
        let datagram = sent(&mut sender, epoch, &mut MasksIn(masks));
        assert_eq!(reading(&mut receiver, &datagram, &mut MasksIn(masks)), opened(epoch, 0));
    }
}

const LENGTHS: [usize; 5] = [0, 1, 31, 33, 64];

#[test]
fn a_mask_key_of_another_length_is_refused_after_13_and_before_23() {
    let (mut sender, mut receiver) = (sender(), receiver());
    for length in LENGTHS {
        let mask_key = vec![9; length];
        for epoch in [0, 1] {
            assert_eq!(sender.key_masked(epoch, &IV, &mask_key), Err(Refusal::BadEpoch));
            assert_eq!(receiver.key_masked(epoch, &IV, &mask_key), Err(Refusal::BadEpoch));
        }
        for epoch in [2, 3, 65_535] {
            assert_eq!(sender.key_masked(epoch, &IV, &mask_key), Err(Refusal::BadMaskKey));
            assert_eq!(receiver.key_masked(epoch, &IV, &mask_key), Err(Refusal::BadMaskKey));
        }
    }
    assert_eq!(Refusal::BadMaskKey.number(), 27);
    // Nothing has changed: the epochs can still be keyed.
    for epoch in [3, 4, 5, 6] {
        sender.key_masked(epoch, &IV, &MASK_KEY).unwrap();
        receiver.key_masked(epoch, &IV, &MASK_KEY).unwrap();
        assert_eq!(receiver.key_masked(epoch, &IV, &MASK_KEY[1..]), Err(Refusal::BadEpoch));
    }
    // A fifth application epoch to receive, and one that would be replaced while a sealing waits.
    sender.send(6, APPLICATION_DATA, b"14.2 kWh").unwrap();
    assert_eq!(sender.key_masked(7, &IV, &MASK_KEY[1..]), Err(Refusal::BadMaskKey));
    assert_eq!(sender.key_masked(7, &IV, &MASK_KEY), Err(Refusal::Waiting));
    assert_eq!(receiver.key_masked(7, &IV, &MASK_KEY[1..]), Err(Refusal::BadMaskKey));
    assert_eq!(receiver.key_masked(7, &IV, &MASK_KEY), Err(Refusal::Waiting));
}

/// A refused keying leaves who makes the masks as it was.
#[test]
fn a_refused_keying_changes_nothing() {
    for masked in [false, true] {
        let mut sender = sender();
        match masked {
            true => sender.key_masked(3, &IV, &MASK_KEY).unwrap(),
            false => sender.key(3, &IV).unwrap(),
        }
        sender.send(3, APPLICATION_DATA, b"14.2 kWh").unwrap();
        assert_eq!(sender.key_masked(3, &IV, &MASK_KEY), Err(Refusal::BadEpoch));
        assert_eq!(sender.key_masked(4, &IV, &MASK_KEY), Err(Refusal::Waiting));
        assert_eq!(sender.key_masked(4, &IV, &MASK_KEY[1..]), Err(Refusal::BadMaskKey));
        assert_eq!(sender.key(3, &IV), Err(Refusal::BadEpoch));
        assert_eq!(sender.key(4, &IV), Err(Refusal::Waiting));
        let masks: &[u16] = if masked { &[] } else { &[3] };
        assert_eq!(sender.seal(&mut MasksIn(masks)), Ok(1));
        let mut receiver = receiver();
        match masked {
            true => receiver.key_masked(3, &IV, &MASK_KEY).unwrap(),
            false => receiver.key(3, &IV).unwrap(),
        }
        let datagram = sender.take_in_place().unwrap().unwrap().to_vec();
        assert_eq!(reading(&mut receiver, &datagram, &mut MasksIn(masks)), opened(3, 0));
    }
}

/// What prints the words of a direction, in a log or a failed test, leaves its mask keys out.
#[test]
fn no_mask_key_is_printed() {
    let (mut receiving, mut sending) = (ffi::Receiving::BLANK, ffi::Sending::BLANK);
    receiving.mask_keys.fill(0xA7);
    sending.mask_keys.fill(0xA7);
    for printed in [format!("{receiving:?}"), format!("{sending:?}")] {
        assert!(printed.contains("word"), "{printed}");
        assert!(!printed.contains("167"), "{printed}");
    }
}

/// The datagram that the library makes where a sealing reply brings this mask.
fn replied(masked: bool, mask: [u8; 2]) -> Vec<u8> {
    let (mut s, mut f, mut queue) = (ffi::Sending::BLANK, ffi::Flight::BLANK, vec![0; 600]);
    f.init();
    assert_eq!(s.init(600, 1), 0);
    let keyed = if masked { s.key_masked(3, &IV, &MASK_KEY) } else { s.key(3, &IV) };
    assert_eq!((keyed, s.send(3, APPLICATION_DATA, b"14.2 kWh", &mut queue)), (0, 0));
    let q = s.sealing();
    Toy(5).seal(q.epoch, q.number, &q.nonce, &q.header, &mut queue[q.start..][..q.length]).unwrap();
    assert_eq!(s.sealed(&mut f, q.length - 1, mask, &mut queue), 15);
    assert_eq!(s.sealed(&mut f, q.length, mask, &mut queue), 0);
    let part = s.take_in_place(&queue);
    queue[part.start..][..part.length].to_vec()
}

#[test]
fn what_a_sealing_reply_brings_is_not_read() {
    let masks = [[0, 0], [1, 2], [255, 255]];
    let [datagrams, others] = [true, false].map(|masked| masks.map(|mask| replied(masked, mask)));
    assert!(datagrams.iter().all(|datagram| *datagram == datagrams[0]));
    assert!(others.iter().skip(1).all(|datagram| *datagram != others[0]));
}

/// The number is unmasked once, and the question that waits is read again as it is.
#[test]
fn reading_goes_straight_to_the_opening() {
    let mut s = ffi::Receiving::BLANK;
    assert_eq!((s.init(17), s.key_masked(3, &IV, &MASK_KEY), s.enable_encryption()), (0, 0, 0));
    let sealed = replied(true, [0, 0]);
    let mut d = sealed.clone();
    let first = s.begin_read(&mut d);
    assert_eq!((first.kind, first.epoch, first.number, first.start, first.header_len), (ffi::READING_OPENING, 3, 0, 0, 5));
    assert_eq!((d[0], &d[1..3], &d[3..]), (sealed[0], &[0, 0][..], &sealed[3..]));
    let unmasked = d.clone();
    assert_eq!((s.read(&mut d), s.read(&mut d), &d), (first, first, &unmasked));
    // No mask is asked for, so none is taken.
    assert_eq!((s.mask([1, 2], &mut d).refusal, &d), (15, &unmasked));
    assert_eq!(s.opened(false, 0, &d).kind, ffi::READING_DROPPED);
    assert_eq!(s.read(&mut d).kind, ffi::READING_END);
}

#[test]
fn a_question_that_waits_is_removed_with_its_epoch() {
    struct Panics;
    impl Cipher for Panics {
        fn open(&mut self, _: u16, _: u64, _: &[u8; 12], _: &[u8], _: &mut [u8]) -> bool {
            panic!("as the test wants")
        }
        fn seal(&mut self, _: u16, _: u64, _: &[u8; 12], _: &[u8], _: &mut [u8]) -> Result<(), CipherError> {
            unreachable!("a receiver does not seal")
        }
    }
    let mut receiver = receiver();
    receiver.key_masked(3, &IV, &MASK_KEY).unwrap();
    let mut datagram = replied(true, [0, 0]);
    let (mut cipher, mut idle) = (Panics, sender());
    let mut readings = receiver.read(&mut datagram, &mut cipher, &mut idle).unwrap();
    assert!(catch_unwind(AssertUnwindSafe(|| readings.next().is_some())).is_err());
    assert_eq!(readings.next(), None);
    assert_eq!(receiver.remove(3), Ok(true));
    receiver.key(4, &IV).unwrap();
    assert_eq!(receiver.remove(4), Ok(false));
}

/// Many records of one datagram, of which contents are kept while those behind are unmasked.
#[test]
fn contents_stay_while_records_behind_are_unmasked() {
    let mut sender = Sender::new(1500, 1).unwrap();
    sender.key(2, &IV).unwrap();
    sender.key_masked(3, &IV, &MASK_KEY).unwrap();
    let contents: [[u8; 4]; 16] = std::array::from_fn(|i| [i as u8; 4]);
    for (i, content) in contents.iter().enumerate() {
        sender.send(2 + (i % 2) as u16, APPLICATION_DATA, content).unwrap();
    }
    sender.seal(&mut MasksIn(&[2])).unwrap();
    let mut datagram = sender.take_in_place().unwrap().unwrap().to_vec();
    let mut receiver = receiver();
    receiver.key(2, &IV).unwrap();
    receiver.key_masked(3, &IV, &MASK_KEY).unwrap();
    let kept: Vec<Reading> = receiver.read(&mut datagram, &mut MasksIn(&[2]), &mut sender).unwrap().collect();
    let all = contents.iter().enumerate().map(|(i, content)| Reading::ApplicationData {
        epoch: 2 + (i % 2) as u16,
        number: i as u64 / 2,
        content,
    });
    assert!(kept.into_iter().eq(all));
}
