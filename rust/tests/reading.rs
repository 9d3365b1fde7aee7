//! Reading datagrams: contents where they lie, a cipher that fails, limits.
#![cfg(feature = "alloc")]

mod toy;

use std::panic::{catch_unwind, AssertUnwindSafe};

use huskelapse::content_type::APPLICATION_DATA;
use huskelapse::{Cipher, CipherError, Reading, Receiver, Refusal, Sender};
use toy::Toy;

/// One datagram with these contents in epoch 3.
fn datagram(contents: &[&[u8]]) -> Vec<u8> {
    let mut sender = Sender::new(1500, 1).unwrap();
    sender.key(3, &[7; 12]).unwrap();
    for content in contents {
        sender.send(3, APPLICATION_DATA, content).unwrap();
    }
    sender.seal(&mut Toy(5)).unwrap();
    sender.take_in_place().unwrap().unwrap().to_vec()
}

fn receiver() -> Receiver {
    let mut receiver = Receiver::new(Receiver::MIN_PROTECTED).unwrap();
    receiver.key(3, &[7; 12]).unwrap();
    receiver.enable_peer_encryption();
    receiver
}

/// The other direction of the receiving end, which has sent nothing.
fn idle() -> Sender {
    Sender::new(600, 1).unwrap()
}

fn opened(number: u64, content: &[u8]) -> Reading<'_> {
    Reading::ApplicationData { epoch: 3, number, content }
}

/// Fails for record 1, in the mask or in the opening, or panics there.
struct Failing {
    mask: bool,
    panics: bool,
    asked: usize,
}

impl Failing {
    fn fails(&self, mask: bool) -> bool {
        let fails = self.asked == 2 && mask == self.mask;
        assert!(!(fails && self.panics), "as the test wants");
        fails
    }
}

impl Cipher for Failing {
    fn mask(&mut self, epoch: u16, sample: &[u8; 16]) -> Result<[u8; 2], CipherError> {
        self.asked += 1;
        match self.fails(true) {
            true => Err(CipherError::new("broken")),
            false => Toy(5).mask(epoch, sample),
        }
    }

    fn open(&mut self, epoch: u16, number: u64, nonce: &[u8; 12], header: &[u8], part: &mut [u8]) -> bool {
        !self.fails(false) && Toy(5).open(epoch, number, nonce, header, part)
    }

    fn seal(&mut self, _: u16, _: u64, _: &[u8; 12], _: &[u8], _: &mut [u8]) -> Result<(), CipherError> {
        unreachable!("a receiver does not seal")
    }
}

#[test]
fn contents_lie_in_the_datagram() {
    let mut bytes = datagram(&[b"14.2 kWh", b"", b"14.3 kWh"]);
    let range = bytes.as_ptr_range();
    let kept: Vec<Reading> = receiver().read(&mut bytes, &mut Toy(5), &mut idle()).unwrap().collect();
    assert_eq!(kept, [opened(0, b"14.2 kWh"), opened(1, b""), opened(2, b"14.3 kWh")]);
    for reading in kept {
        let Reading::ApplicationData { content, .. } = reading else { panic!("{reading:?}") };
        assert!(range.contains(&content.as_ptr()));
    }
}

/// The datagrams of these numbers in epoch 3, a record in each.
fn sent(numbers: &[u64]) -> Vec<Vec<u8>> {
    let mut sender = Sender::new(1500, 1).unwrap();
    sender.key(3, &[7; 12]).unwrap();
    let last = numbers.iter().copied().max().unwrap_or(0);
    let mut kept = Vec::new();
    for number in 0..=last {
        sender.send(3, APPLICATION_DATA, b"14.2 kWh").unwrap();
        sender.seal(&mut Toy(5)).unwrap();
        let datagram = sender.take_in_place().unwrap().unwrap();
        if numbers.contains(&number) {
            kept.push(datagram.to_vec());
        }
    }
    kept
}

#[test]
fn an_epoch_is_found_after_a_gap() {
    let [mut first, mut last, mut beyond] = <[Vec<u8>; 3]>::try_from(sent(&[40_000, 65_535, 65_536])).unwrap();
    let mut late = receiver();
    assert_eq!(late.read(&mut first, &mut Toy(5), &mut idle()).unwrap().next(), Some(opened(40_000, b"14.2 kWh")));
    assert_eq!(late.read(&mut last, &mut Toy(5), &mut idle()).unwrap().next(), Some(opened(65_535, b"14.2 kWh")));
    // The bits of 65,536 are those of 0: they tell it only once higher numbers are used.
    let mut again = beyond.clone();
    assert_eq!(receiver().read(&mut again, &mut Toy(5), &mut idle()).unwrap().next(), Some(Reading::Dropped(Refusal::NotOpened)));
    assert_eq!(late.read(&mut beyond, &mut Toy(5), &mut idle()).unwrap().next(), Some(opened(65_536, b"14.2 kWh")));
}

/// What comes of records of epoch 3 read in this order: the number handed over, or why it is dropped.
fn verdicts(numbers: &[u64]) -> Vec<Result<u64, Refusal>> {
    let mut sealed = numbers.to_vec();
    sealed.sort_unstable();
    sealed.dedup();
    let (datagrams, mut receiver) = (sent(&sealed), receiver());
    let read = |number: &u64| {
        let mut bytes = datagrams[sealed.binary_search(number).unwrap()].clone();
        match receiver.read(&mut bytes, &mut Toy(5), &mut idle()).unwrap().next() {
            Some(Reading::ApplicationData { number, .. }) => Ok(number),
            Some(Reading::Dropped(why)) => Err(why),
            other => panic!("{other:?}"),
        }
    };
    numbers.iter().map(read).collect()
}

#[test]
fn a_number_63_below_the_highest_is_fresh_or_seen() {
    assert_eq!(verdicts(&[100, 37, 37]), [Ok(100), Ok(37), Err(Refusal::Seen)]);
    assert_eq!(verdicts(&[5, 68, 5]), [Ok(5), Ok(68), Err(Refusal::Seen)]);
    assert_eq!(verdicts(&[63, 0, 0]), [Ok(63), Ok(0), Err(Refusal::Seen)]);
    assert_eq!(verdicts(&[100, 100]), [Ok(100), Err(Refusal::Seen)]);
}

#[test]
fn a_number_64_below_the_highest_is_too_old_used_or_not() {
    assert_eq!(verdicts(&[100, 36, 36]), [Ok(100), Err(Refusal::TooOld), Err(Refusal::TooOld)]);
    assert_eq!(verdicts(&[36, 100, 36]), [Ok(36), Ok(100), Err(Refusal::TooOld)]);
    assert_eq!(verdicts(&[64, 0]), [Ok(64), Err(Refusal::TooOld)]);
    assert_eq!(verdicts(&[5, 68, 5, 69, 5, 6]), [Ok(5), Ok(68), Err(Refusal::Seen), Ok(69), Err(Refusal::TooOld), Ok(6)]);
}

#[test]
fn what_is_left_is_not_read() {
    let original = datagram(&[b"one", b"two", b"three"]);
    let mut receiver = receiver();
    let mut bytes = original.clone();
    let first = receiver.read(&mut bytes, &mut Toy(5), &mut idle()).unwrap().next();
    let (mut again, mut cipher, mut sender) = (original.clone(), Toy(5), idle());
    let mut readings = receiver.read(&mut again, &mut cipher, &mut sender).unwrap();
    assert_eq!(readings.next(), Some(Reading::Dropped(Refusal::Seen)));
    assert_eq!((readings.next(), readings.next()), (Some(opened(1, b"two")), Some(opened(2, b"three"))));
    assert_eq!((readings.next(), readings.next()), (None, None));
    assert_eq!(first, Some(opened(0, b"one")));
}

#[test]
fn a_record_whose_mask_fails_is_dropped_alone() {
    let original = datagram(&[b"one", b"two", b"three"]);
    let mut receiver = receiver();
    let mut bytes = original.clone();
    let mut cipher = Failing { mask: true, panics: false, asked: 0 };
    let readings: Vec<_> = receiver.read(&mut bytes, &mut cipher, &mut idle()).unwrap().collect();
    assert_eq!(readings, [opened(0, b"one"), Reading::Dropped(Refusal::NotOpened), opened(2, b"three")]);
    // Its number is not used: it can arrive once more.
    let mut bytes = original.clone();
    let readings: Vec<_> = receiver.read(&mut bytes, &mut Toy(5), &mut idle()).unwrap().collect();
    let again = Reading::Dropped(Refusal::Seen);
    assert_eq!(readings, [again, opened(1, b"two"), again]);
}

#[test]
fn a_record_that_is_not_opened_is_dropped_alone() {
    let mut bytes = datagram(&[b"one", b"two", b"three"]);
    let mut cipher = Failing { mask: false, panics: false, asked: 0 };
    let readings: Vec<_> = receiver().read(&mut bytes, &mut cipher, &mut idle()).unwrap().collect::<Vec<_>>();
    assert_eq!(readings, [opened(0, b"one"), Reading::Dropped(Refusal::NotOpened), opened(2, b"three")]);
}

#[test]
fn a_panic_ends_the_datagram() {
    for mask in [true, false] {
        let original = datagram(&[b"one", b"two", b"three"]);
        let mut receiver = receiver();
        let mut bytes = original.clone();
        let (mut cipher, mut sender) = (Failing { mask, panics: true, asked: 0 }, idle());
        let mut readings = receiver.read(&mut bytes, &mut cipher, &mut sender).unwrap();
        let first = readings.next();
        assert!(catch_unwind(AssertUnwindSafe(|| readings.next().is_some())).is_err());
        assert_eq!((first, readings.next()), (Some(opened(0, b"one")), None));
        let mut bytes = original.clone();
        let readings: Vec<_> = receiver.read(&mut bytes, &mut Toy(5), &mut idle()).unwrap().collect();
        assert_eq!(readings, [Reading::Dropped(Refusal::Seen), opened(1, b"two"), opened(2, b"three")]);
    }
}

#[test]
fn remove_tells_of_a_question_that_waited() {
    let mut receiver = receiver();
    let mut bytes = datagram(&[b"one", b"two"]);
    let (mut cipher, mut sender) = (Failing { mask: true, panics: true, asked: 0 }, idle());
    let readings = receiver.read(&mut bytes, &mut cipher, &mut sender).unwrap();
    assert!(catch_unwind(AssertUnwindSafe(|| readings.count())).is_err());
    assert_eq!(receiver.remove(3), Ok(true));
    assert_eq!(receiver.remove(3), Err(Refusal::BadEpoch));
    receiver.key(4, &[7; 12]).unwrap();
    assert_eq!(receiver.remove(4), Ok(false));
}

/// A datagram of 16,384 bytes full of one record, cut off at its end.
fn full_of(record: &[u8]) -> Vec<u8> {
    record.iter().copied().cycle().take(16_384).collect()
}

/// A stranger fills a datagram with records that are dropped: each is told.
#[test]
fn records_are_dropped_without_a_limit() {
    let bad_plaintext = [23, 0xFE, 0xFD, 0, 0, 0, 0, 0, 0, 0, 0, 0, 0];
    // Sealed records without a protected part: a number of one byte in epochs 0 and 3, and of two bytes in epoch 2, which is not keyed.
    let (early, short, unkeyed) = ([0x24, 0, 0, 0], [0x27, 0, 0, 0], [0x2E, 0, 0, 0, 0]);
    let before = || Receiver::new(Receiver::MIN_PROTECTED).unwrap();
    // Each asks for its mask and for its opening.
    let mut closed = datagram(&[b"x"]);
    closed[8] ^= 1;
    for (mut receiver, record, refusal, count) in [
        (before(), &early[..], Refusal::BeforeEncryption, 4096),
        (receiver(), &short, Refusal::TooShort, 4096),
        (receiver(), &unkeyed, Refusal::NoKeys, 3276),
        (before(), &bad_plaintext, Refusal::BadPlaintext, 1260),
        (receiver(), &bad_plaintext, Refusal::BadPlaintext, 1260),
        (receiver(), &closed, Refusal::NotOpened, 712),
    ] {
        assert_eq!(count, 16_384 / record.len());
        let (mut bytes, mut cipher, mut sender) = (full_of(record), Toy(5), idle());
        let mut readings = receiver.read(&mut bytes, &mut cipher, &mut sender).unwrap();
        for i in 0..count {
            assert_eq!(readings.next(), Some(Reading::Dropped(refusal)), "{i}");
        }
        let fault = (16_384 % record.len() > 0).then_some(Reading::Fault(Refusal::Truncated));
        assert_eq!(readings.next(), fault);
        assert_eq!(readings.next(), None);
    }
}

#[test]
fn a_record_is_handed_over_once_of_many_copies() {
    let mut bytes = full_of(&datagram(&[b"x"]));
    let readings: Vec<_> = receiver().read(&mut bytes, &mut Toy(5), &mut idle()).unwrap().collect();
    assert_eq!(readings[0], opened(0, b"x"));
    assert_eq!(readings[1..712], [Reading::Dropped(Refusal::Seen); 711]);
    assert_eq!(readings[712..], [Reading::Fault(Refusal::Truncated)]);
}

/// Sixteen readings with dropped records between them, all of them kept, then a seventeenth.
#[test]
fn dropped_records_lie_between_sixteen_readings() {
    let dropped = [0x27, 0, 0, 0].repeat(200);
    let contents: [[u8; 3]; 9] = std::array::from_fn(|i| [i as u8; 3]);
    let sealed = datagram(&contents.each_ref().map(|content| &content[..]));
    let mut bytes = Vec::new();
    let mut expected = Vec::new();
    for (record, content) in sealed.chunks(5 + 3 + 17).zip(&contents) {
        let number = u64::from(content[0]);
        let plaintext = [21, 0xFE, 0xFD, 0, 0, 0, 0, 0, 0, 0, content[0], 0, 3];
        bytes.extend([&dropped[..], record, &dropped, &plaintext, content].concat());
        let reading = Reading::Unprotected { number, content_type: 21 };
        for reading in [opened(number, content), reading] {
            expected.extend([Reading::Dropped(Refusal::TooShort); 200]);
            expected.push(reading);
        }
    }
    assert_eq!(bytes.len(), 9 * (1600 + 25 + 16));
    // The seventeenth ends the datagram.
    expected.truncate(16 * 201 + 200);
    expected.push(Reading::Fault(Refusal::TooManyReadings));
    let readings: Vec<_> = receiver().read(&mut bytes, &mut Toy(5), &mut idle()).unwrap().collect();
    assert!(readings == expected);
}

#[test]
fn sixteen_readings_and_a_fault() {
    let mut bytes = datagram(&[&b"x"[..]; 20]);
    let readings: Vec<_> = receiver().read(&mut bytes, &mut Toy(5), &mut idle()).unwrap().collect();
    assert_eq!(readings.len(), 17);
    assert!((0..16).all(|i| readings[i] == opened(i as u64, b"x")));
    assert_eq!(readings[16], Reading::Fault(Refusal::TooManyReadings));
}

#[test]
fn lengths() {
    let mut receiver = receiver();
    assert_eq!(receiver.read(&mut [], &mut Toy(5), &mut idle()).unwrap().next(), None);
    assert_eq!(receiver.read(&mut [0; 16_385], &mut Toy(5), &mut idle()).err(), Some(Refusal::DatagramTooLong));
    assert_eq!(Receiver::new(18).err(), Some(Refusal::OutOfRange));
}

#[test]
fn a_cipher_can_be_a_trait_object() {
    let mut bytes = datagram(&[b"one"]);
    let cipher: &mut dyn Cipher = &mut Toy(5);
    assert_eq!(receiver().read(&mut bytes, cipher, &mut idle()).unwrap().next(), Some(opened(0, b"one")));
}

/// Numbers from a seed (SplitMix64).
struct Random(u64);

impl Random {
    fn below(&mut self, n: usize) -> usize {
        self.0 = self.0.wrapping_add(0x9E37_79B9_7F4A_7C15);
        let z = (self.0 ^ (self.0 >> 30)).wrapping_mul(0xBF58_476D_1CE4_E5B9);
        let z = (z ^ (z >> 27)).wrapping_mul(0x94D0_49BB_1331_11EB);
        ((z ^ (z >> 31)) % n as u64) as usize
    }
}

/// Datagrams changed and cut off anywhere: each is read to its end, and what is opened is what was sealed, once.
#[test]
fn any_bytes_are_read() {
    let contents: [&[u8]; 3] = [b"one", b"two", b"three"];
    let original = datagram(&contents);
    let mut random = Random(1);
    for _ in 0..200 {
        let (mut receiver, mut handed) = (receiver(), [false; 3]);
        for _ in 0..100 {
            let mut bytes = original.clone();
            for _ in 0..random.below(4) {
                let i = random.below(bytes.len());
                bytes[i] ^= random.below(256) as u8;
            }
            bytes.truncate(random.below(2 * bytes.len()));
            for reading in receiver.read(&mut bytes, &mut Toy(5), &mut idle()).unwrap() {
                if let Reading::ApplicationData { epoch, number, content } = reading {
                    assert_eq!((epoch, content), (3, contents[number as usize]));
                    assert!(!std::mem::replace(&mut handed[number as usize], true));
                }
            }
        }
        assert_eq!(handed, [true; 3]);
    }
}
