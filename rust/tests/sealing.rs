//! A cipher that fails while it seals, by an error or by a panic: what was sealed before can be taken, nothing else leaves the sender, and
//! nothing is sealed a second time.
#![cfg(feature = "alloc")]

mod toy;

use std::panic::{catch_unwind, AssertUnwindSafe};

use huskelapse::content_type::APPLICATION_DATA;
use huskelapse::{Cipher, CipherError, Error, Refusal, SealFailed, Sender};
use toy::Toy;

const MTU: usize = 600;
const BROKEN: CipherError = CipherError::new("broken");

#[derive(Clone, Copy, PartialEq)]
enum Call {
    Seal,
    Mask,
}

/// Fails at the third record, in one of its two calls; in `seal` it has sealed the part before.
struct Failing {
    call: Call,
    panics: bool,
    sealed: usize,
}

impl Failing {
    fn answer(&self, call: Call) -> Result<(), CipherError> {
        match (self.sealed, call == self.call, self.panics) {
            (3, true, true) => panic!("as the test wants"),
            (3, true, false) => Err(BROKEN),
            _ => Ok(()),
        }
    }
}

impl Cipher for Failing {
    fn mask(&mut self, epoch: u16, sample: &[u8; 16]) -> Result<[u8; 2], CipherError> {
        self.answer(Call::Mask)?;
        Toy(5).mask(epoch, sample)
    }

    fn open(&mut self, _: u16, _: u64, _: &[u8; 12], _: &[u8], _: &mut [u8]) -> bool {
        unreachable!("a sender does not open")
    }

    fn seal(&mut self, epoch: u16, number: u64, nonce: &[u8; 12], header: &[u8], part: &mut [u8]) -> Result<(), CipherError> {
        self.sealed += 1;
        Toy(5).seal(epoch, number, nonce, header, part)?;
        self.answer(Call::Seal)
    }
}

/// A cipher that may not be asked.
struct Unasked;

impl Cipher for Unasked {
    fn mask(&mut self, _: u16, _: &[u8; 16]) -> Result<[u8; 2], CipherError> {
        panic!("asked for a mask")
    }

    fn open(&mut self, _: u16, _: u64, _: &[u8; 12], _: &[u8], _: &mut [u8]) -> bool {
        panic!("asked to open")
    }

    fn seal(&mut self, _: u16, _: u64, _: &[u8; 12], _: &[u8], _: &mut [u8]) -> Result<(), CipherError> {
        panic!("asked to seal")
    }
}

/// Records 0 in the first datagram, 1 and 2 in the second, 3 in the third.
fn sender() -> Sender {
    let mut sender = Sender::new(MTU, 4).unwrap();
    sender.key(3, &[7; 12]).unwrap();
    for length in [500, 300, 200, 500] {
        sender.send(3, APPLICATION_DATA, &vec![b'!'; length]).unwrap();
    }
    assert_eq!((sender.status().queued, sender.status().waiting), (3, 4));
    sender
}

fn is_readable(bytes: &[u8]) -> bool {
    bytes.windows(4).any(|four| four == b"!!!!")
}

/// What must hold of a sender whose record 2 failed.
fn hands_out_the_first_alone(mut sender: Sender, cause: Option<CipherError>) {
    let is_failed = |failed: SealFailed| (failed.epoch, failed.number, failed.cause) == (3, 2, cause);
    let stays = |sender: &mut Sender| {
        assert!(is_failed(sender.seal(&mut Unasked).unwrap_err()));
        let mut buffer = [0; MTU];
        assert!(matches!(sender.take(&mut buffer), Err(Error::SealFailed(failed)) if is_failed(failed)));
        assert_eq!(buffer, [0; MTU]);
        assert!(matches!(sender.take_in_place(), Err(Error::SealFailed(failed)) if is_failed(failed)));
    };
    assert!(is_failed(sender.seal(&mut Toy(5)).unwrap_err()));
    let mut buffer = [0; MTU];
    let first = sender.take(&mut buffer).unwrap().unwrap();
    assert_eq!(first.len(), 522);
    assert!(!is_readable(first));
    stays(&mut sender);
    // What is queued behind it does not leave either, in plaintext or sealed, and the epoch cannot be replaced.
    sender.send(0, 22, b"hello").unwrap();
    sender.send(3, APPLICATION_DATA, b"!!!!").unwrap();
    assert_eq!(sender.key(4, &[8; 12]), Err(Refusal::Waiting));
    sender.begin_flight();
    stays(&mut sender);
    assert_eq!(sender.status().waiting, 3);
    let words = sender.seal(&mut Unasked).unwrap_err().to_string();
    assert!(words.starts_with("record 2 of epoch 3 is not sealed") && words.ends_with("make a new sender with new keys"));
}

fn error(call: Call) {
    let mut sender = sender();
    let mut cipher = Failing { call, panics: false, sealed: 0 };
    let failed = sender.seal(&mut cipher).unwrap_err();
    assert_eq!((failed.epoch, failed.number, failed.cause), (3, 2, Some(BROKEN)));
    assert_eq!(cipher.sealed, 3);
    hands_out_the_first_alone(sender, Some(BROKEN));
}

fn panicked(call: Call) {
    let mut sender = sender();
    let mut cipher = Failing { call, panics: true, sealed: 0 };
    assert!(catch_unwind(AssertUnwindSafe(|| sender.seal(&mut cipher))).is_err());
    assert_eq!(cipher.sealed, 3);
    hands_out_the_first_alone(sender, None);
}

#[test]
fn an_error_in_seal() {
    error(Call::Seal);
}

#[test]
fn an_error_in_mask() {
    error(Call::Mask);
}

#[test]
fn a_panic_in_seal() {
    panicked(Call::Seal);
}

#[test]
fn a_panic_in_mask() {
    panicked(Call::Mask);
}

/// The toy is such a cipher: a sender that sealed twice would send plaintext.
#[test]
fn the_toy_sealed_twice_is_plaintext() {
    let mut part = *b"!!!!!!!!................";
    for readable in [false, true] {
        Toy(5).seal(3, 0, &[7; 12], &[], &mut part).unwrap();
        assert_eq!(is_readable(&part), readable);
    }
}

#[test]
fn a_sealing_that_waits_is_not_failed() {
    let mut sender = sender();
    assert_eq!(sender.take(&mut [0; MTU]), Err(Error::Refused(Refusal::Waiting)));
    assert_eq!(sender.take_in_place(), Err(Error::Refused(Refusal::Waiting)));
    assert_eq!(sender.seal(&mut Toy(5)), Ok(4));
    assert_eq!(sender.seal(&mut Unasked), Ok(0));
    while let Some(datagram) = sender.take_in_place().unwrap() {
        assert!(!is_readable(datagram));
    }
}
