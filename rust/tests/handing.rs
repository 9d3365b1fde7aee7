//! The datagram of huskelapse-sys, which is lent to the library while parts of it are handed on: what would write to those panics.

use std::panic::{catch_unwind, AssertUnwindSafe};

use huskelapse_sys::{Datagram, Reading, Receiving, READING_END, READING_MASK, READING_OPENING, READING_PLAINTEXT};

/// Two alerts in plaintext, each with 2 bytes of content, then a sealed record of epoch 3.
fn bytes() -> Vec<u8> {
    let alert = [21, 0xFE, 0xFD, 0, 0, 0, 0, 0, 0, 0, 4, 0, 2, 1, 0];
    [&alert[..], &alert, &[0x2F, 0, 1, 0, 20], &[0; 20]].concat()
}

fn receiving() -> Receiving {
    let mut state = Receiving::BLANK;
    assert_eq!((state.init(17), state.key(3, &[7; 12]), state.enable_encryption()), (0, 0, 0));
    state
}

fn panics<T>(call: impl FnOnce() -> T) -> bool {
    catch_unwind(AssertUnwindSafe(|| drop(call()))).is_err()
}

fn is_content(r: Reading, start: usize) -> bool {
    (r.kind, r.start, r.length) == (READING_PLAINTEXT, start, 2)
}

#[test]
fn parts_are_handed_on_in_order_and_once() {
    let (mut state, mut bytes) = (receiving(), bytes());
    let (mut datagram, first) = Datagram::begin_read(&mut state, &mut bytes).unwrap();
    assert!(is_content(first, 13));
    // Not what the library did not tell of, and not what is outside.
    assert!(panics(|| datagram.hand(13, 3).len()));
    assert!(panics(|| datagram.hand(28, 2).len()));
    assert!(panics(|| datagram.hand(14, usize::MAX).len()));
    assert!(panics(|| datagram.lend(54, 2).len()));
    let kept = datagram.hand(13, 2);
    for from in [0, 13, 14] {
        assert!(panics(|| datagram.hand(from, 1).len()));
        assert!(panics(|| datagram.lend(from, 1).len()));
    }
    assert!(is_content(datagram.read(), 28));
    assert_eq!((kept, datagram.hand(28, 2)), (&[1, 0][..], &[1, 0][..]));
    assert_eq!(datagram.lend(30, 25).len(), 25);
}

#[test]
fn a_record_that_is_handed_on_is_not_unmasked() {
    let (mut state, mut bytes) = (receiving(), bytes());
    let (mut datagram, _) = Datagram::begin_read(&mut state, &mut bytes).unwrap();
    // No question waits.
    assert!(panics(|| datagram.mask([1, 1])));
    datagram.read();
    let kept = datagram.hand(28, 2);
    let asked = datagram.read();
    assert_eq!((asked.kind, asked.start, asked.length), (READING_MASK, 35, 16));
    // Nothing of it can be handed on before it is told of.
    assert!(panics(|| datagram.hand(30, 5).len()));
    datagram.mask([0, 0]);
    datagram.opened(false, 0);
    assert_eq!(datagram.read().kind, READING_END);
    assert_eq!(kept, [1, 0]);
}

/// A read unmasks the record that it comes to, and no byte before or behind its number.
#[test]
fn what_is_handed_on_stays_where_a_read_unmasks() {
    let mut state = Receiving::BLANK;
    assert_eq!((state.init(17), state.key_masked(3, &[7; 12], &[9; 32]), state.enable_encryption()), (0, 0, 0));
    let (before, mut bytes) = (bytes(), bytes());
    let (mut datagram, _) = Datagram::begin_read(&mut state, &mut bytes).unwrap();
    let first = datagram.hand(13, 2);
    datagram.read();
    let second = datagram.hand(28, 2);
    let asked = datagram.read();
    assert_eq!((asked.kind, asked.start, asked.header_len, asked.length), (READING_OPENING, 30, 5, 20));
    assert_eq!((datagram.read(), first, second), (asked, &[1, 0][..], &[1, 0][..]));
    let unmasked = datagram.lend(30, 25).to_vec();
    assert!(unmasked[1..3] != before[31..33]);
    assert_eq!((unmasked[0], &unmasked[3..]), (before[30], &before[33..]));
    datagram.opened(false, 0);
    assert_eq!(datagram.read().kind, READING_END);
    assert_eq!((&bytes[..30], &bytes[30..]), (&before[..30], &unmasked[..]));
}

#[test]
fn words_that_are_no_state_begin_nothing() {
    let mut state = Receiving { word: [u64::MAX; 39], ..Receiving::BLANK };
    assert_eq!(Datagram::begin_read(&mut state, &mut [0; 20]).err(), Some(12));
    assert_eq!(Datagram::begin_read(&mut receiving(), &mut [0; 16_385]).err(), Some(1));
}
