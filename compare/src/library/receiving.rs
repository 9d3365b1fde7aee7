//! The receive side.

use huskelapse_sys::{self as ffi, Reading, Receiving, Told};

use super::{Input, OTHERWISE, part};
use crate::histories::{Answer, DROPPED, END};

/// A datagram has at most so many bytes.
const LONGEST: usize = 16_384;
const TAG_LEN: usize = 16;

/// The words that the step `w` sets; crates/recv_words says what every word is. Five of each: the epochs keyed, and of
/// their windows the highest number and the marks of it and the 63 below it.
const EPOCHS: usize = 0;
const HIGHEST: usize = 5;
const MARKS: usize = 10;
/// How many epochs are keyed.
const COUNT: usize = 15;

/// The words of a link, and the begun datagram.
pub struct Host {
    pub(super) state: Receiving,
    pub(super) datagram: Vec<u8>,
    /// Where the protected part lies that an opening question which waits asks about, and its length.
    opening: Option<(usize, usize)>,
    /// What `begin_read` said of the datagram just begun, and the words and the datagram that it left.
    at_once: Option<(Reading, Receiving, Vec<u8>)>,
}

impl Host {
    pub fn new() -> Self {
        let mut host = Self {
            state: Receiving::BLANK,
            datagram: Vec::new(),
            opening: None,
            at_once: None,
        };
        host.fresh(16);
        host
    }

    pub fn step(&mut self, letter: char, input: &[u8]) -> Answer {
        let mut bytes = Input(input);
        if letter != 'r' {
            self.at_once = None;
        }
        let state = &mut self.state;
        match letter {
            'f' => self.fresh(bytes.u8() as usize),
            'k' => refused(state.key(bytes.u16(), &bytes.take())),
            'x' => removed(state.remove(bytes.u16())),
            'e' => refused(state.enable_encryption()),
            'l' => refused(state.release_application_data()),
            'w' => self.mark(bytes.u16(), bytes.u64()),
            'b' => self.begin(input),
            'r' => self.read(),
            'm' => self.mask(bytes.take()),
            'o' => self.opened(bytes.u8() == 1, bytes.0),
            'd' => Answer {
                shown: self.datagram.clone(),
                ..Answer::default()
            },
            _ => panic!("no step {letter}"),
        }
    }

    fn fresh(&mut self, min_protected: usize) -> Answer {
        self.datagram.clear();
        self.opening = None;
        refused(self.state.init(min_protected))
    }

    /// A number marked in the window of an epoch, as opening a record does.
    fn mark(&mut self, epoch: u16, number: u64) -> Answer {
        let state = &mut self.state.word;
        let keyed = EPOCHS..EPOCHS + (state[COUNT] as usize).min(5);
        if let Some(i) = keyed.rev().find(|i| state[*i] == epoch as u64) {
            let (highest, marks) = (state[HIGHEST + i], state[MARKS + i]);
            let shifted = |by: u64| u32::try_from(by).ok();
            if number > highest {
                let above = shifted(number - highest).and_then(|by| marks.checked_shl(by));
                state[HIGHEST + i] = number;
                state[MARKS + i] = above.unwrap_or(0) | 1;
            } else {
                let mark = shifted(highest - number).and_then(|by| 1u64.checked_shl(by));
                state[MARKS + i] |= mark.unwrap_or(0);
            }
        }
        Answer::default()
    }

    /// A datagram that is refused does not take the place of the one before. What `begin_read` does is looked at beside.
    fn begin(&mut self, datagram: &[u8]) -> Answer {
        let (mut state, mut copy) = (self.state.clone(), datagram.to_vec());
        let first = state.begin_read(&mut copy);
        let answer = self.state.begin(datagram.len());
        let refusal = match first.kind {
            ffi::READING_REFUSED => first.refusal,
            _ => 0,
        };
        if refusal != answer || answer != 0 && state != self.state {
            return Answer::kind(OTHERWISE);
        }
        if datagram.len() <= LONGEST {
            self.datagram = datagram.to_vec();
            self.opening = None;
            self.at_once = Some((first, state, copy));
        }
        refused(answer)
    }

    fn read(&mut self) -> Answer {
        let reading = self.state.read(&mut self.datagram);
        let alike = self.at_once.take().is_none_or(|(first, state, copy)| {
            first == reading && state == self.state && copy == self.datagram
        });
        if !alike {
            return Answer::kind(OTHERWISE);
        }
        self.reading(reading)
    }

    fn mask(&mut self, mask: [u8; 2]) -> Answer {
        let reading = self.state.mask(mask, &mut self.datagram);
        self.reading(reading)
    }

    /// The cipher's yes with the first bytes of the plaintext, or its no.
    fn opened(&mut self, yes: bool, plaintext: &[u8]) -> Answer {
        let mut length = 0;
        if let (true, Some((start, sealed))) = (yes, self.opening) {
            length = sealed.saturating_sub(TAG_LEN);
            let written = part(plaintext, 0, length).len();
            let protected = self.datagram.iter_mut().skip(start);
            for (byte, text) in protected.zip(&plaintext[..written]) {
                *byte = *text;
            }
        }
        let reading = self.state.opened(yes, length, &self.datagram);
        self.reading(reading)
    }

    /// What is said of a record, with the bytes that it names: of an opening question the header.
    fn reading(&mut self, r: Reading) -> Answer {
        let length = match r.kind {
            ffi::READING_OPENING => r.header_len,
            _ => r.length,
        };
        match r.kind {
            ffi::READING_OPENING => self.opening = Some((r.start + r.header_len, r.length)),
            ffi::READING_REFUSED => {}
            _ => self.opening = None,
        }
        Answer {
            epoch: r.epoch,
            number: r.number,
            content_type: r.content_type,
            start: r.start,
            nonce: r.nonce,
            shown: part(&self.datagram, r.start, length).to_vec(),
            ..kind(r.kind, r.refusal)
        }
    }
}

/// A kind of reading and its refusal: an end is told by its fault, a reason to drop stands apart.
fn kind(kind: u8, refusal: u8) -> Answer {
    match (kind, refusal) {
        (ffi::READING_REFUSED, refusal) => Answer {
            refusal,
            ..Answer::default()
        },
        (ffi::READING_END, 0) => Answer::kind(END),
        (ffi::READING_END, fault) => Answer::fault(fault),
        (ffi::READING_DROPPED, reason) => Answer::dropped(reason),
        (kind, refusal) => Answer {
            refusal,
            ..Answer::kind(kind.saturating_add(DROPPED - ffi::READING_DROPPED))
        },
    }
}

/// The answer of a call that reads nothing.
fn refused(refusal: u8) -> Answer {
    kind(ffi::READING_REFUSED, refusal)
}

/// An epoch is removed. A record under a question is dropped with it, by 6.
fn removed(answer: Told) -> Answer {
    match answer.told {
        1 => kind(ffi::READING_DROPPED, 6),
        _ => refused(answer.refusal),
    }
}
