//! Whole histories of receiving: their steps, and what the Rust answers to them as lines.
//! compare/README.md has the layout of the lines.

pub mod between;
pub mod generate;
pub mod limits;
pub mod reference;

use crate::beside::Line;
pub use crate::crypto::script::Reply;
use crate::requests::Changes;

/// A step of a history.
#[derive(Debug, Clone, PartialEq, Eq)]
pub enum Step {
    Key {
        epoch: u16,
        iv: [u8; 12],
    },
    Remove(u16),
    Encrypt,
    Release,
    /// A number marked in an epoch's window, as opening a record with it does: limits that no
    /// history of a reasonable length comes to.
    Mark {
        epoch: u16,
        number: u64,
    },
    /// A datagram, read to its end, with the replies to its questions in their order.
    Datagram {
        bytes: Vec<u8>,
        replies: Vec<Reply>,
    },
}

/// A history from a fresh state on.
#[derive(Debug, Clone, PartialEq, Eq)]
pub struct History {
    pub min_protected: u8,
    /// Where the random numbers begin for the calls between the steps that change nothing; 0: none.
    pub between: u64,
    pub steps: Vec<Step>,
}

/// What a line answers. All zeros: a call that reads nothing, done.
#[derive(Debug, Clone, Default, PartialEq, Eq)]
pub struct Answer {
    pub refusal: u8,
    pub kind: u8,
    pub reason: u8,
    pub epoch: u16,
    pub number: u64,
    pub content_type: u8,
    pub start: usize,
    pub nonce: [u8; 12],
    pub shown: Vec<u8>,
}

pub const END: u8 = 1;
pub const INCOMPLETE: u8 = 2;
pub const TOO_MANY: u8 = 3;
pub const DROPPED: u8 = 4;
pub const PLAINTEXT: u8 = 5;
pub const UNOPENED: u8 = 6;
pub const OPENED: u8 = 7;
pub const MASK: u8 = 8;
pub const OPENING: u8 = 9;

/// The reasons to drop that the window has.
pub const SEEN: u8 = 9;
pub const TOO_OLD: u8 = 26;
/// All reasons to drop, in the order of their tests.
pub const REASONS: [u8; 9] = [4, 5, 6, 7, 8, SEEN, TOO_OLD, 10, 11];
/// How often each occurred, by its number.
pub type Reasons = [u64; TOO_OLD as usize + 1];

impl Answer {
    pub fn kind(kind: u8) -> Self {
        Self {
            kind,
            ..Self::default()
        }
    }

    pub fn dropped(reason: u8) -> Self {
        Self {
            reason,
            ..Self::kind(DROPPED)
        }
    }

    /// The end of a datagram by a fault, which is its own number.
    pub fn fault(number: u8) -> Self {
        Self {
            refusal: number,
            ..Self::kind(number)
        }
    }

    pub fn bytes(&self) -> Vec<u8> {
        let mut bytes = Vec::with_capacity(30 + self.shown.len());
        bytes.extend_from_slice(&[self.refusal, self.kind, self.reason]);
        bytes.extend_from_slice(&self.epoch.to_be_bytes());
        bytes.extend_from_slice(&self.number.to_be_bytes());
        bytes.push(self.content_type);
        bytes.extend_from_slice(&(self.start as u16).to_be_bytes());
        bytes.extend_from_slice(&self.nonce);
        bytes.extend_from_slice(&(self.shown.len() as u16).to_be_bytes());
        bytes.extend_from_slice(&self.shown);
        bytes
    }
}

/// The script of a history with its answers, and how many of each kind of reading are in it.
#[derive(Default)]
pub struct Run {
    pub lines: Vec<Line>,
    /// The records handed over that were read in plaintext or opened.
    pub handed: Vec<Answer>,
    pub kinds: [u64; 10],
    pub reasons: Reasons,
    /// How often a request changed what the Rust does; if at all, the history has left the equality with it.
    pub changes: Changes,
}

impl Run {
    pub fn say(&mut self, letter: char, input: &[u8], answer: Answer) {
        if matches!(letter, 'r' | 'm' | 'o') {
            self.kinds[answer.kind as usize] += 1;
            self.reasons[answer.reason as usize] += 1;
        }
        if matches!(answer.kind, PLAINTEXT | OPENED) {
            self.handed.push(answer.clone());
        }
        self.lines.push(Line {
            letter,
            asked: input.to_vec(),
            answered: answer.bytes(),
        });
    }
}
