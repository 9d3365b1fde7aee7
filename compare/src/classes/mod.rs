//! Whole histories of an end that deals with each reading: their steps, and what the Rust's `classify_record` makes of them as
//! lines. compare/README.md has the layout of the lines.

pub mod generate;
pub mod limits;
pub mod reference;

use crate::beside::Line;
use crate::histories::generate::Packet;
use crate::histories::{self, Reply};
use crate::requests::Changes;
use crate::sendings::{self, Settings};

pub const CHANGE_CIPHER_SPEC: u8 = 20;
pub const ALERT: u8 = 21;
pub const HANDSHAKE: u8 = 22;
pub const APPLICATION_DATA: u8 = 23;
pub const ACK: u8 = 26;

/// A record of a datagram with the replies to its questions, or other bytes.
#[derive(Debug, Clone, PartialEq, Eq)]
pub struct Part {
    pub bytes: Vec<u8>,
    pub reply: Option<Reply>,
}

/// What is in a record.
#[derive(Debug, Clone, PartialEq, Eq)]
pub struct Content {
    pub content_type: u8,
    pub bytes: Vec<u8>,
}

impl Part {
    fn of(packet: Packet) -> Self {
        Self {
            bytes: packet.bytes,
            reply: packet.replies.into_iter().next(),
        }
    }

    pub fn plaintext(number: u64, content: &Content) -> Self {
        let mut packet = Packet::default();
        packet.plaintext(content.content_type, 0xFEFD, 0, number, &content.bytes);
        Self::of(packet)
    }

    /// A sealed record with a length; its bits lie as they are, under a mask of 0.
    pub fn sealed(epoch: u16, two: bool, number: u64, content: &Content) -> Self {
        let mut packet = Packet::default();
        let mut text = content.bytes.clone();
        text.push(content.content_type);
        let protected = vec![0xB7; text.len() + 16];
        let bits = (epoch % 4) as u8;
        packet.sealed(bits, two, true, number, [0, 0], &protected);
        packet.reply([0, 0], Some(text));
        Self::of(packet)
    }
}

/// A step of a history.
#[derive(Debug, Clone, PartialEq, Eq)]
pub enum Step {
    /// A call that keys, sends or saves.
    Send(sendings::Step),
    /// All that waits sealed, all that is queued taken.
    Flush,
    /// A call that keys or removes a receive epoch, turns encryption on or releases.
    Receive(histories::Step),
    /// A datagram read to its end, each reading dealt with as it comes.
    Datagram {
        parts: Vec<Part>,
        /// Where the random numbers begin for readings that are passed over and for calls that change nothing; 0: none.
        between: u64,
    },
}

/// A history from fresh states on.
#[derive(Debug, Clone, PartialEq, Eq)]
pub struct History {
    pub settings: Settings,
    pub min_protected: u8,
    pub steps: Vec<Step>,
}

// The classes, by the header's numbers.
pub const REFUSED: u8 = 0;
pub const NOTHING: u8 = 1;
pub const BEYOND: u8 = 2;
pub const UNPROTECTED: u8 = 3;
pub const IGNORED: u8 = 4;
pub const ACTED: u8 = 5;
pub const CLOSE: u8 = 6;
pub const TOLD: u8 = 7;
pub const TO_HANDSHAKE: u8 = 8;
pub const TO_APPLICATION: u8 = 9;
pub const OTHER: u8 = 10;
pub const UNOPENED: u8 = 11;
pub const CLASSES: usize = 12;

/// What the call that deals with a reading answers, and what it leaves behind.
#[derive(Debug, Clone, Default, PartialEq, Eq)]
pub struct Answer {
    pub refusal: u8,
    pub kind: u8,
    pub description: u8,
    /// How many records an ACK marked, and how many are then not acknowledged and saved.
    pub acked: [u8; 3],
    /// Where the content of the reading lies, and its bytes.
    pub start: usize,
    pub shown: Vec<u8>,
    pub left: Left,
}

/// What is left behind: which saved records are marked, the close that is remembered, whether the reading waits on.
#[derive(Debug, Clone, Default, PartialEq, Eq)]
pub struct Left {
    pub marks: Vec<bool>,
    pub close: Option<(u64, u64)>,
    pub waits: bool,
}

impl Answer {
    pub fn bytes(&self) -> Vec<u8> {
        let mut bytes = vec![self.refusal, self.kind, self.description];
        bytes.extend_from_slice(&self.acked);
        bytes.extend_from_slice(&(self.start as u16).to_be_bytes());
        bytes.extend_from_slice(&(self.shown.len() as u16).to_be_bytes());
        bytes.extend_from_slice(&self.shown);
        let Left {
            marks,
            close,
            waits,
        } = &self.left;
        bytes.push(marks.len() as u8);
        bytes.extend(marks.iter().map(|mark| *mark as u8));
        let (epoch, number) = close.unwrap_or_default();
        bytes.push(close.is_some() as u8);
        bytes.extend_from_slice(&epoch.to_be_bytes());
        bytes.extend_from_slice(&number.to_be_bytes());
        bytes.push(*waits as u8);
        bytes
    }
}

/// What histories met.
#[derive(Debug, Clone, Default)]
pub struct Met {
    /// The readings dealt with, by class.
    pub kinds: [u64; CLASSES],
    /// Of these: in plaintext before and after encryption was on, unopened, opened.
    pub plaintext: [u64; 2],
    pub unopened: u64,
    pub opened: u64,
    /// Readings that the host passed over.
    pub passed: u64,
    /// Calls refused by 15.
    pub refused: u64,
    pub marked: u64,
    pub emptied: u64,
    /// ACKs that marked nothing.
    pub idle: u64,
    /// Datagrams with bytes behind the alert that ended them.
    pub ended: u64,
}

impl Met {
    fn counts(&mut self) -> impl Iterator<Item = &mut u64> {
        let Self {
            kinds,
            plaintext,
            unopened,
            opened,
            passed,
            refused,
            marked,
            emptied,
            idle,
            ended,
        } = self;
        let rest = [
            unopened, opened, passed, refused, marked, emptied, idle, ended,
        ];
        kinds.iter_mut().chain(plaintext).chain(rest)
    }

    pub fn add(&mut self, other: &Self) {
        let mut other = other.clone();
        self.counts()
            .zip(other.counts())
            .for_each(|(sum, n)| *sum += *n);
    }
}

/// The script of a history with its answers.
#[derive(Default)]
pub struct Run {
    pub lines: Vec<Line>,
    pub met: Met,
    /// How often a request changed what the Rust does; if at all, the history has left the equality with it.
    pub changes: Changes,
}
