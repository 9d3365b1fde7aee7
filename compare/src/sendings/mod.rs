//! Whole histories of sending: their steps, and what the Rust answers to them as lines.
//! compare/README.md has the layout of the lines.

pub mod generate;
pub mod limits;
pub mod reference;
pub mod rules;

use crate::beside::Line;

/// Bytes given by their number and a pattern that is repeated.
#[derive(Debug, Clone, PartialEq, Eq)]
pub struct Bytes {
    pub length: usize,
    pub pattern: Vec<u8>,
}

impl Bytes {
    pub fn whole(&self) -> Vec<u8> {
        crate::crypto::script::repeated(&self.pattern, self.length)
    }

    /// As in a script: the number, then as much of the pattern as is needed.
    fn given(&self) -> Vec<u8> {
        let mut bytes = (self.length as u16).to_be_bytes().to_vec();
        bytes.extend_from_slice(&self.pattern[..self.pattern.len().min(self.length)]);
        bytes
    }
}

/// A step of a history.
#[derive(Debug, Clone, PartialEq, Eq)]
pub enum Step {
    Key {
        epoch: u16,
        iv: [u8; 12],
    },
    /// An epoch's next number, and the next message number: limits that no history of a reasonable
    /// length comes to.
    Number {
        epoch: u16,
        number: u64,
    },
    MessageNumber(u16),
    Send {
        epoch: u16,
        content_type: u8,
        save: bool,
        content: Bytes,
    },
    Message {
        kind: u8,
        body: Bytes,
    },
    BeginFlight,
    Resend,
    /// The content of an ACK that arrived.
    Ack(Vec<u8>),
    Note {
        epoch: u64,
        number: u64,
    },
    SendAck,
    /// The sealing question.
    Ask,
    /// Its reply, that so many bytes more or fewer than asked for were sealed.
    Reply(i32),
    /// A datagram taken with a buffer so many bytes longer or shorter than it.
    Take(i32),
    /// Numbers, queue and saved records.
    View,
}

/// Settings, and how many bytes are lent for queue and flight.
#[derive(Debug, Clone, Copy, PartialEq, Eq)]
pub struct Settings {
    pub mtu: usize,
    pub limit: usize,
    pub room: usize,
    pub kept: usize,
}

impl Settings {
    pub fn new(mtu: usize, limit: usize) -> Self {
        Self {
            mtu,
            limit,
            room: 24_000,
            kept: 18_000,
        }
    }
}

/// A history from a fresh state on.
#[derive(Debug, Clone, PartialEq, Eq)]
pub struct History {
    pub settings: Settings,
    pub steps: Vec<Step>,
}

/// What a line answers. All zeros: done.
#[derive(Debug, Clone, Default, PartialEq, Eq)]
pub struct Answer {
    pub refusal: u8,
    pub kind: u8,
    pub epoch: u16,
    pub number: u64,
    pub start: usize,
    pub length: usize,
    pub nonce: [u8; 12],
    pub header: [u8; 5],
    pub shown: Vec<u8>,
}

pub const NOTHING: u8 = 1;
pub const DATAGRAM: u8 = 2;
pub const QUESTION: u8 = 3;

impl Answer {
    pub fn refused(number: u8) -> Self {
        Self {
            refusal: number,
            ..Self::default()
        }
    }

    pub fn shown(shown: Vec<u8>) -> Self {
        Self {
            shown,
            ..Self::default()
        }
    }

    pub fn bytes(&self) -> Vec<u8> {
        let mut bytes = Vec::with_capacity(35 + self.shown.len());
        bytes.extend_from_slice(&[self.refusal, self.kind]);
        bytes.extend_from_slice(&self.epoch.to_be_bytes());
        bytes.extend_from_slice(&self.number.to_be_bytes());
        bytes.extend_from_slice(&(self.start as u16).to_be_bytes());
        bytes.extend_from_slice(&(self.length as u16).to_be_bytes());
        bytes.extend_from_slice(&self.nonce);
        bytes.extend_from_slice(&self.header);
        bytes.extend_from_slice(&(self.shown.len() as u16).to_be_bytes());
        bytes.extend_from_slice(&self.shown);
        bytes
    }
}

/// What a run met: calls done, and how often each refusal.
#[derive(Debug, Clone, Default)]
pub struct Tally {
    pub records: u64,
    pub messages: u64,
    pub pieces: u64,
    pub saved: u64,
    pub resends: u64,
    pub resent: u64,
    pub acks: u64,
    pub marked: u64,
    pub noted: u64,
    pub acks_sent: u64,
    pub sealings: u64,
    pub datagrams: u64,
    pub refusals: [u64; 24],
}

impl Tally {
    pub fn add(&mut self, other: &Tally) {
        self.records += other.records;
        self.messages += other.messages;
        self.pieces += other.pieces;
        self.saved += other.saved;
        self.resends += other.resends;
        self.resent += other.resent;
        self.acks += other.acks;
        self.marked += other.marked;
        self.noted += other.noted;
        self.acks_sent += other.acks_sent;
        self.sealings += other.sealings;
        self.datagrams += other.datagrams;
        for (sum, n) in self.refusals.iter_mut().zip(other.refusals) {
            *sum += n;
        }
    }
}

/// The script of a history with its answers.
#[derive(Default)]
pub struct Run {
    pub lines: Vec<Line>,
    pub tally: Tally,
}

impl Run {
    fn say(&mut self, letter: char, input: &[u8], answer: Answer) {
        self.tally.refusals[answer.refusal as usize] += 1;
        self.lines.push(Line {
            letter,
            asked: input.to_vec(),
            answered: answer.bytes(),
        });
    }
}
