//! Both sides of an end with its flight, and the call that deals with a reading.

use super::{Input, part, receiving, sending};
use crate::classes::{Answer, Left};

/// Words of what waits: its kind, and the close; crates/classify says what every word is.
const KIND: usize = 0;
const CLOSED: usize = 6;
const CLOSE_EPOCH: usize = 7;
const CLOSE_NUMBER: usize = 8;

pub struct Host {
    receiving: receiving::Host,
    sending: sending::Host,
}

impl Host {
    pub fn new() -> Self {
        Self {
            receiving: receiving::Host::new(),
            sending: sending::Host::new(),
        }
    }

    /// Capital letters are steps of the sending side.
    pub fn step(&mut self, letter: char, input: &[u8]) -> Vec<u8> {
        match letter {
            'c' => self.classify(Input(input).u8() as usize).bytes(),
            'A'..='Z' => self
                .sending
                .step(letter.to_ascii_lowercase(), input)
                .bytes(),
            _ => self.receiving.step(letter, input).bytes(),
        }
    }

    /// The reading that waits is dealt with; the datagram lent has so many bytes fewer than the one begun.
    fn classify(&mut self, fewer: usize) -> Answer {
        let datagram = &self.receiving.datagram;
        let lent = part(datagram, 0, datagram.len().saturating_sub(fewer));
        let (flight, sending) = (&mut self.sending.flight, &mut self.sending.state);
        let state = &mut self.receiving.state;
        let class = state.classify(flight, sending, lent);
        Answer {
            refusal: class.refusal,
            kind: class.kind,
            description: class.description,
            acked: [class.marked, class.unacknowledged, class.saved],
            start: class.start,
            shown: part(datagram, class.start, class.length).to_vec(),
            left: self.left(),
        }
    }

    fn left(&self) -> Left {
        let pending = &self.receiving.state.pending;
        let place = (pending[CLOSE_EPOCH], pending[CLOSE_NUMBER]);
        Left {
            marks: self.sending.marks(),
            close: (pending[CLOSED] == 1).then_some(place),
            waits: pending[KIND] != 0,
        }
    }
}
