//! The sending side with flight and noted records.

use huskelapse_sys::{self as ffi, Flight, Notes, Sending, Take, Told};

use super::{Input, OTHERWISE, part};
use crate::sendings::{Answer, NOTHING, QUESTION};

/// What lent memory and a lent buffer have at first.
const UNTOUCHED: u8 = 0xEE;

/// Words of the sending side that steps set or show; crates/send_words says what every word is.
const MTU: usize = 0;
const LIMIT: usize = 1;
const FIRST: usize = 2;
const COUNT: usize = 3;
const CLOSED: usize = 4;
const PLAINTEXT_NEXT: usize = 11;
const HANDSHAKE_NEXT: usize = 13;
const HANDSHAKE_SEALED: usize = 14;
const APPLICATION: usize = 15;
const APPLICATION_NEXT: usize = 16;
const APPLICATION_SEALED: usize = 17;
const MESSAGE: usize = 18;
/// A datagram's length for each slot.
const LENGTHS: usize = 19;

/// Words of the flight; crates/flight_words says what every word is. Six an entry: content type, epoch, number, length of
/// the content, whether it is acknowledged, how many numbers it remembers.
const ROW: usize = 6;
const MARKED: usize = 4;
const ENTRIES: usize = 12;
const SAVED: usize = 72;
/// An entry's remembered numbers at most.
const REMEMBERED: usize = 32;

/// The words of a link, and the memory lent to it.
pub struct Host {
    pub(super) state: Sending,
    pub(super) flight: Flight,
    notes: Notes,
    queue: Vec<u8>,
    kept: Vec<u8>,
}

fn refused(refusal: u8) -> Answer {
    Answer::refused(refusal)
}

/// The answer of a call that tells whether it did anything.
fn done(answer: Told) -> Answer {
    let nothing = answer.refusal == 0 && answer.told == 0;
    Answer {
        kind: if nothing { NOTHING } else { 0 },
        ..refused(answer.refusal)
    }
}

fn otherwise() -> Answer {
    Answer {
        kind: OTHERWISE,
        ..Answer::default()
    }
}

impl Host {
    pub fn new() -> Self {
        Self {
            state: Sending::BLANK,
            flight: Flight::BLANK,
            notes: Notes::BLANK,
            queue: Vec::new(),
            kept: Vec::new(),
        }
    }

    pub fn step(&mut self, letter: char, input: &[u8]) -> Answer {
        let mut bytes = Input(input);
        match letter {
            'f' => self.fresh(bytes),
            'k' => self.key(bytes.u16(), bytes.take()),
            'u' => self.set_number(bytes.u16(), bytes.u64()),
            'g' => self.set_message(bytes.u16()),
            'd' => self.send(bytes),
            'p' => self.send_saved(bytes),
            'h' => self.message(bytes),
            'b' => refused(self.flight.begin(&mut self.state)),
            'r' => self.resend(),
            'a' => self.process_ack(input),
            'n' => self.note(bytes.u64(), bytes.u64()),
            'c' => self.send_ack(),
            'q' => self.question(),
            's' => self.reply(bytes),
            't' => self.take(bytes.u16() as usize),
            'v' => self.view(),
            'e' => self.entry(bytes.u8() as usize),
            _ => panic!("no step {letter}"),
        }
    }

    fn fresh(&mut self, mut bytes: Input) -> Answer {
        let (mtu, limit) = (bytes.u16() as usize, bytes.u8() as usize);
        self.queue = vec![UNTOUCHED; bytes.u16() as usize];
        self.kept = vec![UNTOUCHED; bytes.u16() as usize];
        self.notes.init();
        self.flight.init();
        refused(self.state.init(mtu, limit))
    }

    fn key(&mut self, epoch: u16, iv: [u8; 12]) -> Answer {
        refused(self.state.key(epoch, &iv))
    }

    /// The next number of an epoch under which nothing waits, as if those before had been used.
    fn set_number(&mut self, epoch: u16, number: u64) -> Answer {
        let words = match epoch {
            0 => &[PLAINTEXT_NEXT][..],
            2 => &[HANDSHAKE_NEXT, HANDSHAKE_SEALED],
            _ => &[APPLICATION_NEXT, APPLICATION_SEALED],
        };
        for word in words {
            self.state.word[*word] = number;
        }
        Answer::default()
    }

    fn set_message(&mut self, number: u16) -> Answer {
        self.state.word[MESSAGE] = number as u64;
        Answer::default()
    }

    fn send(&mut self, mut bytes: Input) -> Answer {
        let (epoch, content_type, content) = (bytes.u16(), bytes.u8(), bytes.content());
        let queue = &mut self.queue;
        refused(self.state.send(epoch, content_type, &content, queue))
    }

    fn send_saved(&mut self, mut bytes: Input) -> Answer {
        let (epoch, content_type, content) = (bytes.u16(), bytes.u8(), bytes.content());
        let (state, queue, kept) = (&mut self.state, &mut self.queue, &mut self.kept);
        let flight = &mut self.flight;
        refused(flight.send(state, epoch, content_type, &content, queue, kept))
    }

    fn message(&mut self, mut bytes: Input) -> Answer {
        let (message_type, body) = (bytes.u8(), bytes.content());
        let (state, queue, kept) = (&mut self.state, &mut self.queue, &mut self.kept);
        let flight = &mut self.flight;
        refused(flight.message(state, message_type, &body, queue, kept))
    }

    /// How many are sent again is how many were not acknowledged.
    fn resend(&mut self) -> Answer {
        let before = self.flight.status();
        let (state, kept, queue) = (&mut self.state, &self.kept, &mut self.queue);
        let answer = self.flight.resend(state, kept, queue);
        if answer.refusal == 0 && answer.told != before.unacknowledged {
            return otherwise();
        }
        refused(answer.refusal)
    }

    /// What is left is what the flight says of itself.
    fn process_ack(&mut self, content: &[u8]) -> Answer {
        let answer = self.flight.ack(&mut self.state, content);
        let after = self.flight.status();
        let left = (answer.saved, answer.unacknowledged);
        if answer.refusal == 0 && left != (after.saved, after.unacknowledged) {
            return otherwise();
        }
        refused(answer.refusal)
    }

    /// With 32 noted, nothing is noted any more.
    fn note(&mut self, epoch: u64, number: u64) -> Answer {
        done(self.notes.add(epoch, number))
    }

    /// With none noted, nothing is sent.
    fn send_ack(&mut self) -> Answer {
        done(self.notes.send(&mut self.state, &mut self.queue))
    }

    fn question(&mut self) -> Answer {
        let q = self.state.sealing();
        Answer {
            kind: match q.kind {
                ffi::SEALING_SEAL => QUESTION,
                kind => kind,
            },
            epoch: q.epoch,
            number: q.number,
            start: q.start,
            length: q.length,
            nonce: q.nonce,
            header: q.header,
            shown: part(&self.queue, q.start, q.length).to_vec(),
            ..refused(q.refusal)
        }
    }

    /// Sealed bytes are written where the question says, as far as it says; then the length is told.
    fn reply(&mut self, mut bytes: Input) -> Answer {
        let (mask, sealed) = (bytes.take::<2>(), bytes.content());
        let q = self.state.sealing();
        let lent = self.queue.iter_mut().skip(q.start).take(q.length);
        lent.zip(&sealed).for_each(|(byte, text)| *byte = *text);
        let (flight, queue) = (&mut self.flight, &mut self.queue);
        refused(self.state.sealed(flight, sealed.len(), mask, queue))
    }

    /// Whether `take_in_place` does the same from the words before; where the buffer was too small, it takes.
    fn taken_alike(&self, before: &Sending, t: Take, buffer: &[u8]) -> bool {
        let mut state = before.clone();
        let p = state.take_in_place(&self.queue);
        if t.refusal == 16 {
            return p.kind == ffi::TAKE_TAKEN && p.length == t.length;
        }
        let datagram = part(&self.queue, p.start, p.length);
        let length = if t.kind == ffi::TAKE_TAKEN {
            t.length
        } else {
            0
        };
        (p.kind, p.refusal) == (t.kind, t.refusal)
            && datagram == part(buffer, 0, length)
            && state == self.state
    }

    fn take(&mut self, length: usize) -> Answer {
        let mut buffer = vec![UNTOUCHED; length];
        let before = self.state.clone();
        let t = self.state.take(&mut buffer, &self.queue);
        if !self.taken_alike(&before, t, &buffer) {
            return otherwise();
        }
        Answer {
            kind: t.kind,
            length: t.length,
            shown: buffer,
            ..refused(t.refusal)
        }
    }

    /// Next numbers, the queue's lengths, how many records are saved and noted.
    fn view(&mut self) -> Answer {
        let word = |i: usize| self.state.word[i];
        let mut shown = Vec::new();
        shown.extend_from_slice(&word(PLAINTEXT_NEXT).to_be_bytes());
        shown.extend_from_slice(&word(HANDSHAKE_NEXT).to_be_bytes());
        shown.extend_from_slice(&(word(APPLICATION) as u16).to_be_bytes());
        shown.extend_from_slice(&word(APPLICATION_NEXT).to_be_bytes());
        let limit = word(LIMIT).clamp(1, 16);
        let lengths = (0..word(COUNT).min(16)).map(|i| {
            let slot = (word(FIRST) + i) % limit;
            word(LENGTHS + slot as usize)
        });
        let shorts = [word(MESSAGE), word(COUNT), word(CLOSED)].into_iter();
        let counts = [self.flight.word[SAVED], self.notes.count[0]];
        for short in shorts.chain(lengths).chain(counts) {
            shown.extend_from_slice(&(short as u16).to_be_bytes());
        }
        Answer::shown(shown)
    }

    /// Which saved records are marked.
    pub(super) fn marks(&self) -> Vec<bool> {
        let saved = (self.flight.word[SAVED] as usize).min(ENTRIES);
        let mark = |i: usize| self.flight.word[ROW * i + MARKED] != 0;
        (0..saved).map(mark).collect()
    }

    /// A saved record.
    fn entry(&mut self, i: usize) -> Answer {
        assert!(i < ENTRIES, "no entry {i}");
        let row: [u64; ROW] = self.flight.word[ROW * i..][..ROW].try_into().unwrap();
        let [content_type, epoch, number, length, marked, remembered] = row;
        let mut shown = (marked as u16).to_be_bytes().to_vec();
        shown.extend_from_slice(&(remembered as u16).to_be_bytes());
        let known = (remembered as usize).min(REMEMBERED);
        for number in &self.flight.numbers[REMEMBERED * i..][..known] {
            shown.extend_from_slice(&number.to_be_bytes());
        }
        let start = i * self.state.word[MTU] as usize;
        shown.extend_from_slice(part(&self.kept, start, length as usize));
        Answer {
            kind: content_type as u8,
            epoch: epoch as u16,
            number,
            length: length as usize,
            ..Answer::shown(shown)
        }
    }
}
