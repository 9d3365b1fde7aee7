//! The Rust's answers: the real `impl RecordHandler for Engine`, run by `Records::parse_records`.

use std::cell::RefCell;
use std::collections::VecDeque;
use std::sync::Arc;

use arrayvec::ArrayVec;

use super::*;
use crate::buffer::{Buf, TmpBuf};
use crate::crypto::script::{self, MaskAsked, OpeningAsked};
use crate::dtls13::engine::{self, Engine};
use crate::dtls13::incoming::{self, Record, RecordHandler};
use crate::dtls13::message::{Dtls13Record, Sequence};
use crate::requests::{self, REBUILDING};
use crate::types::Dtls13CipherSuite;
use crate::verdict::{Verdict, Windows};
use crate::{Config, CryptoError, DtlsCertificate, Error, InternalError};

/// The last number that a record can have.
const LAST_NUMBER: u64 = (1 << 48) - 1;
const TAG_LEN: usize = 16;

/// Runs a history. Steps that no call of the domain makes are passed over, so that a history
/// can lose any of its steps.
pub fn run(history: &History) -> Run {
    let config = Config {
        crypto_provider: script::provider(),
        ..Config::default()
    };
    let mut engine = Engine::new(Arc::new(config), DtlsCertificate::default());
    engine.set_cipher_suite(Dtls13CipherSuite::AES_128_GCM_SHA256);
    let mut receiver = Receiver::new(history.min_protected);
    for step in &history.steps {
        receiver.step(&mut engine, step);
    }
    let mut run = receiver.run;
    if history.between != 0 {
        run.lines = between::add(run.lines, history.between);
    }
    run
}

/// The receiving side of an end, beside the Rust.
pub struct Receiver {
    min_protected: u8,
    /// The highest epoch that was keyed.
    highest: u16,
    /// What the Rust has marked.
    marked: Windows,
    pub run: Run,
}

impl Receiver {
    pub fn new(min_protected: u8) -> Self {
        let mut run = Run::default();
        run.say('f', &[min_protected], Answer::default());
        Self {
            min_protected,
            highest: 0,
            marked: Windows::default(),
            run,
        }
    }

    /// A datagram with the replies to its questions: the records kept, in their order.
    pub fn read_records(
        &mut self,
        engine: &mut Engine,
        bytes: &[u8],
        replies: &[Reply],
    ) -> ArrayVec<Record, 16> {
        datagram(self, engine, bytes, Some(replies))
    }

    /// A datagram whose questions the cipher itself answers: the records handed over.
    pub fn read(&mut self, engine: &mut Engine, bytes: &[u8]) -> Vec<Answer> {
        self.run.handed.clear();
        datagram(self, engine, bytes, None);
        std::mem::take(&mut self.run.handed)
    }

    pub fn step(&mut self, engine: &mut Engine, step: &Step) {
        let keyed = engine::probe::receive_epochs(engine);
        let run = &mut self.run;
        match step {
            Step::Key { epoch, iv } => {
                // Differences 15 and 16: the Rust evicts the oldest epoch for a fifth, and replaces one.
                let applications = keyed.iter().filter(|epoch| **epoch >= 3).count();
                if *epoch < 2 || *epoch <= self.highest || *epoch >= 3 && applications >= 4 {
                    return;
                }
                self.highest = *epoch;
                engine::probe::key_receive(engine, *epoch, *iv);
                let mut input = epoch.to_be_bytes().to_vec();
                input.extend_from_slice(iv);
                run.say('k', &input, Answer::default());
            }
            Step::Remove(epoch) if keyed.contains(epoch) => {
                engine::probe::remove(engine, *epoch);
                run.say('x', &epoch.to_be_bytes(), Answer::default());
            }
            Step::Remove(_) => {}
            Step::Encrypt => {
                // Difference 18: nothing is stored to be read again, for `parse_records` stores nothing.
                engine.enable_peer_encryption().unwrap();
                run.say('e', &[], Answer::default());
            }
            Step::Release => {
                // Difference 17: the call that keeps the keys of epoch 2.
                engine.release_application_data_retaining_handshake_keys();
                run.say('l', &[], Answer::default());
            }
            Step::Mark { epoch, number } if keyed.contains(epoch) && *number <= LAST_NUMBER => {
                engine.replay_update(Sequence {
                    epoch: *epoch,
                    sequence_number: *number,
                });
                self.marked.mark(*epoch, *number);
                let mut input = epoch.to_be_bytes().to_vec();
                input.extend_from_slice(&number.to_be_bytes());
                run.say('w', &input, Answer::default());
            }
            Step::Mark { .. } => {}
            Step::Datagram { bytes, replies } => {
                datagram(self, engine, bytes, Some(replies));
            }
        }
    }
}

/// What the Rust asks about the first record of a datagram with peer encryption on: epochs keyed,
/// the highest number of the first, the bytes.
pub fn asked(min: u8, epochs: &[u16], highest: Option<u64>, bytes: &[u8]) -> String {
    let config = Config {
        crypto_provider: script::provider(),
        ..Config::default()
    };
    let mut engine = Engine::new(Arc::new(config), DtlsCertificate::default());
    engine.set_cipher_suite(Dtls13CipherSuite::AES_128_GCM_SHA256);
    script::set_min_protected(min as usize);
    engine.enable_peer_encryption().unwrap();
    for epoch in epochs {
        engine::probe::key_receive(&mut engine, *epoch, std::array::from_fn(|i| i as u8));
    }
    if let Some(number) = highest {
        engine.replay_update(Sequence {
            epoch: epochs[0],
            sequence_number: number,
        });
    }
    let mut tap = Tap {
        engine: &mut engine,
        marked: &mut Windows::default(),
        replies: Some(VecDeque::new()),
        seen: RefCell::default(),
        own: true,
    };
    let mut records: ArrayVec<Record, 16> = ArrayVec::new();
    let result = incoming::probe::parse_records(bytes, &mut tap, &mut records);
    let seen = tap.seen.into_inner();
    let mut words = vec![format!("{result:?}, {} readings", records.len())];
    if let Some(seen) = seen.first() {
        words.extend(seen.epoch.map(|epoch| format!("resolved to {epoch}")));
        words.extend(seen.mask.iter().map(|_| "mask asked".to_string()));
        words.extend(seen.number.map(|number| format!("number {number}")));
        words.extend(seen.opening.iter().map(|_| "opening asked".to_string()));
    }
    words.join("; ")
}

/// What the engine was asked about one record.
#[derive(Default)]
struct Seen {
    /// Its bytes, if it was dropped or handed back.
    dropped: Option<Buf>,
    epoch: Option<u16>,
    number: Option<u64>,
    /// Whether the number is that of request 1, in the place of the engine's.
    renumbered: bool,
    /// Whether it is fresh, as the Rust says, and beside it the verdict of request 5.
    verdict: Option<(bool, Verdict)>,
    mask: Option<MaskAsked>,
    opening: Option<OpeningAsked>,
    opened: bool,
    updated: bool,
    reply: Reply,
}

/// The engine, with what it is asked written down.
struct Tap<'a> {
    engine: &'a mut Engine,
    marked: &'a mut Windows,
    /// The replies to the questions in their order; none if the cipher itself answers.
    replies: Option<VecDeque<Reply>>,
    seen: RefCell<Vec<Seen>>,
    /// Whether the Rust goes its own way, with no difference allowed for: its cipher is asked for numbers above 2^48 - 1, and
    /// a negative number becomes 0.
    own: bool,
}

impl Tap<'_> {
    fn note<T>(&self, f: impl FnOnce(&mut Seen) -> T) -> T {
        f(self.seen.borrow_mut().last_mut().unwrap())
    }
}

impl RecordHandler for Tap<'_> {
    fn pop_buffer(&mut self) -> Buf {
        self.seen.get_mut().push(Seen::default());
        RecordHandler::pop_buffer(self.engine)
    }

    fn push_buffer(&mut self, buffer: Buf) {
        self.note(|seen| seen.dropped = Some(buffer.clone()));
        RecordHandler::push_buffer(self.engine, buffer);
    }

    fn is_peer_encryption_enabled(&self) -> bool {
        self.engine.is_peer_encryption_enabled()
    }

    fn resolve_epoch(&self, epoch_bits: u8) -> u16 {
        let epoch = self.engine.resolve_epoch(epoch_bits);
        let before = self.note(|seen| seen.epoch.replace(epoch));
        // Asked before the mask and again behind it.
        assert!(before.is_none_or(|before| before == epoch));
        epoch
    }

    fn resolve_sequence(&self, epoch: u16, seq_bits: u64, s_flag: bool) -> u64 {
        let rust = self.engine.resolve_sequence(epoch, seq_bits, s_flag);
        let expected = engine::probe::expected(self.engine, epoch);
        let bits = if s_flag { 16 } else { 8 };
        // What the engine has told is what it makes of this expected number.
        let again = engine::probe::reconstruct_sequence(seq_bits, expected, bits);
        assert_eq!(rust, again);
        let (number, renumbered) = match self.own {
            true => (rust, false),
            // Difference 5: the Rust makes 0 of a negative number; here it goes on with the number of request 1.
            false => requests::rebuilt(seq_bits, expected, bits, rust),
        };
        self.note(|seen| {
            seen.number = Some(number);
            seen.renumbered = renumbered;
        });
        number
    }

    fn replay_check(&self, seq: Sequence) -> bool {
        let fresh = self.engine.replay_check(seq);
        let verdict = self.marked.verdict(seq.epoch, seq.sequence_number);
        self.note(|seen| seen.verdict = Some((fresh, verdict)));
        fresh
    }

    fn min_protected_fragment_len(&self) -> usize {
        self.engine.min_protected_fragment_len()
    }

    fn decrypt_sequence_number(&self, epoch: u16, bytes: &mut [u8], sample: &[u8; 16]) {
        let next = self
            .seen
            .borrow()
            .iter()
            .filter(|s| s.mask.is_some())
            .count();
        let listed = self.replies.as_ref().and_then(|replies| replies.get(next));
        let mut reply = listed.cloned().unwrap_or_default();
        script::set_reply(reply.clone());
        self.engine.decrypt_sequence_number(epoch, bytes, sample);
        if self.replies.is_none() {
            reply = script::replied();
        }
        let (mask, _) = script::take_asked();
        self.note(|seen| {
            seen.mask = mask;
            seen.reply = reply;
        });
    }

    fn decrypt_record(
        &mut self,
        header: &[u8],
        seq: Sequence,
        ciphertext: &mut TmpBuf,
    ) -> Result<(), Error> {
        // Difference 14: the Rust asks the cipher for numbers above 2^48 - 1; it is told no.
        if seq.sequence_number > LAST_NUMBER && !self.own {
            return Err(Error::CryptoError(CryptoError::NotOpened));
        }
        let result = self.engine.decrypt_record(header, seq, ciphertext);
        let (_, opening) = script::take_asked();
        let own = self.replies.is_none();
        self.note(|seen| {
            if own {
                seen.reply = script::replied();
            }
            seen.opening = opening;
            seen.opened = result.is_ok();
        });
        result
    }

    fn replay_update(&mut self, seq: Sequence) {
        self.note(|seen| seen.updated = true);
        self.marked.mark(seq.epoch, seq.sequence_number);
        self.engine.replay_update(seq);
    }

    fn classify_record(&mut self, _: Record) -> Result<Option<Record>, Error> {
        unreachable!("records are not classified while they are cut")
    }
}

/// A datagram read to its end: the records kept.
fn datagram(
    receiver: &mut Receiver,
    engine: &mut Engine,
    bytes: &[u8],
    replies: Option<&[Reply]>,
) -> ArrayVec<Record, 16> {
    let Receiver {
        min_protected: min,
        marked,
        run,
        ..
    } = receiver;
    let min = *min;
    script::set_min_protected(min as usize);
    script::set_opens(replies.is_none());
    // What sealing asked before.
    script::take_asked();
    let encryption = engine.is_peer_encryption_enabled();
    let keyed = engine::probe::receive_epochs(engine);
    let mut tap = Tap {
        engine,
        marked,
        replies: replies.map(|replies| replies.iter().cloned().collect()),
        seen: RefCell::default(),
        own: false,
    };
    let mut records: ArrayVec<Record, 16> = ArrayVec::new();
    // Difference 19: the readings before a fault stand; the wrapper `Records::parse` discards them.
    let result = incoming::probe::parse_records(bytes, &mut tap, &mut records);
    let seen = tap.seen.into_inner();
    let too_many = result == Err(InternalError::TooManyRecords);

    run.say('b', bytes, Answer::default());
    let mut kept = records.iter();
    let mut at = 0;
    let mut after = Vec::new();
    let last = seen.len().wrapping_sub(1);
    for (i, seen) in seen.iter().enumerate() {
        let record = match &seen.dropped {
            Some(_) => None,
            None => Some(kept.next().unwrap()),
        };
        let copy: &[u8] = match (&seen.dropped, record) {
            (Some(bytes), _) => bytes,
            (None, record) => record.unwrap().buffer(),
        };
        let before = &bytes[at..at + copy.len()];
        let one = One {
            at,
            before,
            seen,
            record,
            // The seventeenth reading is handed back.
            refused: too_many && i == last,
        };
        if !Dtls13Record::is_ciphertext_header(before[0]) {
            assert_eq!(before, copy);
            one.plaintext(run);
        } else if !encryption {
            assert_eq!(before, copy);
            one.early(run);
        } else {
            one.sealed(&keyed, min as usize, run);
        }
        // Difference 20: the Rust unmasks and opens in a copy of each record. Difference 11: there with a least length
        // of 17 also one that has 16.
        if one.short(min as usize) {
            after.extend_from_slice(before);
        } else {
            after.extend_from_slice(copy);
        }
        at += copy.len();
    }
    assert!(kept.next().is_none());
    match result {
        Ok(()) => run.say('r', &[], Answer::kind(END)),
        Err(InternalError::ParseIncomplete) => run.say('r', &[], Answer::fault(INCOMPLETE)),
        Err(InternalError::TooManyRecords) => {}
        Err(error) => panic!("{error}"),
    }
    after.extend_from_slice(&bytes[at..]);
    run.say(
        'd',
        &[],
        Answer {
            shown: after,
            ..Answer::default()
        },
    );
    records
}

/// One record of a datagram.
struct One<'a> {
    at: usize,
    before: &'a [u8],
    seen: &'a Seen,
    record: Option<&'a Record>,
    refused: bool,
}

impl One<'_> {
    fn header_len(&self) -> usize {
        let flags = self.before[0];
        2 + (flags >> 3 & 1) as usize + 2 * (flags >> 2 & 1) as usize
    }

    fn short(&self, min: usize) -> bool {
        Dtls13Record::is_ciphertext_header(self.before[0])
            && self.before.len() - self.header_len() < min.max(TAG_LEN)
    }

    /// A record kept: type, number, place and bytes.
    fn reading(&self, kind: u8) -> Answer {
        if self.refused {
            return Answer::fault(TOO_MANY);
        }
        let record = self.record.unwrap();
        let parsed = record.record();
        assert_eq!(parsed.length as usize, parsed.fragment_range.len());
        Answer {
            epoch: parsed.sequence.epoch,
            number: parsed.sequence.sequence_number,
            content_type: if kind == UNOPENED {
                0
            } else {
                parsed.content_type.as_u8()
            },
            start: self.at + parsed.fragment_range.start,
            shown: parsed.fragment(record.buffer()).to_vec(),
            ..Answer::kind(kind)
        }
    }

    fn dropped(&self) -> bool {
        self.record.is_none() && !self.refused
    }

    fn plaintext(&self, run: &mut Run) {
        let answer = match self.dropped() {
            true => Answer::dropped(4),
            false => self.reading(PLAINTEXT),
        };
        run.say('r', &[], answer);
    }

    /// A sealed record while the peer's encryption is off.
    fn early(&self, run: &mut Run) {
        let answer = match self.dropped() {
            true => Answer::dropped(5),
            false => self.reading(UNOPENED),
        };
        run.say('r', &[], answer);
    }

    fn sealed(&self, keyed: &[u16], min: usize, run: &mut Run) {
        let seen = self.seen;
        let epoch = seen.epoch.unwrap();
        // Difference 12: where no keyed epoch fits, the Rust answers the bits, and drops the record later.
        if !keyed.contains(&epoch) {
            assert!(self.dropped() && seen.mask.is_none() && !seen.updated);
            return run.say('r', &[], Answer::dropped(6));
        }
        // Difference 11: the Rust tests the length after the window, with a least length of 17 after the mask.
        if self.short(min) {
            assert!(self.dropped() && !seen.updated);
            return run.say('r', &[], Answer::dropped(7));
        }
        let mask = seen.mask.as_ref().unwrap();
        assert_eq!(mask.key, epoch.to_be_bytes());
        let question = Answer {
            epoch,
            start: self.at + self.header_len(),
            shown: mask.sample.to_vec(),
            ..Answer::kind(MASK)
        };
        run.say('r', &[], question);
        // A record dropped before this has no number here, and none in the Rust that matters.
        if seen.renumbered {
            run.changes.note(REBUILDING);
        }
        self.unmasked(epoch, run);
    }

    /// A sealed record whose number is known.
    fn unmasked(&self, epoch: u16, run: &mut Run) {
        let seen = self.seen;
        let number = seen.number.unwrap();
        let (fresh, verdict) = seen.verdict.unwrap();
        if number > LAST_NUMBER {
            assert!(self.dropped() && fresh && !seen.updated);
            return run.say('m', &seen.reply.mask, Answer::dropped(8));
        }
        // Request 5: where the Rust has one verdict, 9 or 26 is worked out beside it.
        let reason = match verdict.beside(fresh) {
            Verdict::Fresh => return self.asked(epoch, number, run),
            Verdict::Seen => SEEN,
            Verdict::TooOld => TOO_OLD,
        };
        assert!(self.dropped() && seen.opening.is_none() && !seen.updated);
        run.say('m', &seen.reply.mask, Answer::dropped(reason));
    }

    /// A sealed record whose number is fresh: its opening is asked.
    fn asked(&self, epoch: u16, number: u64, run: &mut Run) {
        let seen = self.seen;
        let opening = seen.opening.as_ref().unwrap();
        assert_eq!(opening.key, epoch.to_be_bytes());
        assert_eq!(opening.length, self.before.len() - self.header_len());
        let question = Answer {
            epoch,
            number,
            start: self.at,
            nonce: opening.nonce,
            shown: opening.header.clone(),
            ..Answer::kind(OPENING)
        };
        run.say('m', &seen.reply.mask, question);

        assert_eq!(seen.updated, seen.opened);
        let Some(plaintext) = &seen.reply.opening else {
            assert!(self.dropped() && !seen.opened);
            return run.say('o', &[0], Answer::dropped(10));
        };
        let answer = match self.dropped() {
            true => Answer::dropped(11),
            false => self.reading(OPENED),
        };
        let mut input = vec![1];
        input.extend_from_slice(plaintext);
        run.say('o', &input, answer);
    }
}
