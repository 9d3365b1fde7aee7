//! The Rust's answers: `create_plaintext_record`, `create_ciphertext_record`, `create_handshake`,
//! `flight_resend`, `process_ack`, `send_ack` and `poll_packet_tx` of the real `Engine`.
//!
//! The Rust seals at once; here the sealing is asked for later. What its cipher was asked is kept
//! in order, and each step `Ask` expects the next of these questions. A call that 01 refuses
//! (`rules.rs`) is not made in the Rust: what follows must be as if it had not been made here.

use std::collections::{HashMap, VecDeque};
use std::panic::{self, AssertUnwindSafe};
use std::sync::Arc;

use super::rules::{self, Place};
use super::*;
use crate::crypto::script::{self, SealingAsked, repeated};
use crate::dtls13::engine::Engine;
use crate::dtls13::engine::probe::{self, Sending, Taken};
use crate::dtls13::message::MessageType;
use crate::types::{ContentType, Dtls13CipherSuite};
use crate::{Config, DtlsCertificate, Error};

/// What a lent buffer has before a datagram is put there.
const UNTOUCHED: u8 = 0xEE;
const LONGEST_BUFFER: i64 = 1600;

/// A sealing that the Rust has made and that is not yet asked for here.
struct Waiting {
    epoch: u16,
    number: u64,
    /// The datagram, counted from the first ever opened, and the offset in it.
    datagram: usize,
    offset: usize,
    /// What the host is lent, as it lies.
    part: Vec<u8>,
    asked: SealingAsked,
}

/// The Rust beside what is expected of the queue here.
pub struct World {
    settings: Settings,
    engine: Engine,
    ivs: HashMap<u16, [u8; 12]>,
    waiting: VecDeque<Waiting>,
    taken: usize,
    run: Run,
}

/// Runs a history, then seals and takes all that is left. Steps that make no sense where they stand
/// are passed over, so that a history can lose any of its steps.
pub fn run(history: &History) -> Run {
    let mut world = World::new(history.settings);
    for step in &history.steps {
        world.step(step);
    }
    world.end()
}

impl World {
    pub fn new(settings: Settings) -> Self {
        let config = Config {
            crypto_provider: script::provider(),
            mtu: settings.mtu,
            max_queue_tx: settings.limit,
            ..Config::default()
        };
        let mut engine = Engine::new(Arc::new(config), DtlsCertificate::default());
        engine.set_cipher_suite(Dtls13CipherSuite::AES_128_GCM_SHA256);
        script::take_sealings();
        let mut world = Self {
            settings,
            engine,
            ivs: HashMap::new(),
            waiting: VecDeque::new(),
            taken: 0,
            run: Run::default(),
        };
        let mut input = (settings.mtu as u16).to_be_bytes().to_vec();
        input.push(settings.limit as u8);
        input.extend_from_slice(&(settings.room as u16).to_be_bytes());
        input.extend_from_slice(&(settings.kept as u16).to_be_bytes());
        let refusal = if settings.in_range() { 0 } else { 12 };
        world.run.say('f', &input, Answer::refused(refusal));
        world
    }

    /// The refusal of a step that sends.
    pub fn refusal(&self, step: &Step) -> Option<u8> {
        match step {
            Step::Send { .. } | Step::Message { .. } | Step::Resend | Step::SendAck => {
                self.places(step).err()
            }
            _ => None,
        }
    }

    /// The Rust, which also receives.
    pub fn engine(&mut self) -> &mut Engine {
        &mut self.engine
    }

    pub fn run(&self) -> &Run {
        &self.run
    }

    pub fn sending(&self) -> Sending {
        probe::sending(&self.engine)
    }

    /// How many sealings wait.
    pub fn waits(&self) -> usize {
        self.waiting.len()
    }

    /// Whether a sealing waits in the datagram at the front.
    pub fn unsealed(&self) -> bool {
        let front = self.waiting.front();
        front.is_some_and(|waiting| waiting.datagram == self.taken)
    }

    fn waits_under(&self, epoch: u16) -> bool {
        self.waiting.iter().any(|waiting| waiting.epoch == epoch)
    }

    /// Where what a step sends goes, or the refusal.
    fn places(&self, step: &Step) -> Result<Vec<Place>, u8> {
        let sending = self.sending();
        match step {
            Step::Send {
                epoch,
                content_type,
                save,
                content,
            } => rules::send(
                &self.settings,
                &sending,
                *epoch,
                *content_type,
                content.length,
                *save,
            )
            .map(|place| vec![place]),
            Step::Message { kind, body } => {
                rules::message(&self.settings, &sending, *kind, body.length)
            }
            Step::Resend => rules::resend(&self.settings, &sending),
            Step::SendAck => rules::send_ack(&self.settings, &sending),
            _ => unreachable!("the step sends nothing"),
        }
    }

    /// Asks the Rust to send.
    fn create(&mut self, step: &Step) -> Result<(), Error> {
        match step {
            Step::Send {
                epoch: 0,
                content_type,
                save,
                content,
            } => self.engine.create_plaintext_record(
                ContentType::from_u8(*content_type),
                *save,
                |fragment| fragment.extend_from_slice(&content.whole()),
            ),
            Step::Send {
                epoch,
                content_type,
                save,
                content,
            } => self.engine.create_ciphertext_record(
                ContentType::from_u8(*content_type),
                *epoch,
                *save,
                |fragment| fragment.extend_from_slice(&content.whole()),
            ),
            Step::Message { kind, body } => {
                self.engine
                    .create_handshake(MessageType::from_u8(*kind), |buffer, _| {
                        buffer.extend_from_slice(&body.whole());
                        Ok(())
                    })
            }
            Step::Resend => self.engine.flight_resend("step"),
            Step::SendAck => self.engine.send_ack(),
            _ => unreachable!("the step sends nothing"),
        }
    }

    /// A step that sends and that 01 does not refuse.
    fn lay(&mut self, step: &Step, places: &[Place]) {
        let before = self.sending();
        self.create(step).expect("refused by the Rust alone");
        let after = self.sending();
        let mut lengths = before.lengths.clone();
        let mut sealed = Vec::new();
        for (i, place) in places.iter().enumerate() {
            if place.datagram == lengths.len() {
                lengths.push(0);
            }
            assert_eq!(lengths[place.datagram], place.offset);
            lengths[place.datagram] += place.length;
            if self.epoch_of(step, &before, i) != 0 {
                sealed.push(place);
            }
        }
        assert_eq!(after.lengths, lengths, "the Rust packs otherwise");
        let sealings = script::take_sealings();
        assert_eq!(sealings.len(), sealed.len());
        for (asked, place) in sealings.into_iter().zip(sealed) {
            self.wait(asked, place);
        }
        self.count(step, places.len(), &before, &after);
    }

    /// The epoch of the nth record that a step sends.
    fn epoch_of(&self, step: &Step, before: &Sending, nth: usize) -> u16 {
        match step {
            Step::Send { epoch, .. } => *epoch,
            Step::Message { kind, .. } => rules::message_epoch(*kind),
            Step::Resend => {
                let mut again = before.saved.iter().filter(|saved| !saved.marked);
                again.nth(nth).unwrap().epoch
            }
            _ => 2,
        }
    }

    /// What the Rust's cipher was asked, to be asked here later.
    fn wait(&mut self, asked: SealingAsked, place: &Place) {
        let epoch = u16::from_be_bytes(asked.key[..].try_into().unwrap());
        let iv = self.ivs[&epoch];
        let number = std::array::from_fn(|i| asked.nonce[i + 4] ^ iv[i + 4]);
        let number = u64::from_be_bytes(number);
        let sealed = repeated(&asked.pattern, asked.plaintext.len() + 16);
        let sampled = asked.sampled.as_ref().unwrap();
        assert_eq!(sampled.key, asked.key);
        assert_eq!(sampled.sample, sealed[..16]);
        // Until it is sealed, the tag's place has epoch and number.
        let mut part = asked.plaintext.clone();
        part.extend_from_slice(&epoch.to_be_bytes());
        part.extend_from_slice(&number.to_be_bytes()[2..]);
        part.extend_from_slice(&[0; 8]);
        self.waiting.push_back(Waiting {
            epoch,
            number,
            datagram: self.taken + place.datagram,
            offset: place.offset,
            part,
            asked,
        });
    }

    fn count(&mut self, step: &Step, records: usize, before: &Sending, after: &Sending) {
        let tally = &mut self.run.tally;
        tally.saved += (after.saved.len() - before.saved.len()) as u64;
        match step {
            Step::Send { .. } => tally.records += 1,
            Step::Message { .. } => {
                tally.messages += 1;
                tally.pieces += records as u64;
            }
            Step::Resend => {
                tally.resends += 1;
                tally.resent += records as u64;
            }
            _ => tally.acks_sent += records as u64,
        }
    }

    pub fn step(&mut self, step: &Step) {
        match step {
            Step::Key { epoch, iv } => self.key(*epoch, *iv),
            Step::Number { epoch, number } => self.set_number(*epoch, *number),
            Step::MessageNumber(number) => {
                probe::set_message(&mut self.engine, *number);
                self.run.say('g', &number.to_be_bytes(), Answer::default());
            }
            Step::Send {
                epoch,
                content_type,
                save,
                content,
            } => {
                let mut input = epoch.to_be_bytes().to_vec();
                input.push(*content_type);
                input.extend_from_slice(&content.given());
                self.created(step, if *save { 'p' } else { 'd' }, &input);
            }
            Step::Message { kind, body } => {
                let mut input = vec![*kind];
                input.extend_from_slice(&body.given());
                self.created(step, 'h', &input);
            }
            Step::BeginFlight => {
                self.engine.flight_begin(1);
                self.run.say('b', &[], Answer::default());
            }
            Step::Resend => self.created(step, 'r', &[]),
            Step::Ack(content) => self.acknowledge(content),
            Step::Note { epoch, number } => self.note(*epoch, *number),
            Step::SendAck => self.created(step, 'c', &[]),
            Step::Ask => self.ask(),
            Step::Reply(more) => self.reply(*more),
            Step::Take(more) => _ = self.take(*more),
            Step::View => self.view(),
        }
    }

    fn key(&mut self, epoch: u16, iv: [u8; 12]) {
        let sending = self.sending();
        let waits = self.waits_under(sending.application);
        let refusal = rules::key(&self.settings, &sending, epoch, waits);
        if refusal.is_none() {
            probe::key_send(&mut self.engine, epoch, iv);
            self.ivs.insert(epoch, iv);
        }
        let mut input = epoch.to_be_bytes().to_vec();
        input.extend_from_slice(&iv);
        let answer = Answer::refused(refusal.unwrap_or(0));
        self.run.say('k', &input, answer);
    }

    /// Only of an epoch that is sent in and under which nothing waits.
    fn set_number(&mut self, epoch: u16, number: u64) {
        let known = epoch == 0 || self.ivs.contains_key(&epoch);
        let latest = epoch < 3 || epoch == self.sending().application;
        if known && latest && !self.waits_under(epoch) {
            probe::set_number(&mut self.engine, epoch, number);
            let mut input = epoch.to_be_bytes().to_vec();
            input.extend_from_slice(&number.to_be_bytes());
            self.run.say('u', &input, Answer::default());
        }
    }

    fn created(&mut self, step: &Step, letter: char, input: &[u8]) {
        let answer = match self.places(step) {
            Ok(places) => {
                self.lay(step, &places);
                let nothing = matches!(step, Step::SendAck) && places.is_empty();
                Answer {
                    kind: if nothing { NOTHING } else { 0 },
                    ..Answer::default()
                }
            }
            Err(refusal) => Answer::refused(refusal),
        };
        self.run.say(letter, input, answer);
    }

    fn acknowledge(&mut self, content: &[u8]) {
        let marks = |sending: &Sending| sending.saved.iter().filter(|saved| saved.marked).count();
        let before = self.sending();
        probe::process_ack(&mut self.engine, content).unwrap();
        let after = self.sending();
        self.run.tally.acks += 1;
        // A flight that empties was marked whole, as far as it matters.
        self.run.tally.marked += marks(&after).saturating_sub(marks(&before)) as u64;
        self.run.say('a', content, Answer::default());
    }

    fn note(&mut self, epoch: u64, number: u64) {
        let before = self.sending().noted;
        probe::note(&mut self.engine, epoch, number);
        let noted = self.sending().noted - before;
        self.run.tally.noted += noted as u64;
        let mut input = epoch.to_be_bytes().to_vec();
        input.extend_from_slice(&number.to_be_bytes());
        let answer = Answer {
            kind: if noted == 0 { NOTHING } else { 0 },
            ..Answer::default()
        };
        self.run.say('n', &input, answer);
    }

    fn ask(&mut self) {
        let answer = match self.waiting.front() {
            _ if !self.settings.in_range() => Answer::refused(12),
            None => Answer {
                kind: NOTHING,
                ..Answer::default()
            },
            Some(waiting) => {
                let slot = waiting.datagram % self.settings.limit;
                Answer {
                    kind: QUESTION,
                    epoch: waiting.epoch,
                    number: waiting.number,
                    start: slot * self.settings.mtu + waiting.offset + 5,
                    length: waiting.part.len(),
                    nonce: waiting.asked.nonce,
                    header: waiting.asked.header,
                    shown: waiting.part.clone(),
                    ..Answer::default()
                }
            }
        };
        self.run.say('q', &[], answer);
    }

    fn reply(&mut self, more: i32) {
        let asked = self.waiting.front().map_or(17, |w| w.part.len());
        let length = (asked as i64 + more as i64).clamp(0, 16_000) as usize;
        let (mask, pattern) = match self.waiting.front() {
            Some(waiting) => (waiting.asked.mask, waiting.asked.pattern.clone()),
            None => ([0x5A, 0xA5], vec![0x33; 7]),
        };
        let mut input = mask.to_vec();
        let bytes = Bytes { length, pattern };
        input.extend_from_slice(&bytes.given());
        let refusal = if !self.settings.queue_lent() {
            12
        } else if self.waiting.is_empty() || length != asked {
            15
        } else {
            0
        };
        if refusal == 0 {
            self.waiting.pop_front();
            self.run.tally.sealings += 1;
        } else if let Some(waiting) = self.waiting.front_mut() {
            // What the host wrote stays.
            let written = length.min(asked);
            waiting.part[..written].copy_from_slice(&bytes.whole()[..written]);
        }
        self.run.say('s', &input, Answer::refused(refusal));
    }

    /// The datagram taken, if there is one.
    pub fn take(&mut self, more: i32) -> Option<Vec<u8>> {
        let front = self.sending().lengths.first().copied().unwrap_or(0);
        let length = (front as i64 + more as i64).clamp(0, LONGEST_BUFFER) as usize;
        let mut buffer = vec![UNTOUCHED; length];
        let mut answer = Answer::default();
        let mut datagram = None;
        if !self.settings.queue_lent() {
            answer.refusal = 12;
        } else if self.unsealed() {
            answer.refusal = 23;
        } else {
            match probe::take(&mut self.engine, &mut buffer) {
                Taken::Nothing => answer.kind = NOTHING,
                Taken::Short(needed) => {
                    answer.refusal = 16;
                    answer.length = needed;
                }
                Taken::Datagram(length) => {
                    self.taken += 1;
                    self.run.tally.datagrams += 1;
                    answer.kind = DATAGRAM;
                    answer.length = length;
                    datagram = Some(buffer[..length].to_vec());
                }
            }
        }
        answer.shown = buffer;
        self.run.say('t', &(length as u16).to_be_bytes(), answer);
        datagram
    }

    fn view(&mut self) {
        let sending = self.sending();
        let mut shown = sending.plaintext_next.to_be_bytes().to_vec();
        shown.extend_from_slice(&sending.handshake_next.to_be_bytes());
        shown.extend_from_slice(&sending.application.to_be_bytes());
        shown.extend_from_slice(&sending.application_next.to_be_bytes());
        shown.extend_from_slice(&sending.message.to_be_bytes());
        let mut push = |n: usize| shown.extend_from_slice(&(n as u16).to_be_bytes());
        push(sending.lengths.len());
        push(sending.closed as usize);
        sending.lengths.iter().for_each(|length| push(*length));
        push(sending.saved.len());
        push(sending.noted);
        self.run.say('v', &[], Answer::shown(shown));
        for (i, saved) in sending.saved.iter().enumerate() {
            let mut shown = (saved.marked as u16).to_be_bytes().to_vec();
            shown.extend_from_slice(&(saved.remembered.len() as u16).to_be_bytes());
            for number in &saved.remembered {
                shown.extend_from_slice(&number.to_be_bytes());
            }
            shown.extend_from_slice(&saved.content);
            let answer = Answer {
                kind: saved.content_type,
                epoch: saved.epoch,
                number: saved.number,
                length: saved.content.len(),
                ..Answer::shown(shown)
            };
            self.run.say('e', &[i as u8], answer);
        }
    }

    /// All that waits sealed, all that is queued taken.
    fn end(mut self) -> Run {
        self.take_rest();
        self.view();
        self.run
    }

    /// All that waits sealed, then the datagrams, all taken.
    pub fn take_rest(&mut self) -> Vec<Vec<u8>> {
        while !self.waiting.is_empty() {
            self.ask();
            self.reply(0);
        }
        self.ask();
        let mut datagrams = Vec::new();
        while !self.sending().lengths.is_empty() && self.settings.queue_lent() {
            datagrams.extend(self.take(0));
        }
        self.take(0);
        datagrams
    }

    /// What the Rust does in a call that 01 refuses: done, its error, or a panic.
    pub fn beyond(&mut self, step: &Step) -> String {
        let created = panic::catch_unwind(AssertUnwindSafe(|| self.create(step)));
        match created {
            Ok(Ok(())) => "done".to_string(),
            Ok(Err(error)) => error.to_string(),
            Err(_) => "panics".to_string(),
        }
    }
}

/// The first step of a history that 01 refuses by 13, 14 or 17 to 22: its number, and what the Rust
/// does there.
pub fn first_refused(history: &History) -> Option<(u8, String)> {
    let mut world = World::new(history.settings);
    for step in &history.steps {
        if let Some(refusal) = world.refusal(step)
            && refusal != 12
        {
            return Some((refusal, world.beyond(step)));
        }
        world.step(step);
    }
    None
}
