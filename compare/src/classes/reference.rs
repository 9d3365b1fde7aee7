//! The Rust's answers: each record that `Records::parse_records` keeps is given to the engine's own `classify_record`, in order.
//!
//! The engine is a server's that has received no handshake message, so that neither the ticket case nor the resend case arises.

use super::*;
use crate::dice::Dice;
use crate::dtls13::engine::probe::{self, Saved};
use crate::dtls13::incoming::{Record, RecordHandler};
use crate::dtls13::message::Sequence;
use crate::histories::reference::Receiver;
use crate::requests::{BEHIND_ALERT, PLAINTEXT_ACK};
use crate::sendings::reference::World;
use crate::{Error, SecurityError};

/// Runs a history; then the saved records are looked at. Steps that make no sense where they stand are passed over, so that a
/// history can lose any of its steps.
pub fn run(history: &History) -> Run {
    let mut end = End::new(history.settings, history.min_protected);
    for step in &history.steps {
        end.step(step);
    }
    end.finish()
}

/// The Rust beside the script.
pub struct End {
    settings: Settings,
    min_protected: u8,
    world: World,
    receiver: Receiver,
    /// How many lines of the sending side are in the script.
    taken: usize,
    run: Run,
    /// The steps so far, each with the length of its datagram that the Rust is shown.
    steps: Vec<(Step, usize)>,
}

/// A reading of a datagram: its kind, and where its content begins and the record ends.
struct Place {
    kind: u8,
    start: usize,
    end: usize,
}

impl End {
    pub fn new(settings: Settings, min_protected: u8) -> Self {
        let mut end = Self {
            settings,
            min_protected,
            world: World::new(settings),
            receiver: Receiver::new(min_protected),
            taken: 0,
            run: Run::default(),
            steps: Vec::new(),
        };
        end.collect();
        end
    }

    pub fn world(&mut self) -> &mut World {
        &mut self.world
    }

    pub fn lines(&self) -> &[Line] {
        &self.run.lines
    }

    /// Adds what both sides were asked since the last time to the script; steps of the sending side have capital letters.
    fn collect(&mut self) {
        let sending = &self.world.run().lines;
        let capital = sending[self.taken..].iter().cloned().map(|mut line| {
            line.letter = line.letter.to_ascii_uppercase();
            line
        });
        self.run.lines.extend(capital);
        self.taken = sending.len();
        self.run.lines.append(&mut self.receiver.run.lines);
    }

    pub fn step(&mut self, step: &Step) {
        self.steps.push((step.clone(), usize::MAX));
        self.last();
    }

    /// The last step. If an alert ends its datagram before the end of what the Rust has read, all is done again, and the Rust
    /// is shown the datagram up to there: it has marked the records behind as used.
    fn last(&mut self) {
        let Some((step, shown)) = self.steps.last().cloned() else {
            return;
        };
        match &step {
            Step::Send(step) => self.world.step(step),
            Step::Flush => drop(self.world.take_rest()),
            Step::Receive(step) => self.receiver.step(self.world.engine(), step),
            Step::Datagram { parts, between } => {
                if let Some(end) = self.datagram(parts, *between, shown) {
                    return self.again(end);
                }
            }
        }
        self.collect();
    }

    fn again(&mut self, end: usize) {
        let mut steps = std::mem::take(&mut self.steps);
        steps.last_mut().expect("a step").1 = end;
        *self = Self::new(self.settings, self.min_protected);
        for step in steps {
            self.steps.push(step);
            self.last();
        }
    }

    /// A datagram of which the Rust is shown so many bytes. Where it was shown too many, how many it ought to be.
    fn datagram(&mut self, parts: &[Part], between: u64, shown: usize) -> Option<usize> {
        let whole: Vec<u8> = parts.iter().flat_map(|part| part.bytes.clone()).collect();
        let replies: Vec<Reply> = parts.iter().filter_map(|part| part.reply.clone()).collect();
        let shown = shown.min(whole.len());
        let engine = self.world.engine();
        let records = self
            .receiver
            .read_records(engine, &whole[..shown], &replies);
        let lines = std::mem::take(&mut self.receiver.run.lines);
        let mut dice = (between != 0).then(|| Dice::new(between));
        let mut records = records.into_iter();
        let mut handed = 0;
        for line in lines {
            let kind = reading(&line);
            self.run.lines.push(lent_whole(line, &whole, shown));
            let Some((kind, start)) = kind else {
                self.nothing(&mut dice);
                continue;
            };
            let record = records.next().expect("a reading is a record");
            let end = start - record.record().fragment_range.start + record.buffer().len();
            let place = Place { kind, start, end };
            let class = self.deal(record, &place, whole.len(), &mut dice);
            handed += (class >= TO_HANDSHAKE) as usize;
            if class == TOLD && end < shown {
                return Some(end);
            }
            if class == TOLD && (end < whole.len() || handed > 0) {
                self.run.changes.note(BEHIND_ALERT);
                self.run.met.ended += (end < whole.len()) as u64;
            }
        }
        None
    }

    /// Now and then it is asked where nothing waits.
    fn nothing(&mut self, dice: &mut Option<Dice>) {
        if dice.as_mut().is_some_and(|dice| dice.once_in(12)) {
            let answer = Answer {
                kind: NOTHING,
                ..self.left()
            };
            self.run.met.kinds[NOTHING as usize] += 1;
            self.say(0, answer);
        }
    }

    /// A reading is dealt with, or passed over: its class, 0 if it is passed over.
    fn deal(&mut self, record: Record, place: &Place, n: usize, dice: &mut Option<Dice>) -> u8 {
        let mut once_in = |k| dice.as_mut().is_some_and(|dice| dice.once_in(k));
        let (short, passed) = (n > 0 && once_in(24), once_in(24));
        if short {
            let mut answer = self.left();
            answer.refusal = 15;
            answer.left.waits = true;
            self.run.met.refused += 1;
            self.say(1, answer);
        }
        if passed {
            self.run.met.passed += 1;
            return 0;
        }
        let answer = self.classified(record, place);
        let kind = answer.kind;
        self.run.met.kinds[kind as usize] += 1;
        self.say(0, answer);
        self.nothing(dice);
        kind
    }

    fn say(&mut self, fewer: u8, answer: Answer) {
        self.run.lines.push(Line {
            letter: 'c',
            asked: vec![fewer],
            answered: answer.bytes(),
        });
    }

    /// What the Rust has now.
    fn left(&mut self) -> Answer {
        let engine = self.world.engine();
        let close = probe::close(engine);
        Answer {
            left: Left {
                marks: probe::marks(engine),
                close: close.map(|place| (place.epoch as u64, place.sequence_number)),
                waits: false,
            },
            ..Answer::default()
        }
    }

    /// What the Rust does with a record.
    fn classified(&mut self, record: Record, place: &Place) -> Answer {
        let asked = Asked::new(&record, place, self.world.engine());
        self.count(&asked, place);
        // What an ACK can mark.
        let saved = match asked.content_type {
            ACK => self.world.sending().saved,
            _ => Vec::new(),
        };
        let engine = self.world.engine();
        let before = probe::marks(engine);
        let flight = (asked.content_type == ACK && asked.plaintext).then(|| probe::flight(engine));
        let result = engine.classify_record(record);
        // Difference 65: a plaintext ACK marks in the Rust.
        if let Some(flight) = flight {
            let marks = probe::marks(engine) != before;
            probe::put_back(engine, flight);
            if marks {
                self.run.changes.note(PLAINTEXT_ACK);
            }
        }
        let mut answer = self.answered(result, &asked);
        answer.start = place.start;
        if answer.kind == ACTED {
            let marked = saved.iter().filter(|saved| is_new(saved, &asked.content));
            self.acted(&mut answer, marked.count(), &before);
        } else {
            assert_eq!(before, answer.left.marks, "class {}", answer.kind);
        }
        answer
    }

    /// The class by what the Rust made of the record.
    fn answered(&mut self, result: Result<Option<Record>, Error>, asked: &Asked) -> Answer {
        let mut answer = self.left();
        answer.shown = asked.content.clone();
        match result {
            Ok(Some(record)) => {
                answer.kind = asked.handed();
                let handed = record.record().fragment(record.buffer());
                assert_eq!(handed, asked.content, "another content handed on");
            }
            Ok(None) => answer.kind = asked.dropped(probe::close(self.world.engine())),
            Err(Error::SecurityError(SecurityError::FatalAlert { description })) => {
                answer.kind = TOLD;
                answer.description = description;
            }
            Err(error) => panic!("{error}"),
        }
        answer
    }

    /// What an ACK did that marks so many: with the marks before it.
    fn acted(&mut self, answer: &mut Answer, marked: usize, before: &[bool]) {
        let after = &answer.left.marks;
        let seen = before.iter().zip(after);
        let seen = seen.filter(|(old, new)| !**old && **new).count();
        // Of a flight that empties the marks are gone.
        let emptied = after.len() < before.len();
        assert!(emptied && after.is_empty() || !emptied && seen == marked);
        let unmarked = after.iter().filter(|mark| !**mark).count();
        answer.acked = [marked, unmarked, after.len()].map(|n| n as u8);
        let met = &mut self.run.met;
        met.marked += marked as u64;
        met.idle += (marked == 0) as u64;
        met.emptied += emptied as u64;
    }

    fn count(&mut self, asked: &Asked, place: &Place) {
        let met = &mut self.run.met;
        match place.kind {
            histories::PLAINTEXT => met.plaintext[asked.encrypted as usize] += 1,
            histories::UNOPENED => met.unopened += 1,
            _ => met.opened += 1,
        }
    }

    pub fn finish(mut self) -> Run {
        self.world.step(&sendings::Step::View);
        self.collect();
        self.run.changes.add(&self.receiver.run.changes);
        self.run
    }
}

/// A record, before the Rust is asked what to do with it.
struct Asked {
    content_type: u8,
    sequence: Sequence,
    content: Vec<u8>,
    plaintext: bool,
    unopened: bool,
    encrypted: bool,
    close: Option<Sequence>,
}

impl Asked {
    fn new(record: &Record, place: &Place, engine: &crate::dtls13::engine::Engine) -> Self {
        let parsed = record.record();
        Self {
            content_type: parsed.content_type.as_u8(),
            sequence: parsed.sequence,
            content: parsed.fragment(record.buffer()).to_vec(),
            plaintext: place.kind == histories::PLAINTEXT,
            unopened: place.kind == histories::UNOPENED,
            encrypted: engine.is_peer_encryption_enabled(),
            close: probe::close(engine),
        }
    }

    /// The class of a record that the Rust hands on.
    fn handed(&self) -> u8 {
        match self.content_type {
            _ if self.unopened => UNOPENED,
            HANDSHAKE => TO_HANDSHAKE,
            APPLICATION_DATA => TO_APPLICATION,
            _ => OTHER,
        }
    }

    /// The class of a record that the Rust drops, where it does not say why: by the request's words.
    fn dropped(&self, close: Option<Sequence>) -> u8 {
        let guarded = [ACK, ALERT, HANDSHAKE].contains(&self.content_type);
        if close != self.close {
            CLOSE
        } else if self.close.is_some_and(|place| self.sequence > place) {
            BEYOND
        } else if self.plaintext && self.encrypted && guarded {
            UNPROTECTED
        } else if self.content_type == ACK && !self.plaintext {
            ACTED
        } else {
            IGNORED
        }
    }
}

/// Whether an ACK marks a saved record that was not marked.
fn is_new(saved: &Saved, ack: &[u8]) -> bool {
    let Some((length, pairs)) = ack.split_first_chunk() else {
        return false;
    };
    let formed = u16::from_be_bytes(*length) as usize == pairs.len() && pairs.len() % 16 == 0;
    let named = |number: &u64| {
        let mut name = (saved.epoch as u64).to_be_bytes().to_vec();
        name.extend_from_slice(&number.to_be_bytes());
        pairs.chunks(16).any(|pair| pair == name)
    };
    formed && !saved.marked && (named(&saved.number) || saved.remembered.iter().any(named))
}

/// The kind of a line's reading that waits to be dealt with, and where its content begins.
fn reading(line: &Line) -> Option<(u8, usize)> {
    let (kind, start) = (line.answered[1], &line.answered[14..16]);
    let waits = [histories::PLAINTEXT, histories::UNOPENED, histories::OPENED].contains(&kind);
    let start = u16::from_be_bytes([start[0], start[1]]) as usize;
    (waits && matches!(line.letter, 'r' | 'o')).then_some((kind, start))
}

/// The host is lent the whole datagram, of which the Rust was shown the first bytes: those behind stay as they are.
fn lent_whole(mut line: Line, whole: &[u8], shown: usize) -> Line {
    match line.letter {
        'b' => line.asked = whole.to_vec(),
        'd' => {
            let mut bytes = line.answered[30..].to_vec();
            bytes.extend_from_slice(&whole[shown..]);
            let answer = histories::Answer {
                shown: bytes,
                ..histories::Answer::default()
            };
            line.answered = answer.bytes();
        }
        _ => {}
    }
    line
}
