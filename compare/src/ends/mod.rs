//! Whole histories of two ends and the link between them: their steps, and what the Rust answers to
//! them as lines. The lines are those of `sendings` and `histories`.
//!
//! An end is one `Engine` that sends and receives. Here its sending and its receiving state are
//! apart, each with its script. The cipher opens what it has sealed (`crypto/script.rs`).

pub mod generate;

use crate::beside::{self, Line};
use crate::crypto::{script, stub};
use crate::dtls13::engine::probe::Saved;
use crate::histories::reference::Receiver;
use crate::histories::{self, OPENED, Reasons};
use crate::requests::Changes;
use crate::sendings::reference::World;
use crate::sendings::{self, Settings, Tally};

const HANDSHAKE: u8 = 22;
const ACK: u8 = 26;

/// A step at one end.
#[derive(Debug, Clone, PartialEq, Eq)]
pub enum Step {
    /// A call that sends, or its sealing; the saved records are looked at afterwards.
    Send(sendings::Step),
    /// A call that keys or removes a receive epoch, turns encryption on or releases.
    Receive(histories::Step),
    /// A datagram is taken and is on its way to the other end.
    Take,
    /// Of the datagrams on their way to this end one arrives. It is read to its end, its
    /// handshake records of epoch 2 and above are noted, its ACKs acted on.
    Arrive(usize),
    /// One is lost.
    Lose(usize),
    /// One is on its way twice.
    Double(usize),
    /// One has a byte altered.
    Alter { nth: usize, at: usize, flip: u8 },
    /// One has its end cut off.
    Cut { nth: usize, at: usize },
}

/// A history from two fresh states on. Each step has its end, 0 or 1.
#[derive(Debug, Clone, PartialEq, Eq)]
pub struct History {
    pub settings: [Settings; 2],
    pub min_protected: [u8; 2],
    pub steps: Vec<(usize, Step)>,
}

/// The IV of an epoch in which an end sends.
pub fn iv(from: usize, epoch: u16) -> [u8; 12] {
    stub::mix(&[&[from as u8], &epoch.to_be_bytes()])
}

/// What happened on the link and at both ends.
#[derive(Debug, Clone, Default)]
pub struct Met {
    pub arrived: u64,
    pub lost: u64,
    pub doubled: u64,
    pub damaged: u64,
    /// Records not noted, as 32 were.
    pub unnoted: u64,
    /// Records marked by a number that they were sent under before they were sent again.
    pub by_remembered: u64,
    /// ACKs that empty the flight.
    pub emptied: u64,
    pub sent: Tally,
    pub kinds: [u64; 10],
    pub reasons: Reasons,
    /// How often a request changed what the Rust does.
    pub changes: Changes,
}

impl Met {
    pub fn add(&mut self, other: &Met) {
        self.arrived += other.arrived;
        self.lost += other.lost;
        self.doubled += other.doubled;
        self.damaged += other.damaged;
        self.unnoted += other.unnoted;
        self.by_remembered += other.by_remembered;
        self.emptied += other.emptied;
        self.sent.add(&other.sent);
        self.changes.add(&other.changes);
        let sums = self.kinds.iter_mut().chain(&mut self.reasons);
        let more = other.kinds.iter().chain(&other.reasons);
        sums.zip(more).for_each(|(sum, n)| *sum += n);
    }
}

/// Whether an ACK empties a flight; how many records it marks by remembered numbers alone.
fn marks(before: &[Saved], after: &[Saved], ack: &[u8]) -> (bool, usize) {
    let present = |saved: &Saved| {
        let mut name = (saved.epoch as u64).to_be_bytes().to_vec();
        name.extend_from_slice(&saved.number.to_be_bytes());
        let mut pairs = ack.get(2..).unwrap_or_default().chunks(16);
        pairs.any(|pair| pair == name)
    };
    let both = before.iter().zip(after);
    let marked = both.filter(|(old, new)| !old.marked && new.marked && !present(new));
    (after.len() < before.len(), marked.count())
}

/// The scripts of a history with their answers, by end.
pub struct Run {
    pub sending: [Vec<Line>; 2],
    pub receiving: [Vec<Line>; 2],
    pub met: Met,
}

impl Run {
    /// How many lines there are in all.
    pub fn lines(&self) -> usize {
        let scripts = self.sending.iter().chain(&self.receiving);
        scripts.map(Vec::len).sum()
    }
}

struct End {
    world: World,
    receiver: Receiver,
    /// The datagrams on their way to this end.
    on_way: Vec<Vec<u8>>,
}

/// Both ends.
pub struct Ends {
    ends: [End; 2],
    met: Met,
}

/// Runs a history; then all that waits is sealed, all that is queued taken, and all that is on its
/// way arrives. Steps that make no sense where they stand are passed over, so that a history can
/// lose any of its steps.
pub fn run(history: &History) -> Run {
    let mut ends = Ends::new(history);
    for (end, step) in &history.steps {
        ends.step(*end, step);
    }
    ends.finish()
}

impl Ends {
    pub fn new(history: &History) -> Self {
        script::set_opens(true);
        let ends = [0, 1].map(|end| End {
            world: World::new(history.settings[end]),
            receiver: Receiver::new(history.min_protected[end]),
            on_way: Vec::new(),
        });
        Self {
            ends,
            met: Met::default(),
        }
    }

    pub fn world(&self, end: usize) -> &World {
        &self.ends[end].world
    }

    /// The refusal that a step meets.
    pub fn refusal(&self, end: usize, step: &Step) -> Option<u8> {
        let world = self.world(end);
        match step {
            Step::Send(sendings::Step::Reply(_)) if world.waits() == 0 => Some(15),
            Step::Take if world.unsealed() => Some(23),
            Step::Send(step) => world.refusal(step),
            _ => None,
        }
    }

    /// How many datagrams are on their way to an end.
    pub fn on_way(&self, end: usize) -> usize {
        self.ends[end].on_way.len()
    }

    /// The longest script so far, with about what is to come of what is queued and on its way.
    pub fn longest(&self) -> usize {
        let queued = |end: usize| self.world(end).sending().lengths.iter().sum::<usize>();
        let lengths = [0, 1].map(|i| {
            let end = &self.ends[i];
            let on_way: usize = end.on_way.iter().map(Vec::len).sum();
            let sending = beside::length(&end.world.run().lines) + 2 * queued(i);
            // Each byte is in the datagram and in what was opened.
            let receiving = beside::length(&end.receiver.run.lines) + 4 * (queued(1 - i) + on_way);
            sending.max(receiving)
        });
        lengths[0].max(lengths[1])
    }

    pub fn step(&mut self, end: usize, step: &Step) {
        match step {
            Step::Send(step) => {
                let world = &mut self.ends[end].world;
                world.step(step);
                if !matches!(step, sendings::Step::Ask | sendings::Step::View) {
                    world.step(&sendings::Step::View);
                }
            }
            Step::Receive(step) => {
                let End {
                    world, receiver, ..
                } = &mut self.ends[end];
                receiver.step(world.engine(), step);
            }
            Step::Take => {
                let datagram = self.ends[end].world.take(0);
                self.ends[1 - end].on_way.extend(datagram);
            }
            _ => self.link(end, step),
        }
    }

    /// A step of the link, if a datagram is on its way.
    fn link(&mut self, end: usize, step: &Step) {
        let on_way = &mut self.ends[end].on_way;
        let Some(last) = on_way.len().checked_sub(1) else {
            return;
        };
        match step {
            Step::Arrive(nth) => {
                let datagram = on_way.remove(*nth.min(&last));
                self.arrive(end, &datagram);
            }
            Step::Lose(nth) => {
                on_way.remove(*nth.min(&last));
                self.met.lost += 1;
            }
            Step::Double(nth) => {
                on_way.push(on_way[*nth.min(&last)].clone());
                self.met.doubled += 1;
            }
            Step::Alter { nth, at, flip } => {
                let datagram = &mut on_way[*nth.min(&last)];
                if let Some(byte) = datagram.get_mut(*at) {
                    *byte ^= flip;
                    self.met.damaged += 1;
                }
            }
            Step::Cut { nth, at } => {
                on_way[*nth.min(&last)].truncate(*at);
                self.met.damaged += 1;
            }
            _ => unreachable!("no step of the link"),
        }
    }

    fn arrive(&mut self, end: usize, datagram: &[u8]) {
        self.met.arrived += 1;
        let End {
            world, receiver, ..
        } = &mut self.ends[end];
        for record in receiver.read(world.engine(), datagram) {
            // What was not opened is neither noted nor acted on.
            if record.kind != OPENED || record.epoch < 2 {
                continue;
            }
            let before = world.sending();
            let step = match record.content_type {
                HANDSHAKE => sendings::Step::Note {
                    epoch: record.epoch as u64,
                    number: record.number,
                },
                ACK => sendings::Step::Ack(record.shown.clone()),
                _ => continue,
            };
            world.step(&step);
            let after = world.sending();
            if record.content_type == HANDSHAKE && after.noted == before.noted {
                self.met.unnoted += 1;
            }
            let (emptied, remembered) = marks(&before.saved, &after.saved, &record.shown);
            self.met.emptied += emptied as u64;
            self.met.by_remembered += remembered as u64;
            world.step(&sendings::Step::View);
        }
    }

    fn finish(mut self) -> Run {
        for end in [0, 1] {
            let datagrams = self.ends[end].world.take_rest();
            self.ends[1 - end].on_way.extend(datagrams);
        }
        for end in [0, 1] {
            for datagram in std::mem::take(&mut self.ends[end].on_way) {
                self.arrive(end, &datagram);
            }
            self.ends[end].world.step(&sendings::Step::View);
        }
        let mut met = self.met;
        for End {
            world, receiver, ..
        } in &self.ends
        {
            met.add(&Met {
                sent: world.run().tally.clone(),
                kinds: receiver.run.kinds,
                reasons: receiver.run.reasons,
                changes: receiver.run.changes.clone(),
                ..Met::default()
            });
        }
        let [a, b] = self.ends;
        Run {
            sending: [a.world.run().lines.clone(), b.world.run().lines.clone()],
            receiving: [a.receiver.run.lines, b.receiver.run.lines],
            met,
        }
    }
}
