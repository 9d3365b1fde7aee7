//! What was sealed at one end, what the link did with it and what the other end handed over, as it is told.

use std::collections::BTreeMap;
use std::hash::{DefaultHasher, Hasher};
use std::ops::Range;
use std::str::SplitAsciiWhitespace;

use crate::link::{Datagram, Kind, Sent};

pub struct Record {
    pub epoch: u16,
    pub number: u64,
    pub content_type: u8,
    pub content: Vec<u8>,
}

pub enum Event {
    Keyed(u16),
    Handed(Record),
    /// Dealt with by the library: an ACK, a close or another alert, by its description, or one that is ignored.
    Dealt {
        epoch: u16,
        number: u64,
        content_type: u8,
        description: Option<u8>,
    },
    /// Dropped beyond the close.
    Beyond {
        epoch: u16,
        number: u64,
    },
    /// In plaintext, and dropped.
    Unprotected,
    /// Dropped by this refusal.
    Dropped(usize),
    /// One of those dropped as too old was so far below the highest number.
    Below(u64),
    Read(u64),
}

/// A value by which a datagram is known again, the same in every process of this program.
pub fn check(datagram: &[u8]) -> u64 {
    let mut hasher = DefaultHasher::new();
    hasher.write(datagram);
    hasher.finish()
}

pub struct Delivery {
    pub check: u64,
    pub records: Range<usize>,
    pub kind: Kind,
}

/// One direction.
#[derive(Default)]
pub struct Ledger {
    pub sealed: Vec<Record>,
    pub sent: Vec<Sent>,
    /// What the receiving end told, in order.
    pub events: Vec<Event>,
    pub delivered: Vec<Delivery>,
    pub acknowledged: Vec<Record>,
    pub handed: usize,
    pub read: usize,
    pub plaintext: usize,
    pub unopened: usize,
    /// How often a close was told.
    pub closes: usize,
    /// Handshake messages that were put together, and their pieces.
    pub messages: usize,
    pub pieces: usize,
    /// How often, by refusal.
    pub dropped: BTreeMap<usize, usize>,
}

fn record_of(words: &mut SplitAsciiWhitespace<'_>) -> Option<Record> {
    let epoch = words.next()?.parse().ok()?;
    let number = words.next()?.parse().ok()?;
    let content_type = words.next()?.parse().ok()?;
    let content = hex::decode(words.next().unwrap_or("")).ok()?;
    Some(Record { epoch, number, content_type, content })
}

/// A line on a record that the library dealt with.
fn dealt(words: &mut SplitAsciiWhitespace<'_>) -> Option<Event> {
    let epoch = words.next()?.parse().ok()?;
    let number = words.next()?.parse().ok()?;
    let content_type = words.next()?.parse().ok()?;
    Some(Event::Dealt { epoch, number, content_type, description: words.next().and_then(|word| word.parse().ok()) })
}

fn beyond(words: &mut SplitAsciiWhitespace<'_>) -> Option<Event> {
    let epoch = words.next()?.parse().ok()?;
    Some(Event::Beyond { epoch, number: words.next()?.parse().ok()? })
}

impl Ledger {
    /// The sending end's line on a sealing.
    pub fn seals(&mut self, words: &mut SplitAsciiWhitespace<'_>) {
        self.sealed.extend(record_of(words));
    }

    /// The sending end's line on a saved record that is marked acknowledged.
    pub fn acknowledges(&mut self, words: &mut SplitAsciiWhitespace<'_>) {
        self.acknowledged.extend(record_of(words));
    }

    /// The link has a datagram.
    pub fn sends(&mut self, sent: Sent) {
        self.sent.push(sent);
    }

    pub fn delivers(&mut self, datagram: &Datagram) {
        self.delivered.push(Delivery { check: check(&datagram.bytes), records: datagram.records.clone(), kind: datagram.kind });
    }

    /// The receiving end's line; whether it is one.
    pub fn reads(&mut self, kind: &str, words: &mut SplitAsciiWhitespace<'_>) -> bool {
        match kind {
            "r" => {
                self.handed += 1;
                self.events.extend(record_of(words).map(Event::Handed));
            }
            "g" => {
                self.read += 1;
                self.events.push(Event::Read(words.next().and_then(|n| n.parse().ok()).unwrap_or(0)));
            }
            "k" => self.events.extend(words.next().and_then(|epoch| epoch.parse().ok()).map(Event::Keyed)),
            "d" => {
                let event = dealt(words);
                self.closes += usize::from(matches!(event, Some(Event::Dealt { description: Some(0), .. })));
                self.handed += usize::from(event.is_some());
                self.events.extend(event);
            }
            "b" => self.events.extend(beyond(words)),
            "n" => self.events.push(Event::Unprotected),
            "p" => self.plaintext += 1,
            "u" => self.unopened += 1,
            "m" => {
                self.messages += 1;
                self.pieces += words.next().and_then(|n| n.parse().ok()).unwrap_or(0);
            }
            "x" => {
                let reason: usize = words.next().and_then(|n| n.parse().ok()).unwrap_or(0);
                *self.dropped.entry(reason).or_default() += 1;
                self.events.push(Event::Dropped(reason));
            }
            "t" => self.events.extend(words.next().and_then(|distance| distance.parse().ok()).map(Event::Below)),
            _ => return false,
        }
        true
    }
}
