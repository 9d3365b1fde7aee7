//! Random histories.

use std::collections::HashMap;

use super::reference::End;
use super::*;
use crate::beside;
use crate::dice::Dice;
use crate::dtls13::engine::probe::{self, Saved};
use crate::dtls13::incoming::RecordHandler;
use crate::sendings::{Bytes, Step as Call};

/// A script is no longer than this when a step is added.
const LONG: usize = beside::MOST / 2;
const LAST: u64 = (1 << 48) - 1;

/// Fewer than so many bytes.
fn some(dice: &mut Dice, most: usize) -> Vec<u8> {
    let length = dice.below(most);
    dice.bytes(length)
}

/// The pairs of an ACK: some or all of the saved records, by a number of theirs, and others.
fn pairs(dice: &mut Dice, saved: &[Saved]) -> Vec<(u64, u64)> {
    let mut pairs = Vec::new();
    let all = dice.once_in(3);
    for record in saved {
        if !all && !dice.once_in(3) {
            continue;
        }
        let mut numbers = vec![record.number];
        numbers.extend(&record.remembered);
        pairs.push((record.epoch as u64, dice.of(&numbers)));
    }
    while dice.once_in(3) {
        let epoch = dice.of(&[0, 1, 2, 3, 4, 1 << 16]);
        pairs.push((epoch, dice.below(12) as u64));
    }
    pairs
}

/// An ACK; now and then one without the form of an ACK.
fn ack(dice: &mut Dice, saved: &[Saved]) -> Vec<u8> {
    let mut bytes = Vec::new();
    for (epoch, number) in pairs(dice, saved) {
        bytes.extend_from_slice(&epoch.to_be_bytes());
        bytes.extend_from_slice(&number.to_be_bytes());
    }
    let length = bytes.len() as u16;
    bytes.splice(0..0, length.to_be_bytes());
    match dice.below(20) {
        0 => bytes.truncate(dice.below(bytes.len())),
        1 => bytes.push(dice.byte()),
        2 => bytes[1] = bytes[1].wrapping_add(dice.of(&[1, 8, 16, 255])),
        _ => {}
    }
    bytes
}

fn alert(dice: &mut Dice, closes: bool) -> Vec<u8> {
    let description = match dice.below(16) {
        0 => dice.of(&[1, 10, 40, 50, 80, 89, 91, 120, 255]),
        1 => dice.byte(),
        2..10 if closes => 0,
        _ => 90,
    };
    let mut bytes = vec![dice.of(&[0, 1, 2]), description, dice.byte()];
    bytes.truncate(dice.of(&[0, 1, 2, 2, 2, 2, 2, 2, 3]));
    bytes
}

/// Some bytes, or a handshake header and the body that it tells.
fn handshake(dice: &mut Dice) -> Vec<u8> {
    let mut bytes = some(dice, 12);
    if dice.once_in(2) {
        let kind = dice.of(&[1, 2, 4, 8, 20, 24]);
        let number = dice.below(3) as u8;
        let total = bytes.len() as u8;
        bytes.splice(0..0, [kind, 0, 0, total, 0, number, 0, 0, 0, 0, 0, total]);
    }
    bytes
}

/// A history in the making.
struct Making {
    end: End,
    history: History,
    /// Whether closes are sent now and then.
    closes: bool,
    /// The next number of each epoch that the far end sends in.
    next: HashMap<u16, u64>,
}

impl Making {
    fn add(&mut self, step: Step) {
        self.end.step(&step);
        self.history.steps.push(step);
    }

    fn send(&mut self, call: Call) {
        self.add(Step::Send(call));
    }

    fn receive(&mut self, step: histories::Step) {
        self.add(Step::Receive(step));
    }

    fn key_receive(&mut self, dice: &mut Dice, epoch: u16) {
        let iv = std::array::from_fn(|_| dice.byte());
        self.receive(histories::Step::Key { epoch, iv });
    }

    /// A record or a message that is saved.
    fn save(&mut self, dice: &mut Dice) {
        let length = dice.below(20);
        let pattern = dice.bytes(3);
        let content = Bytes { length, pattern };
        let call = match dice.below(3) {
            0 => Call::Message {
                kind: dice.of(&[1, 2, 8, 20]),
                body: content,
            },
            _ => Call::Send {
                epoch: dice.of(&[0, 2, 2, 3]),
                content_type: dice.of(&[21, 22, 22, 23]),
                save: true,
                content,
            },
        };
        self.send(call);
    }

    fn content(&mut self, dice: &mut Dice) -> Content {
        let (content_type, bytes) = match dice.below(16) {
            0..4 => (ALERT, alert(dice, self.closes)),
            4..9 => {
                let saved = self.end.world().sending().saved;
                (ACK, ack(dice, &saved))
            }
            9..12 => (HANDSHAKE, handshake(dice)),
            12 | 13 => (APPLICATION_DATA, some(dice, 12)),
            14 => (CHANGE_CIPHER_SPEC, some(dice, 3)),
            _ => (dice.of(&[1, 19, 24, 25, 27, 99, 255]), dice.bytes(2)),
        };
        Content {
            content_type,
            bytes,
        }
    }

    /// A number near the close or the next one of its epoch.
    fn number(&mut self, dice: &mut Dice, epoch: u16) -> u64 {
        let close = probe::close(self.end.world().engine());
        let near = close.filter(|place| place.epoch == epoch && dice.once_in(2));
        if let Some(place) = near {
            let number = place.sequence_number + dice.below(7) as u64;
            return number.saturating_sub(3);
        }
        let expected = probe::expected(self.end.world().engine(), epoch);
        let next = self.next.entry(epoch).or_insert(expected);
        let number = match dice.below(8) {
            0 => next.saturating_sub(1 + dice.below(4) as u64),
            1 => *next + dice.below(60) as u64,
            // Nearer to what is expected may be a negative number.
            2 if dice.once_in(40) => *next + 40_000,
            _ => *next,
        };
        *next = (*next).max(number + 1);
        number.min(LAST)
    }

    fn plaintext(&mut self, dice: &mut Dice) -> Part {
        let content = self.content(dice);
        let number = match dice.below(3) {
            0 => dice.of(&[0, 1, LAST]),
            _ => self.number(dice, 0),
        };
        Part::plaintext(number, &content)
    }

    fn sealed(&mut self, dice: &mut Dice) -> Part {
        let epochs = probe::receive_epochs(self.end.world().engine());
        let epoch = match epochs[..] {
            [] => dice.of(&[2, 3]),
            _ if dice.once_in(20) => dice.below(8) as u16,
            _ => dice.of(&epochs),
        };
        let content = self.content(dice);
        let number = self.number(dice, epoch);
        let mut part = Part::sealed(epoch, !dice.once_in(4), number, &content);
        if dice.once_in(16) {
            let reply = part.reply.as_mut();
            reply.expect("a sealed record").opening = None;
        }
        part
    }

    fn datagram(&mut self, dice: &mut Dice) {
        let count = match dice.below(16) {
            0 => 14 + dice.below(5),
            _ => 1 + dice.below(4),
        };
        let encrypted = self.end.world().engine().is_peer_encryption_enabled();
        let plain = dice.of(if encrypted { &[4, 8, 8] } else { &[1, 2, 2] });
        self.next.clear();
        let mut parts = Vec::new();
        for _ in 0..count {
            parts.push(match dice.once_in(plain) {
                true => self.plaintext(dice),
                false => self.sealed(dice),
            });
        }
        // Bytes that end the datagram or are dropped.
        if dice.once_in(20) {
            let bytes = some(dice, 4);
            let reply = None;
            parts.push(Part { bytes, reply });
        }
        let between = match dice.once_in(2) {
            true => 1 + dice.below(usize::MAX) as u64,
            false => 0,
        };
        self.add(Step::Datagram { parts, between });
    }

    fn step(&mut self, dice: &mut Dice) {
        match dice.below(32) {
            0 | 1 => self.receive(histories::Step::Encrypt),
            2 => self.receive(histories::Step::Release),
            3 => {
                let keyed = probe::receive_epochs(self.end.world().engine());
                let next = keyed.iter().max().map_or(2, |epoch| epoch + 1);
                self.key_receive(dice, next);
            }
            4 if dice.once_in(4) => {
                let epoch = dice.of(&[2, 3]);
                self.receive(histories::Step::Remove(epoch));
            }
            5 if dice.once_in(4) => self.send(Call::BeginFlight),
            5..9 => self.save(dice),
            9 => self.add(Step::Flush),
            10 | 11 => {
                self.add(Step::Flush);
                self.send(Call::Resend);
            }
            _ => self.datagram(dice),
        }
    }

    /// As a handshake begins, mostly.
    fn begin(&mut self, dice: &mut Dice) {
        for epoch in [2, 3] {
            let iv = std::array::from_fn(|_| dice.byte());
            if !dice.once_in(6) {
                self.send(Call::Key { epoch, iv });
            }
            if !dice.once_in(6) {
                self.key_receive(dice, epoch);
            }
        }
        for _ in 0..dice.below(8) {
            self.save(dice);
        }
        if !dice.once_in(4) {
            self.receive(histories::Step::Encrypt);
        }
    }
}

pub fn random(dice: &mut Dice) -> History {
    let settings = Settings::new(576 + dice.below(100), 4 + dice.below(9));
    let history = History {
        settings,
        min_protected: dice.of(&[16, 17]),
        steps: Vec::new(),
    };
    let mut making = Making {
        end: End::new(settings, history.min_protected),
        history,
        closes: !dice.once_in(3),
        next: HashMap::new(),
    };
    making.begin(dice);
    for _ in 0..4 + dice.below(16) {
        if beside::length(making.end.lines()) > LONG {
            break;
        }
        making.step(dice);
    }
    making.history
}
