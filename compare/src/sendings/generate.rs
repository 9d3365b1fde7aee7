//! Random histories of sending.

use super::reference::World;
use super::rules::{LAST_NUMBER, LONGEST};
use super::*;
use crate::dice::Dice;
use crate::dtls13::engine::probe::Sending;

/// A number near a limit, or one below `most`.
fn near(dice: &mut Dice, limits: &[usize], most: usize) -> usize {
    if dice.once_in(3) {
        return dice.below(most + 1);
    }
    let limit = dice.of(limits);
    (limit + dice.below(3)).saturating_sub(1)
}

fn settings(dice: &mut Dice) -> Settings {
    let mtu = match dice.below(60) {
        0 => dice.of(&[0, 575, 1501, 65_535]),
        1..30 => dice.of(&[576, 577, 600, 1000, 1499, 1500]),
        _ => 576 + dice.below(925),
    };
    let limit = match dice.below(60) {
        0 => dice.of(&[0, 17, 255]),
        1..30 => 1 + dice.below(4),
        _ => 1 + dice.below(16),
    };
    let mut settings = Settings::new(mtu, limit);
    if dice.once_in(2) {
        settings.room = (limit * mtu).min(24_000);
        settings.kept = (12 * mtu).min(18_000);
    }
    if dice.once_in(40) {
        settings.room = (limit * mtu).min(24_000).saturating_sub(1);
    }
    if dice.once_in(40) {
        settings.kept = (12 * mtu).min(18_000).saturating_sub(1);
    }
    settings
}

fn bytes(dice: &mut Dice, length: usize) -> Bytes {
    let size = 1 + dice.below(23);
    Bytes {
        length,
        pattern: dice.bytes(size),
    }
}

fn epoch(dice: &mut Dice, application: u16) -> u16 {
    match dice.below(24) {
        0 => dice.of(&[1, 3, 4, 6, u16::MAX]),
        1 => application.wrapping_sub(1),
        2 => application.wrapping_add(1),
        3..9 => 0,
        9..16 => 2,
        _ => application,
    }
}

fn send(dice: &mut Dice, settings: &Settings, used: usize, application: u16) -> Step {
    let epoch = epoch(dice, application);
    let content_type = match dice.below(20) {
        0 => dice.of(&[0, 20, 24, 25, 27, 255]),
        _ => dice.of(&[21, 22, 23, 23, 26]),
    };
    let overhead = if epoch == 0 { 13 } else { 22 };
    let most = settings.mtu.saturating_sub(overhead);
    let joins = most.saturating_sub(used);
    let length = if dice.once_in(100) {
        dice.of(&[LONGEST - 1, LONGEST, LONGEST + 1])
    } else if dice.once_in(3) {
        dice.below(60)
    } else {
        near(dice, &[0, 1, joins, joins, most], most)
    };
    Step::Send {
        epoch,
        content_type,
        save: dice.once_in(3),
        content: bytes(dice, length),
    }
}

fn message(dice: &mut Dice, settings: &Settings, used: usize) -> Step {
    let kind = dice.of(&[1, 2, 8, 11, 11, 15, 20, 4, 24, 0, 255]);
    let overhead = if kind == 1 || kind == 2 { 25 } else { 34 };
    let most = settings.mtu.saturating_sub(overhead);
    let joins = most.saturating_sub(used);
    let length = if dice.once_in(30) {
        dice.of(&[LONGEST - 1, LONGEST, LONGEST + 1])
    } else if dice.once_in(3) {
        dice.below(100)
    } else {
        let times = 1 + dice.below(13);
        near(
            dice,
            &[0, 1, joins, joins, most, joins + most, times * most],
            3 * most,
        )
    };
    Step::Message {
        kind,
        body: bytes(dice, length),
    }
}

fn key(dice: &mut Dice, application: u16) -> Step {
    let epoch = match dice.below(12) {
        0 => dice.of(&[0, 1, 2, 3, u16::MAX]),
        1 => application,
        2..5 => application.saturating_add(4),
        _ => application.max(2).saturating_add(1 + dice.below(2) as u16),
    };
    Step::Key {
        epoch,
        iv: dice.bytes(12).try_into().unwrap(),
    }
}

fn number(dice: &mut Dice, application: u16) -> Step {
    let limit = dice.of(&[0, 1 << 8, 1 << 16, 1 << 32, LAST_NUMBER - 1, LAST_NUMBER]);
    Step::Number {
        epoch: dice.of(&[0, 2, application]),
        number: (limit + dice.below(4) as u64).saturating_sub(2),
    }
}

/// A record as an ACK names it: one that was sent, or another.
fn named(dice: &mut Dice, sending: &Sending) -> (u64, u64) {
    if sending.saved.is_empty() || dice.once_in(6) {
        let epoch = dice.of(&[0, 2, 3, 6, 1 << 16, (1 << 16) + 2]);
        return (epoch, dice.below(6) as u64);
    }
    let saved = &sending.saved[dice.below(sending.saved.len())];
    let mut numbers = saved.remembered.clone();
    numbers.push(saved.number);
    (saved.epoch as u64, dice.of(&numbers))
}

/// The content of an ACK, once in a while malformed.
fn ack(dice: &mut Dice, sending: &Sending) -> Step {
    let mut pairs = Vec::new();
    let whole = dice.once_in(6);
    for saved in &sending.saved {
        if whole && saved.epoch == 2 {
            pairs.push((2, saved.number));
        }
    }
    for _ in 0..dice.below(4) {
        pairs.push(named(dice, sending));
    }
    let mut bytes: Vec<u8> = Vec::new();
    for (epoch, number) in pairs {
        bytes.extend_from_slice(&epoch.to_be_bytes());
        bytes.extend_from_slice(&number.to_be_bytes());
    }
    if dice.once_in(8) {
        let cut = dice.below(bytes.len() + 1);
        bytes.truncate(cut);
    }
    let mut length = bytes.len();
    if dice.once_in(8) {
        length = dice.of(&[0, 1, 8, 15, 16, 17, length + 16, 65_535]);
    }
    let mut content = (length as u16).to_be_bytes().to_vec();
    content.extend_from_slice(&bytes);
    if dice.once_in(20) {
        content.truncate(dice.below(3));
    }
    Step::Ack(content)
}

fn note(dice: &mut Dice) -> Step {
    Step::Note {
        epoch: dice.of(&[0, 2, 3, 4, u64::MAX]),
        number: dice.of(&[0, 1, 2, 300, 1 << 32, u64::MAX]),
    }
}

pub fn random(dice: &mut Dice) -> History {
    let settings = settings(dice);
    let mut world = World::new(settings);
    let mut steps = Vec::new();
    // One end is often keyed from the start, so that most calls are not refused.
    if !dice.once_in(8) {
        let iv = dice.bytes(12).try_into().unwrap();
        steps.push(Step::Key { epoch: 2, iv });
    }
    if dice.once_in(2) {
        let iv = dice.bytes(12).try_into().unwrap();
        steps.push(Step::Key { epoch: 3, iv });
    }
    steps.iter().for_each(|step| world.step(step));
    // Some hosts seal and take soon, others let the queue fill.
    let eager = 1 + dice.below(12);
    let count = 4 + dice.below(40);
    while steps.len() < count {
        let sending = world.sending();
        let used = sending.lengths.last().copied().unwrap_or(0);
        let application = sending.application;
        let step = match dice.below(32 + 2 * eager) {
            0 => key(dice, application),
            1 => number(dice, application),
            2 => {
                let limit: u16 = dice.of(&[0, 255, u16::MAX]);
                Step::MessageNumber(limit.wrapping_sub(dice.below(3) as u16))
            }
            3 => Step::BeginFlight,
            4 => Step::Resend,
            5 => Step::View,
            6 => Step::Reply(dice.of(&[-1, 1, -17, 16, 500])),
            7 => Step::Take(dice.of(&[-1, -1, -600, 1, 100])),
            8..17 => send(dice, &settings, used, application),
            17..24 => message(dice, &settings, used),
            24..27 => Step::Resend,
            27..29 => ack(dice, &sending),
            29 => note(dice),
            30 => {
                let limits = dice.once_in(6);
                let count = dice.of(if limits { &[30, 31, 32] } else { &[0, 1, 2] });
                for _ in 0..count {
                    let note = note(dice);
                    world.step(&note);
                    steps.push(note);
                }
                note(dice)
            }
            31 => Step::SendAck,
            n if n % 2 == 0 => {
                if dice.once_in(2) {
                    let ask = Step::Ask;
                    world.step(&ask);
                    steps.push(ask);
                }
                Step::Reply(0)
            }
            _ => Step::Take(0),
        };
        world.step(&step);
        steps.push(step);
    }
    // The same flight again and again, up to what a record remembers.
    let again = if dice.once_in(30) { 34 } else { 0 };
    for _ in 0..again {
        let mut passed = vec![Step::Resend];
        world.step(&Step::Resend);
        passed.extend((0..world.waits()).map(|_| Step::Reply(0)));
        passed.extend(world.sending().lengths.iter().map(|_| Step::Take(0)));
        passed[1..].iter().for_each(|step| world.step(step));
        steps.extend(passed);
    }
    History { settings, steps }
}
