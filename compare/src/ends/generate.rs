//! Random histories of two ends.

use std::collections::VecDeque;

use super::*;
use crate::beside;
use crate::dice::Dice;
use crate::dtls13::engine::probe::Sending;
use crate::sendings::{Bytes, Step as Call};

/// A script is no longer than this when a step is added: what the step brings must fit too.
const LONG: usize = beside::MOST / 5 * 2;

fn settings(dice: &mut Dice) -> Settings {
    let mtu = match dice.below(6) {
        0 => dice.of(&[576, 577, 1499, 1500]),
        _ => 576 + dice.below(200),
    };
    let limit = 1 + dice.below(6000 / mtu);
    let mut settings = Settings::new(mtu, limit);
    if dice.once_in(2) {
        settings.room = limit * mtu;
        settings.kept = 12 * mtu;
    }
    settings
}

/// A length: mostly short, else near what the last datagram has left or what fits in one.
fn length(dice: &mut Dice, mtu: usize, used: usize, overhead: usize) -> usize {
    let most = mtu - overhead;
    let left = most.saturating_sub(used);
    match dice.below(12) {
        0 => dice.below(2),
        1 => (left + dice.below(3)).saturating_sub(1),
        2 => (most + dice.below(3)).saturating_sub(2),
        _ => dice.below(70),
    }
}

fn bytes(dice: &mut Dice, length: usize) -> Bytes {
    let size = 1 + dice.below(23);
    Bytes {
        length,
        pattern: dice.bytes(size),
    }
}

fn message(dice: &mut Dice, settings: &Settings, sending: &Sending) -> Call {
    let used = sending.lengths.last().copied().unwrap_or(0);
    let kind = match sending.handshake_keyed {
        true => dice.of(&[1, 2, 8, 11, 11, 13, 15, 20, 20, 4, 24]),
        false => dice.of(&[1, 2]),
    };
    let overhead = if kind < 3 { 25 } else { 34 };
    let mut length = length(dice, settings.mtu, used, overhead);
    if dice.once_in(16) {
        length += settings.mtu;
    }
    Call::Message {
        kind,
        body: bytes(dice, length),
    }
}

fn send(dice: &mut Dice, settings: &Settings, sending: &Sending) -> Call {
    let used = sending.lengths.last().copied().unwrap_or(0);
    let mut epochs = vec![0];
    if sending.handshake_keyed {
        epochs.extend([2, 2]);
    }
    if sending.application > 0 {
        epochs.extend([sending.application; 3]);
    }
    let epoch = dice.of(&epochs);
    let content_type = match epoch {
        0 => dice.of(&[21, 22]),
        _ => dice.of(&[21, 22, 22, 22, 23, 23, 26]),
    };
    let overhead = if epoch == 0 { 13 } else { 22 };
    let length = length(dice, settings.mtu, used, overhead);
    Call::Send {
        epoch,
        content_type,
        save: content_type == 22 && !dice.once_in(4) || dice.once_in(8),
        content: bytes(dice, length),
    }
}

/// What keys an end, in order.
fn keying(end: usize) -> VecDeque<Step> {
    let send = |epoch| {
        let iv = iv(end, epoch);
        Step::Send(Call::Key { epoch, iv })
    };
    VecDeque::from([
        send(2),
        receive(end, 2),
        Step::Receive(histories::Step::Encrypt),
        send(3),
        receive(end, 3),
        Step::Receive(histories::Step::Release),
    ])
}

fn receive(end: usize, epoch: u16) -> Step {
    let iv = iv(1 - end, epoch);
    Step::Receive(histories::Step::Key { epoch, iv })
}

/// A history in the making.
struct Making {
    ends: Ends,
    history: History,
    /// What is still to be keyed at each end.
    keying: [VecDeque<Step>; 2],
    /// Whether no step may meet a refusal; 22 may be met.
    domain: bool,
}

impl Making {
    fn add(&mut self, end: usize, step: Step) {
        let refusal = self.ends.refusal(end, &step);
        if self.domain && refusal.is_some_and(|refusal| refusal != 22) {
            return;
        }
        self.ends.step(end, &step);
        self.history.steps.push((end, step));
    }

    fn key(&mut self, end: usize) {
        if let Some(step) = self.keying[end].pop_front() {
            self.add(end, step);
        }
    }

    /// The next application epoch, in which the other end will receive.
    fn update(&mut self, end: usize) {
        let application = self.ends.world(end).sending().application;
        if application == 0 {
            return;
        }
        // Refused while a sealing waits.
        if self.domain {
            self.flush(end);
        }
        let epoch = application + 1;
        let iv = iv(end, epoch);
        self.add(end, Step::Send(Call::Key { epoch, iv }));
        if self.ends.world(end).sending().application == epoch {
            self.keying[1 - end].push_back(receive(1 - end, epoch));
        }
    }

    /// All sealed and taken.
    fn flush(&mut self, end: usize) {
        for _ in 0..self.ends.world(end).waits() {
            self.add(end, Step::Send(Call::Ask));
            self.add(end, Step::Send(Call::Reply(0)));
        }
        for _ in 0..self.ends.world(end).sending().lengths.len() {
            self.add(end, Step::Take);
        }
    }

    fn arrive_all(&mut self, dice: &mut Dice, end: usize) {
        for _ in 0..self.ends.on_way(end) {
            let nth = match dice.below(4) {
                0 => dice.below(self.ends.on_way(end)),
                _ => 0,
            };
            self.add(end, Step::Arrive(nth));
        }
    }

    /// The flight sent again and again, up to what a record remembers, and most of it lost, or up to
    /// what the other end notes; then its ACK.
    fn again(&mut self, dice: &mut Dice, end: usize) {
        let arrives = dice.of(&[1, 12, 12]);
        self.flush(end);
        for _ in 0..34 {
            if self.ends.longest() > LONG {
                return;
            }
            self.add(end, Step::Send(Call::Resend));
            self.flush(end);
            for _ in 0..self.ends.on_way(1 - end) {
                let lost = !dice.once_in(arrives);
                self.add(1 - end, if lost { Step::Lose(0) } else { Step::Arrive(0) });
            }
        }
        self.acknowledge(dice, 1 - end);
    }

    /// An end's ACK, which arrives.
    fn acknowledge(&mut self, dice: &mut Dice, end: usize) {
        self.flush(end);
        self.add(end, Step::Send(Call::SendAck));
        self.flush(end);
        self.arrive_all(dice, 1 - end);
    }

    /// Both ends in an epoch at a number, if it is keyed.
    fn at_number(&mut self, end: usize, epoch: u16, number: u64) {
        self.add(end, Step::Send(Call::Number { epoch, number }));
        let number = number - 1;
        let mark = histories::Step::Mark { epoch, number };
        self.add(1 - end, Step::Receive(mark));
    }

    /// An end goes on in an epoch at a number in the first block, far above those before, as if those between were lost:
    /// nearer to what the other end expects there may be a negative number.
    fn ahead(&mut self, dice: &mut Dice) {
        let end = dice.below(2);
        let sending = self.ends.world(end).sending();
        let (epoch, next) = match dice.below(2) {
            0 => (2, sending.handshake_next),
            _ => (sending.application, sending.application_next),
        };
        let number = dice.of(&[32_767, 32_768, 32_769, 40_000, 65_520, 65_535]);
        if epoch > 0 && next < number {
            self.add(end, Step::Send(Call::Number { epoch, number }));
        }
    }

    fn step(&mut self, dice: &mut Dice) {
        let end = dice.below(2);
        let settings = self.history.settings[end];
        let sending = self.ends.world(end).sending();
        let on_way = self.ends.on_way(end);
        let nth = dice.below(on_way);
        match dice.below(64) {
            0..3 => self.key(end),
            3 if dice.once_in(2) => self.update(end),
            3 if dice.once_in(8) => {
                let removed = dice.of(&[2, 3]);
                self.add(end, Step::Receive(histories::Step::Remove(removed)));
            }
            3 | 4 => self.add(end, Step::Send(Call::BeginFlight)),
            5..13 => self.add(end, Step::Send(message(dice, &settings, &sending))),
            13..19 => self.add(end, Step::Send(send(dice, &settings, &sending))),
            19..24 => {
                if !dice.once_in(6) {
                    self.flush(end);
                }
                self.add(end, Step::Send(Call::Resend));
            }
            24..28 => self.add(end, Step::Send(Call::SendAck)),
            28..31 => self.acknowledge(dice, end),
            31..36 => self.flush(end),
            36..38 => {
                self.add(end, Step::Send(Call::Ask));
                self.add(end, Step::Send(Call::Reply(0)));
            }
            38..40 => self.add(end, Step::Take),
            40..43 => self.add(end, Step::Lose(nth)),
            43..46 => self.add(end, Step::Double(nth)),
            46 | 47 => {
                let at = dice.of(&[0, 1, 2, 4, 12, 20, 60]) + dice.below(4);
                let flip = 1 << dice.below(8);
                self.add(end, Step::Alter { nth, at, flip });
            }
            48 => {
                let at = dice.below(120);
                self.add(end, Step::Cut { nth, at });
            }
            49..54 => self.arrive_all(dice, end),
            _ => self.add(end, Step::Arrive(nth)),
        }
    }
}

/// One of so many steps, once in `n` times; else behind them all.
fn place(dice: &mut Dice, n: usize, count: usize) -> usize {
    match dice.once_in(n) {
        true => dice.below(count),
        false => count,
    }
}

/// A history; one in the domain meets no refusal but 22.
pub fn random(dice: &mut Dice, domain: bool) -> History {
    let history = History {
        settings: [settings(dice), settings(dice)],
        min_protected: [dice.of(&[16, 17]), dice.of(&[16, 17])],
        steps: Vec::new(),
    };
    let mut making = Making {
        ends: Ends::new(&history),
        history,
        keying: [keying(0), keying(1)],
        domain,
    };
    // Both ends are often keyed from the start.
    for end in [0, 1] {
        let keyed = if dice.once_in(3) { dice.below(7) } else { 6 };
        (0..keyed).for_each(|_| making.key(end));
    }
    if dice.once_in(6) {
        let limit: u64 = dice.of(&[1 << 8, 1 << 16, 1 << 32]);
        let number = limit - 1 - dice.below(12) as u64;
        making.at_number(dice.below(2), dice.of(&[2, 3]), number);
    }
    let count = 10 + dice.below(70);
    let again = place(dice, 25, count);
    let ahead = place(dice, 12, count);
    for i in 0..count {
        if making.ends.longest() > LONG {
            break;
        }
        if i == ahead {
            making.ahead(dice);
        }
        making.step(dice);
        if i == again {
            making.again(dice, 0);
        }
    }
    making.history
}
