//! Calls of sending that 01 refuses: each kind of outcome in the Rust, with the smallest history found.

use std::collections::BTreeMap;
use std::io;

use super::Found;
use crate::beside::{self, Answers};
use crate::crypto::script;
use crate::dice::Dice;
use crate::dtls13::engine::probe::Sending;
use crate::leaves::hex;
use crate::sendings::limits::{key, send};
use crate::sendings::reference::World;
use crate::sendings::{Bytes, History, Settings, Step, generate, reference};

/// What a refused call is and what the Rust does in it: two of the same kind are one difference.
#[derive(Debug, Clone, PartialEq, Eq, PartialOrd, Ord)]
struct Kind {
    refusal: u8,
    call: &'static str,
    outcome: String,
    changed: Vec<&'static str>,
}

fn changed(before: &Sending, after: &Sending, sealings: usize) -> Vec<&'static str> {
    let mut changed = Vec::new();
    let sealed = |s: &Sending| s.handshake_next + s.application_next;
    if before.lengths != after.lengths {
        changed.push("records sent");
    }
    if before.saved.len() < after.saved.len() {
        changed.push("records saved");
    }
    if after.saved.len() < before.saved.len() {
        changed.push("the flight lost");
    }
    if after.noted < before.noted {
        changed.push("noted records lost");
    }
    if !before.closed && after.closed {
        changed.push("the datagram closed");
    }
    if before.message != after.message {
        changed.push("message number moved");
    }
    if sealings as u64 > sealed(after).saturating_sub(sealed(before)) {
        changed.push("a number sealed and not used");
    }
    changed
}

/// An error without its epoch.
pub fn named(outcome: &str) -> String {
    let names = [
        ("SendKeysNotAvailable", "keys absent"),
        ("SequenceNumberExhausted", "numbers spent"),
        ("TransmitQueueFull", "queue full"),
        ("TransmitHistoryFull", "history full"),
    ];
    let found = names.iter().find(|(error, _)| outcome.contains(error));
    found.map_or(outcome, |(_, name)| name).to_string()
}

/// The kind of a history whose last step, and no other, is refused.
fn kind(history: &History) -> Option<Kind> {
    let (last, steps) = history.steps.split_last()?;
    let mut world = World::new(history.settings);
    for step in steps {
        if world.refusal(step).is_some() {
            return None;
        }
        world.step(step);
    }
    let refusal = world.refusal(last).filter(|refusal| *refusal != 12)?;
    let before = world.sending();
    let outcome = named(&world.beyond(last));
    let sealings = script::take_sealings().len();
    Some(Kind {
        refusal,
        call: match last {
            Step::Send { content_type, .. } if refusal == 14 => match content_type {
                21 | 22 | 26 => "record over the MTU",
                _ => "record of another type",
            },
            Step::Send { save: false, .. } => "record",
            Step::Send { save: true, .. } => "record to save",
            Step::Message { .. } => "message",
            Step::Resend => "resend",
            _ => "ACK",
        },
        outcome,
        changed: changed(&before, &world.sending(), sealings),
    })
}

/// The histories that end with each refused call of a history, without the ones refused before.
fn refused(history: &History) -> Vec<History> {
    let mut world = World::new(history.settings);
    let mut found = Vec::new();
    let mut steps = Vec::new();
    for step in &history.steps {
        if world.refusal(step).is_some() {
            let mut steps = steps.clone();
            steps.push(step.clone());
            found.push(History {
                settings: history.settings,
                steps,
            });
            continue;
        }
        world.step(step);
        steps.push(step.clone());
    }
    found
}

/// The contents of a step.
pub fn content(step: &mut Step) -> Option<&mut Bytes> {
    match step {
        Step::Send { content, .. } => Some(content),
        Step::Message { body, .. } => Some(body),
        _ => None,
    }
}

/// Drops steps and shortens contents for as long as `holds`.
pub fn shrink(
    mut history: History,
    mut holds: impl FnMut(&History) -> io::Result<bool>,
) -> io::Result<History> {
    loop {
        let before = history.clone();
        let settings = history.settings;
        beside::drop_steps(&mut history.steps, |steps| {
            let steps = steps.to_vec();
            holds(&History { settings, steps })
        })?;
        for i in 0..history.steps.len() {
            let Some(bytes) = content(&mut history.steps[i]).cloned() else {
                continue;
            };
            let mut less = bytes.length;
            while less > 0 {
                let mut other = history.clone();
                let bytes = content(&mut other.steps[i]).unwrap();
                bytes.length = bytes.length.saturating_sub(less);
                if other != history && holds(&other)? {
                    history = other;
                } else {
                    less /= 2;
                }
            }
            let mut other = history.clone();
            content(&mut other.steps[i]).unwrap().pattern = vec![0];
            if holds(&other)? {
                history = other;
            }
        }
        if history == before {
            return Ok(history);
        }
    }
}

/// The least settings under which it is of the same kind.
fn smallest(history: History, wanted: &Kind) -> io::Result<History> {
    let mut history = shrink(history, |other| Ok(kind(other).as_ref() == Some(wanted)))?;
    let settings = (1..=16).map(|limit| Settings::new(576, limit));
    for settings in settings.chain([Settings::new(1500, 16)]) {
        let other = History {
            settings,
            steps: history.steps.clone(),
        };
        if kind(&other).as_ref() == Some(wanted) {
            history = other;
            break;
        }
    }
    shrink(history, |other| Ok(kind(other).as_ref() == Some(wanted)))
}

fn size(history: &History) -> (usize, usize) {
    let bytes = history.steps.iter().cloned().map(|mut step| {
        let length = content(&mut step).map(|bytes| bytes.length);
        length.unwrap_or(0)
    });
    (history.steps.len(), bytes.sum())
}

fn describe(history: &History) -> String {
    let Settings { mtu, limit, .. } = history.settings;
    let mut words = vec![format!("MTU {mtu}, limit {limit}")];
    words.extend(history.steps.iter().map(|step| match step {
        Step::Key { epoch, .. } => format!("key {epoch}"),
        Step::Number { epoch, number } => {
            format!("next number {number} in epoch {epoch}")
        }
        Step::MessageNumber(number) => format!("next message {number}"),
        Step::Send {
            epoch,
            content_type,
            save,
            content,
        } => {
            let saved = if *save { ", saved" } else { "" };
            let n = content.length;
            format!("send({epoch}, {content_type}, {n} bytes{saved})")
        }
        Step::Message { kind, body } => format!("message({kind}, {} bytes)", body.length),
        Step::Ack(content) => format!("act on the ACK {}", hex(content)),
        Step::Note { epoch, number } => format!("note ({epoch}, {number})"),
        Step::SendAck => "send the ACK".to_string(),
        step => format!("{step:?}").to_lowercase(),
    }));
    words.join("; ")
}

/// Each kind of refused call met in random histories, with the smallest history found.
pub fn all(side: &dyn Answers, count: u64, seed: u64) -> io::Result<Vec<Found>> {
    let mut kinds: BTreeMap<Kind, History> = BTreeMap::new();
    for i in 0..count {
        let random = generate::random(&mut Dice::new(seed << 32 ^ i));
        for history in refused(&random) {
            let Some(kind) = kind(&history) else { continue };
            let known = kinds.get(&kind);
            if known.is_some_and(|known| size(known) <= size(&history)) {
                continue;
            }
            let history = smallest(history, &kind)?;
            kinds.insert(kind, history);
        }
    }
    let mut found = Vec::new();
    for (kind, history) in kinds {
        // Here it is refused, with all as it was before.
        let mut viewed = history.clone();
        let last = viewed.steps.len() - 1;
        viewed.steps.insert(last, Step::View);
        viewed.steps.push(Step::View);
        let lines = reference::run(&viewed).lines;
        let differs = beside::differs(side, &lines)?;
        let mut rust = vec![kind.outcome.clone()];
        rust.extend(kind.changed.iter().map(|word| word.to_string()));
        found.push(Found {
            input: describe(&history),
            rust: rust.join("; "),
            here: match differs {
                None => format!("{}, nothing changes", kind.refusal),
                Some((_, answer)) => format!("not {}: {}", kind.refusal, hex(&answer)),
            },
        });
    }
    Ok(found)
}

/// A record sealed, refused by 19 and sealed again with another content under the same number.
pub fn sealed_twice() -> Found {
    let steps = vec![key(2), send(2, 21, 533), send(2, 21, 0)];
    let mut world = World::new(Settings::new(576, 1));
    world.step(&steps[0]);
    world.step(&steps[1]);
    let outcome = world.beyond(&steps[2]);
    let first = script::take_sealings();
    world.step(&Step::Reply(0));
    world.step(&Step::Take(0));
    let second = world.beyond(&send(2, 21, 1));
    let again = script::take_sealings();
    let texts: Vec<String> = first
        .iter()
        .chain(&again)
        .map(|s| hex(&s.plaintext))
        .collect();
    let nonces: Vec<String> = first.iter().chain(&again).map(|s| hex(&s.nonce)).collect();
    Found {
        input: describe(&History {
            settings: Settings::new(576, 1),
            steps,
        }) + "; the datagram taken; send(2, 21, 1 bytes)",
        rust: format!("{outcome}, then {second}: nonces {nonces:?}, texts {texts:?}"),
        here: "19, no sealing asked; the second is number 1".to_string(),
    }
}
