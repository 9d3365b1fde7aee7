//! Differences 65 and 66, in what is done with a reading, and 19 with it: the smallest inputs, run through the whole of both.

use std::io;

use super::Found;
use crate::beside::{Answers, Line};
use crate::classes::{self, Content, Part};
use crate::crypto::script;
use crate::dtls13::engine::{Engine, probe};
use crate::histories::{END, Reply};
use crate::leaves::hex;
use crate::sendings::reference::World;
use crate::sendings::{Bytes, Settings, Step};

/// MTU 576, one datagram, and the memory that these need.
const FRESH: &str = "F 02400102401b00";
const KEY_3: &str = "k 0003000102030405060708090a0b";
/// A sealed alert's plaintext: alert 1.
const SEALED_ALERT: &str = "o 01000115";

fn begin(datagram: &[u8]) -> String {
    format!("b {}", hex(datagram))
}

/// What the call that deals with readings answers to those among the steps, in words.
fn here(side: &dyn Answers, steps: &[&str]) -> io::Result<String> {
    let lines: Vec<Line> = steps.iter().map(|step| Line::unanswered(step)).collect();
    let answers = side.answers(&lines)?;
    let told = lines.iter().zip(&answers);
    let told = told.filter(|(line, answer)| match line.letter {
        'r' => answer.get(1) == Some(&END),
        letter => letter == 'c',
    });
    let words = told.map(|(line, answer)| match answer[..] {
        _ if line.letter == 'r' => "the end of the datagram".to_string(),
        [0, classes::IGNORED, ..] => "ignored".to_string(),
        [0, classes::TO_HANDSHAKE, ..] => "handed on as handshake".to_string(),
        [0, classes::TOLD, description, ..] => format!("alert {description} told"),
        [refusal, kind, ..] => format!("class {kind}, refused by {refusal}"),
        _ => "no answer".to_string(),
    });
    Ok(words.collect::<Vec<_>>().join("; "))
}

fn alert() -> Content {
    Content {
        content_type: classes::ALERT,
        bytes: vec![0, 1],
    }
}

/// 65.
fn plaintext_ack(side: &dyn Answers) -> io::Result<Found> {
    let content = Content {
        content_type: classes::ACK,
        bytes: [&[0, 16][..], &[0; 16]].concat(),
    };
    let datagram = Part::plaintext(0, &content).bytes;
    let mut world = World::new(Settings::new(576, 1));
    world.step(&Step::Send {
        epoch: 0,
        content_type: classes::HANDSHAKE,
        save: true,
        content: Bytes {
            length: 0,
            pattern: Vec::new(),
        },
    });
    let outcome = world.engine().parse_packet(&datagram);
    let marked = world.sending().saved[0].marked;
    let (saved, begun) = ("P 0000160000", begin(&datagram));
    let steps = [FRESH, "f 10", saved, &begun, "r ", "c 00", "E 00"];
    let lines = steps.map(Line::unanswered);
    let answers = side.answers(&lines)?;
    // The first bytes shown of a saved record are its mark.
    let mark = answers[6].get(35..37) == Some(&[0, 1]);
    Ok(Found {
        input: format!(
            "an empty handshake record saved in epoch 0; {}",
            hex(&datagram)
        ),
        rust: format!("{outcome:?}; the saved record is marked: {marked}"),
        here: format!(
            "{}; the saved record is marked: {mark}",
            here(side, &steps)?
        ),
    })
}

/// 66, what stands before the alert.
fn before_alert(side: &dyn Answers) -> io::Result<Found> {
    let handshake = Content {
        content_type: classes::HANDSHAKE,
        bytes: Vec::new(),
    };
    let mut datagram = Part::plaintext(0, &handshake).bytes;
    datagram.extend(Part::plaintext(0, &alert()).bytes);
    let mut world = World::new(Settings::new(576, 1));
    let outcome = world.engine().parse_packet(&datagram);
    let kept = world.engine().pending_records().count();
    Ok(Found {
        input: format!(
            "an empty handshake record, then alert 1: {}",
            hex(&datagram)
        ),
        rust: format!("{outcome:?}; {kept} records kept"),
        here: here(
            side,
            &["f 10", &begin(&datagram), "r ", "c 00", "r ", "c 00"],
        )?,
    })
}

/// What the Rust makes of a datagram whose records all open as alert 1.
fn opened(engine: &mut Engine, datagram: &[u8]) -> String {
    script::set_min_protected(16);
    script::set_opens(false);
    script::set_reply(Reply {
        mask: [0, 0],
        opening: Some(vec![0, 1, classes::ALERT]),
    });
    let outcome = engine.parse_packet(datagram);
    script::take_asked();
    let next = probe::expected(engine, 3);
    format!("{outcome:?}, expected next {next}")
}

/// 66, what stands behind the alert.
fn behind_alert(side: &dyn Answers) -> io::Result<Found> {
    let [first, second] = [0, 1].map(|n| Part::sealed(3, false, n, &alert()).bytes);
    let both = [&first[..], &second].concat();
    let mut world = World::new(Settings::new(576, 1));
    let engine = world.engine();
    engine.enable_peer_encryption().expect("nothing is stored");
    probe::key_receive(engine, 3, [0; 12]);
    let rust = [opened(engine, &both), opened(engine, &second)];
    let (both, second) = (begin(&both), begin(&second));
    let read = ["r ", "m 0000", SEALED_ALERT, "c 00"];
    let mut steps = vec!["f 10", "e ", KEY_3, &both];
    steps.extend(read);
    steps.extend(["r ", &second]);
    steps.extend(read);
    Ok(Found {
        input: "encryption on, key 3; alert 1 as number 0 and as number 1 in one datagram; then the second once more".to_string(),
        rust: rust.join("; then "),
        here: here(side, &steps)?,
    })
}

/// 19 with an alert: what stands before a fault is dealt with here.
fn before_fault(side: &dyn Answers) -> io::Result<Found> {
    let mut datagram = Part::plaintext(0, &alert()).bytes;
    datagram.push(classes::ALERT);
    let mut world = World::new(Settings::new(576, 1));
    let outcome = world.engine().parse_packet(&datagram);
    Ok(Found {
        input: format!("alert 1, then one byte more: {}", hex(&datagram)),
        rust: format!("{outcome:?}"),
        here: here(side, &["f 10", &begin(&datagram), "r ", "c 00", "r "])?,
    })
}

pub fn all(side: &dyn Answers) -> io::Result<Vec<Found>> {
    Ok(vec![
        plaintext_ack(side)?,
        before_alert(side)?,
        behind_alert(side)?,
        before_fault(side)?,
    ])
}
