//! Differences in receiving, each with its input run through both.

use std::io;
use std::sync::Arc;

use super::Found;
use crate::beside::{Answers, Line};
use crate::buffer::Buf;
use crate::crypto::script;
use crate::dtls13::engine::Engine;
use crate::dtls13::engine::probe;
use crate::histories::reference::asked;
use crate::leaves::hex;
use crate::types::Dtls13CipherSuite;
use crate::{Config, DtlsCertificate};

/// An input in words, what the Rust does with it, and the steps here.
struct Case {
    input: &'static str,
    rust: String,
    steps: Vec<String>,
}

const KEY_2: &str = "k 0002000102030405060708090a0b";
const KEY_3: &str = "k 0003000102030405060708090a0b";
const LAST_NUMBER: u64 = (1 << 48) - 1;

fn steps(steps: &[&str]) -> Vec<String> {
    steps.iter().map(|step| step.to_string()).collect()
}

fn begin(datagram: &[u8]) -> String {
    format!("b {}", hex(datagram))
}

fn engine() -> Engine {
    let config = Config {
        crypto_provider: script::provider(),
        ..Config::default()
    };
    let mut engine = Engine::new(Arc::new(config), DtlsCertificate::default());
    engine.set_cipher_suite(Dtls13CipherSuite::AES_128_GCM_SHA256);
    engine
}

/// A sealed record of one number byte and no length, with a protected part of 16 bytes.
fn sealed(bits: u8) -> Vec<u8> {
    let mut record = vec![0x20 | bits, 0];
    record.extend_from_slice(&[0; 16]);
    record
}

/// An empty plaintext record.
fn plaintext(content_type: u8) -> Vec<u8> {
    let mut record = vec![content_type, 0xFE, 0xFD];
    record.extend_from_slice(&[0; 10]);
    record
}

/// Records that the Rust asks about, or reads, and that are dropped or refused here.
fn records() -> Vec<Case> {
    let short = sealed(3);
    let long = vec![0; 16_385];
    let marked = format!("w 0003{LAST_NUMBER:016x}");
    vec![
        Case {
            input: "least length 17, encryption on, key 3; 23 00 and 16 bytes",
            rust: asked(17, &[3], None, &short),
            steps: steps(&["f 11", "e ", KEY_3, &begin(&short), "r "]),
        },
        Case {
            input: "encryption on, nothing keyed; 20 00",
            rust: asked(16, &[], None, &[0x20, 0]),
            steps: steps(&["f 10", "e ", "b 2000", "r "]),
        },
        Case {
            input: "16,385 zeros",
            rust: asked(16, &[], None, &long),
            steps: steps(&["f 10", &begin(&long)]),
        },
        Case {
            input: "encryption on, key 3, highest 2^48 - 1; 23 00 and 16 bytes, mask 0",
            rust: asked(16, &[3], Some(LAST_NUMBER), &short),
            steps: steps(&["f 10", "e ", KEY_3, &marked, &begin(&short), "r ", "m 0000"]),
        },
    ]
}

fn fifth_epoch() -> Case {
    let mut rust = engine();
    (3..7).for_each(|epoch| probe::key_receive(&mut rust, epoch, [0; 12]));
    let outcome = rust.update_recv_keys();
    let mut steps = steps(&["f 10"]);
    steps.extend((3..8).map(|epoch| format!("k {epoch:04x}000102030405060708090a0b")));
    Case {
        input: "keys 3, 4, 5, 6, then 7",
        rust: format!("{outcome:?}; keyed {:?}", probe::receive_epochs(&rust)),
        steps,
    }
}

fn keyed_again() -> Case {
    let mut rust = engine();
    let secret = Buf::new();
    let once = rust.install_application_keys(&secret, &secret);
    let again = rust.install_application_keys(&secret, &secret);
    let keyed = probe::receive_epochs(&rust);
    Case {
        input: "key 3, key 3",
        rust: format!("{once:?}, {again:?}; keyed {keyed:?}"),
        steps: steps(&["f 10", KEY_3, KEY_3]),
    }
}

fn released() -> Case {
    let mut rust = engine();
    probe::key_receive(&mut rust, 2, [0; 12]);
    rust.release_application_data();
    Case {
        input: "key 2, release; 22 00 and 16 bytes",
        rust: format!("keyed {:?}", probe::receive_epochs(&rust)),
        steps: steps(&["f 10", "e ", KEY_2, "l ", &begin(&sealed(2)), "r "]),
    }
}

fn fault() -> Case {
    let mut datagram = plaintext(21);
    datagram.push(21);
    let mut rust = engine();
    let outcome = rust.parse_packet(&datagram);
    let kept = rust.pending_records().count();
    Case {
        input: "an empty alert, then 15",
        rust: format!("{outcome:?}; {kept} readings kept"),
        steps: steps(&["f 10", &begin(&datagram), "r "]),
    }
}

/// The Rust stores an unopened record only behind a plaintext one.
fn stored() -> Case {
    let mut datagram = plaintext(22);
    datagram.extend_from_slice(&sealed(2));
    let mut rust = engine();
    probe::key_receive(&mut rust, 2, [0; 12]);
    let read = rust.parse_packet(&datagram);
    let before = script::take_asked().0.is_some();
    let on = rust.enable_peer_encryption();
    let after = script::take_asked().0.is_some();
    Case {
        input: "key 2; an empty handshake record, then 22 00 and 16 bytes; encryption on",
        rust: format!("{read:?}, mask asked {before}; then {on:?}, mask asked {after}"),
        steps: steps(&["f 10", KEY_2, &begin(&datagram), "r ", "r ", "e ", "r "]),
    }
}

/// What is answered to the last of the steps.
fn here(side: &dyn Answers, steps: &[String]) -> io::Result<String> {
    let lines: Vec<Line> = steps.iter().map(|step| Line::unanswered(step)).collect();
    let answers = side.answers(&lines)?;
    let last = answers.last().map_or(&[][..], |answer| answer);
    Ok(match last {
        [0, 4, reason, ..] => format!("dropped by {reason}"),
        [0, 1, ..] => "the end of the datagram".to_string(),
        [0, 8, ..] => "the mask is asked".to_string(),
        [0, ..] => "a reading".to_string(),
        [refusal, ..] => format!("refused by {refusal}"),
        [] => "no answer".to_string(),
    })
}

pub fn all(side: &dyn Answers) -> io::Result<Vec<Found>> {
    let mut cases = records();
    cases.extend([fifth_epoch(), keyed_again(), released(), fault(), stored()]);
    let found = cases.into_iter().map(|case| {
        Ok(Found {
            here: here(side, &case.steps)?,
            input: case.input.to_string(),
            rust: case.rust,
        })
    });
    found.collect()
}
