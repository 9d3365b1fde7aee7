//! Every kind of record before, at and beyond a close and without one, with contents at every limit.

use super::*;
use crate::sendings::{Bytes, Step as Call};

/// Where the close lies.
const CLOSE_NUMBER: u64 = 5;

fn pair(epoch: u8) -> Vec<u8> {
    let mut bytes = vec![0, 16];
    bytes.extend_from_slice(&[0, 0, 0, 0, 0, 0, 0, epoch]);
    bytes.extend_from_slice(&[0; 8]);
    bytes
}

/// Contents of alerts and ACKs at their limits, which other types have too.
fn contents() -> Vec<Vec<u8>> {
    let mut contents: Vec<Vec<u8>> = [
        &[][..],
        &[0],
        &[90],
        &[0, 0],
        &[2, 0],
        &[1, 90],
        &[2, 1],
        &[2, 89],
        &[2, 91],
        &[2, 255],
        &[1, 0, 7],
        &[1, 90, 0],
        &[1, 40, 0],
        &[0, 16],
    ]
    .iter()
    .map(|bytes| bytes.to_vec())
    .collect();
    contents.extend([0, 2, 3].map(pair));
    // A byte too few, and one too many.
    contents.push(pair(2)[..17].to_vec());
    contents.push([pair(2), vec![0]].concat());
    contents
}

/// A handshake record saved in epochs 0 and 2, data in 3; epochs 2 and 3 keyed.
fn begin() -> Vec<Step> {
    let iv = [7; 12];
    let mut steps = Vec::new();
    for epoch in [2, 3] {
        steps.push(Step::Send(Call::Key { epoch, iv }));
        steps.push(Step::Receive(histories::Step::Key { epoch, iv }));
    }
    for (epoch, content_type) in [(0, HANDSHAKE), (2, HANDSHAKE), (3, APPLICATION_DATA)] {
        let content = Bytes {
            length: 1,
            pattern: vec![1],
        };
        steps.push(Step::Send(Call::Send {
            epoch,
            content_type,
            save: true,
            content,
        }));
    }
    steps
}

fn part(epoch: u16, number: u64, content: &Content) -> Part {
    match epoch {
        0 => Part::plaintext(number, content),
        _ => Part::sealed(epoch, true, number, content),
    }
}

fn datagram(parts: Vec<Part>) -> Step {
    Step::Datagram { parts, between: 0 }
}

/// A close in an epoch, then a record at a number in another, with peer encryption before the close, before the record or not on.
fn one(close: Option<u16>, on: [bool; 2], epoch: u16, number: u64, content: &Content) -> History {
    let mut steps = begin();
    let close_notify = Content {
        content_type: ALERT,
        bytes: vec![1, 0],
    };
    let encrypt = Step::Receive(histories::Step::Encrypt);
    if on[0] {
        steps.push(encrypt.clone());
    }
    if let Some(epoch) = close {
        steps.push(datagram(vec![part(epoch, CLOSE_NUMBER, &close_notify)]));
    }
    if on[1] {
        steps.push(encrypt);
    }
    // What comes behind it tells whether it ended the datagram.
    let data = Content {
        content_type: HANDSHAKE,
        bytes: Vec::new(),
    };
    steps.push(datagram(vec![
        part(epoch, number, content),
        part(epoch, number + 1, &data),
    ]));
    History {
        settings: Settings::new(576, 4),
        min_protected: 17,
        steps,
    }
}

pub fn all() -> Vec<History> {
    let mut all = Vec::new();
    let types = [
        CHANGE_CIPHER_SPEC,
        ALERT,
        HANDSHAKE,
        APPLICATION_DATA,
        ACK,
        99,
    ];
    for content_type in types {
        for bytes in contents() {
            let content = Content {
                content_type,
                bytes,
            };
            for epoch in [0, 2, 3] {
                for close in [None, Some(0), Some(2), Some(3)] {
                    for on in [[false, false], [false, true], [true, true]] {
                        let numbers = CLOSE_NUMBER - 1..=CLOSE_NUMBER + 1;
                        all.extend(numbers.map(|n| one(close, on, epoch, n, &content)));
                    }
                }
            }
        }
    }
    all
}
