//! Difference 5: the smallest bits in a fresh epoch from which the Rust and ours rebuild different numbers.

use std::io;

use super::Found;
use crate::beside::{Answers, Line};
use crate::dtls13::engine::probe;
use crate::histories::OPENING;

/// So many inputs are asked at once: their steps fit in one script.
const MANY: usize = 256;

/// The steps up to the opening question about the first record of a fresh epoch. The mask is 0.
fn steps(bits: u32, partial: u64) -> [Line; 6] {
    let flags = if bits == 16 { 0x2B } else { 0x23 };
    let width = bits as usize / 4;
    let zeros = "00".repeat(16);
    [
        "f 10".to_string(),
        "e ".to_string(),
        "k 0003000102030405060708090a0b".to_string(),
        format!("b {flags:02x}{partial:0width$x}{zeros}"),
        "r ".to_string(),
        "m 0000".to_string(),
    ]
    .map(|step| Line::unanswered(&step))
}

/// The number in the last answer about each, if it is an opening question.
fn numbers(side: &dyn Answers, bits: u32, partials: &[u64]) -> io::Result<Vec<Option<u64>>> {
    let lines: Vec<Line> = partials.iter().flat_map(|n| steps(bits, *n)).collect();
    let answers = side.answers(&lines)?;
    let number = |answer: &Vec<u8>| match answer[..] {
        [0, OPENING, 0, _, _, ref rest @ ..] => rest.first_chunk().map(|n| u64::from_be_bytes(*n)),
        _ => None,
    };
    Ok(answers
        .chunks(6)
        .map(|answers| answers.last().and_then(number))
        .collect())
}

fn smallest(side: &dyn Answers, bits: u32) -> io::Result<Option<Found>> {
    let all: Vec<u64> = (0..1 << bits).collect();
    for partials in all.chunks(MANY) {
        let here = numbers(side, bits, partials)?;
        for (partial, here) in partials.iter().zip(here) {
            let rust = probe::reconstruct_sequence(*partial, 0, bits);
            if here != Some(rust) {
                return Ok(Some(Found {
                    input: format!("{bits} bits, e 0, bits {partial}"),
                    rust: rust.to_string(),
                    here: here.map_or("no opening question".to_string(), |n| n.to_string()),
                }));
            }
        }
    }
    Ok(None)
}

/// For 16 bits and for 8.
pub fn all(side: &dyn Answers) -> io::Result<Vec<Found>> {
    let found = [16, 8].map(|bits| smallest(side, bits));
    let found: io::Result<Vec<Option<Found>>> = found.into_iter().collect();
    Ok(found?.into_iter().flatten().collect())
}
