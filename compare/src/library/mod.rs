//! The library that hosts link, asked in this process through its C functions: the steps and answers of the Rattle
//! programs `readings` and `sendings` (compare/README.md), over the words and the memory that a host keeps.

mod classes;
mod receiving;
mod sending;

use std::io;

use crate::beside::{Answers, Line, Program};

/// Who answers histories of receiving: the program, if one is named.
pub fn receiving(program: Option<&String>) -> Box<dyn Answers> {
    match program {
        Some(program) => Box::new(Program(program.clone())),
        None => Box::new(Receiving),
    }
}

/// Who answers histories of sending: the program, if one is named.
pub fn sending(program: Option<&String>) -> Box<dyn Answers> {
    match program {
        Some(program) => Box::new(Program(program.clone())),
        None => Box::new(Sending),
    }
}

/// Who answers histories in which readings are dealt with.
pub fn classes() -> Box<dyn Answers> {
    Box::new(Classes)
}

struct Classes;

impl Answers for Classes {
    fn answers(&self, lines: &[Line]) -> io::Result<Vec<Vec<u8>>> {
        let mut host = classes::Host::new();
        let answers = lines.iter().map(|line| host.step(line.letter, &line.asked));
        Ok(answers.collect())
    }
}

struct Receiving;

impl Answers for Receiving {
    fn answers(&self, lines: &[Line]) -> io::Result<Vec<Vec<u8>>> {
        let mut host = receiving::Host::new();
        let answers = lines.iter().map(|line| host.step(line.letter, &line.asked));
        Ok(answers.map(|answer| answer.bytes()).collect())
    }
}

struct Sending;

impl Answers for Sending {
    fn answers(&self, lines: &[Line]) -> io::Result<Vec<Vec<u8>>> {
        let mut host = sending::Host::new();
        let answers = lines.iter().map(|line| host.step(line.letter, &line.asked));
        Ok(answers.map(|answer| answer.bytes()).collect())
    }
}

/// The kind of an answer where a call that does the work of two, or the same in place, does not do what they do, or tells
/// something else than the words have.
const OTHERWISE: u8 = 255;

/// The bytes of a step, read from the front.
struct Input<'a>(&'a [u8]);

impl<'a> Input<'a> {
    fn take<const N: usize>(&mut self) -> [u8; N] {
        let (front, rest) = self.0.split_first_chunk().expect("a step has its bytes");
        self.0 = rest;
        *front
    }

    fn u8(&mut self) -> u8 {
        u8::from_be_bytes(self.take())
    }

    fn u16(&mut self) -> u16 {
        u16::from_be_bytes(self.take())
    }

    fn u64(&mut self) -> u64 {
        u64::from_be_bytes(self.take())
    }

    /// A length, then a pattern repeated up to it.
    fn content(&mut self) -> Vec<u8> {
        let length = self.u16() as usize;
        crate::crypto::script::repeated(self.0, length)
    }
}

/// A part of a buffer, as far as it is in it: a place that the library tells wrongly must differ, not stop the run.
fn part(buffer: &[u8], start: usize, length: usize) -> &[u8] {
    let start = start.min(buffer.len());
    &buffer[start..start.saturating_add(length).min(buffer.len())]
}
