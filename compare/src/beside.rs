//! Asks the Rattle the steps of histories, and compares its answers with those expected.

use std::io::{self, Write};
use std::process::{Command, Stdio};

use crate::leaves::hex;

/// A script is at most this long as text; a program reads 65,536 bytes.
pub const MOST: usize = 60_000;

/// One step of a script, and its answer. As text each is the letter, a space and the bytes in lowercase hexadecimal.
#[derive(Debug, Clone, PartialEq, Eq)]
pub struct Line {
    pub letter: char,
    pub asked: Vec<u8>,
    pub answered: Vec<u8>,
}

impl Line {
    /// A step given as text.
    pub fn unanswered(step: &str) -> Self {
        let letter = step.chars().next().expect("a step has a letter");
        Self {
            letter,
            asked: bytes(step, letter),
            answered: Vec::new(),
        }
    }

    pub fn step(&self) -> String {
        format!("{} {}", self.letter, hex(&self.asked))
    }

    pub fn answer(&self) -> String {
        format!("{} {}", self.letter, hex(&self.answered))
    }

    /// How long the step is as text, with its newline.
    pub fn length(&self) -> usize {
        3 + 2 * self.asked.len()
    }

    /// 01's number of a refusal, or 0: the first byte of every answer.
    pub fn refusal(&self) -> usize {
        self.answered[0] as usize
    }
}

pub fn script(lines: &[Line]) -> String {
    lines.iter().map(|line| line.step() + "\n").collect()
}

/// How long a script is as text.
pub fn length(lines: &[Line]) -> usize {
    lines.iter().map(Line::length).sum()
}

/// Who answers the steps of a script: the library in this process, or a program.
pub trait Answers: Sync {
    /// What is answered to each step, nothing where there is no answer. The steps begin with a fresh state.
    fn answers(&self, lines: &[Line]) -> io::Result<Vec<Vec<u8>>>;
}

/// A Rattle program that reads a script and writes an answer a line.
pub struct Program(pub String);

impl Answers for Program {
    fn answers(&self, lines: &[Line]) -> io::Result<Vec<Vec<u8>>> {
        let Self(program) = self;
        let mut child = Command::new(program)
            .stdin(Stdio::piped())
            .stdout(Stdio::piped())
            .spawn()
            .map_err(|error| io::Error::other(format!("{program}: {error}")))?;
        // The program reads to the end before it writes.
        let mut stdin = child.stdin.take().unwrap();
        stdin.write_all(script(lines).as_bytes())?;
        drop(stdin);
        let output = child.wait_with_output()?;
        if !output.status.success() {
            return Err(io::Error::other(format!("{program}: {}", output.status)));
        }
        let text = String::from_utf8_lossy(&output.stdout);
        let said = text.lines().zip(lines);
        Ok(said.map(|(text, line)| bytes(text, line.letter)).collect())
    }
}

/// The bytes of a line with this letter, nothing if it has another form.
fn bytes(text: &str, letter: char) -> Vec<u8> {
    let digits = text
        .strip_prefix(letter)
        .and_then(|rest| rest.strip_prefix(' '));
    let digits = digits.unwrap_or_default().as_bytes();
    let pairs = digits.chunks(2).map(|pair| {
        let pair = std::str::from_utf8(pair).ok()?;
        u8::from_str_radix(pair, 16).ok()
    });
    pairs.collect::<Option<Vec<u8>>>().unwrap_or_default()
}

/// The first step that is answered differently, and how.
pub fn differs(side: &dyn Answers, lines: &[Line]) -> io::Result<Option<(usize, Vec<u8>)>> {
    let mut found = side.answers(lines)?.into_iter();
    for (i, line) in lines.iter().enumerate() {
        let answer = found.next().unwrap_or_default();
        if answer != line.answered {
            return Ok(Some((i, answer)));
        }
    }
    Ok(None)
}

/// Whether a history, if it is not too long, is answered differently.
pub fn fails(side: &dyn Answers, lines: &[Line]) -> io::Result<bool> {
    Ok(length(lines) <= MOST && differs(side, lines)?.is_some())
}

/// Drops steps for as long as the history fails.
pub fn drop_steps<S: Clone>(
    steps: &mut Vec<S>,
    mut fails: impl FnMut(&[S]) -> io::Result<bool>,
) -> io::Result<()> {
    let mut size = steps.len();
    while size > 0 {
        let mut at = 0;
        while at + size <= steps.len() {
            let mut other = steps.clone();
            other.drain(at..at + size);
            if fails(&other)? {
                *steps = other;
            } else {
                at += 1;
            }
        }
        size /= 2;
    }
    Ok(())
}

/// Prints a history up to the step that is answered differently.
pub fn report(side: &dyn Answers, what: &str, lines: &[Line]) -> io::Result<()> {
    println!("{what}: the answers differ");
    let (at, found) = differs(side, lines)?.unwrap();
    for line in &lines[..=at] {
        println!("  step    {}", line.step());
        println!("  Rust    {}", line.answer());
    }
    println!("  Rattle  {} {}", lines[at].letter, hex(&found));
    Ok(())
}

/// Histories, known by their numbers, whose scripts fit in one run of a program.
#[derive(Default)]
pub struct Batch {
    lines: Vec<Line>,
    length: usize,
    /// The history of each line.
    owner: Vec<u64>,
}

impl Batch {
    /// Adds a history; if there is no room, compares those before it.
    pub fn add(
        &mut self,
        side: &dyn Answers,
        history: u64,
        lines: Vec<Line>,
    ) -> io::Result<Option<u64>> {
        let length = length(&lines);
        assert!(length <= MOST, "a history of {length} bytes");
        let mut failed = None;
        if self.length + length > MOST {
            failed = self.compare(side)?;
        }
        self.length += length;
        self.owner.extend(lines.iter().map(|_| history));
        self.lines.extend(lines);
        Ok(failed)
    }

    /// The first history that is answered differently; then there are none.
    pub fn compare(&mut self, side: &dyn Answers) -> io::Result<Option<u64>> {
        let batch = std::mem::take(self);
        let differs = differs(side, &batch.lines)?;
        Ok(differs.map(|(line, _)| batch.owner[line]))
    }
}
