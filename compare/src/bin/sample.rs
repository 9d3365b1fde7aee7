//! Writes fixed lists, and the Rust's answers to them, as text: the inputs of the leaves, and
//! histories of receiving and of sending. Where a request changes the Rust's answers, they are the request's; which lines
//! these are is printed.
//!
//! sample LEAVES_FOLDER RECEIVING_FOLDER SENDING_FOLDER

use std::collections::HashSet;
use std::error::Error;
use std::path::Path;
use std::{env, fs};

use dimpl::SeededRng;
use dimpl::beside::{self, Line};
use dimpl::dice::Dice;
use dimpl::leaves::{LEAVES, Leaf, hex};
use dimpl::requests::Changes;
use dimpl::{histories, sendings};

const SEED: u64 = 1;
/// Cases of a leaf, if its limits are fewer; and random ones at least.
const CASES: usize = 66;
const RANDOM: usize = 12;
/// Bytes of a random input at most.
const MOST: usize = 100;

/// Histories at the limits, then random ones up to about so many bytes of script.
const RECEIVING: usize = 42_000;
const SENDING: usize = 27_000;

fn main() -> Result<(), Box<dyn Error>> {
    let folders: Vec<String> = env::args().skip(1).collect();
    let [leaves, receiving, sending] = &folders[..] else {
        return Err("usage: sample LEAVES_FOLDER RECEIVING_FOLDER SENDING_FOLDER".into());
    };
    write_leaves(Path::new(leaves))?;
    let dice = || (0..).map(|i| Dice::new(SEED << 32 ^ i));
    let random = dice().map(|mut dice| histories::generate::random(&mut dice));
    let runs = histories::limits::all()
        .into_iter()
        .chain(random)
        .map(|history| histories::reference::run(&history))
        .map(|run| (run.lines, run.changes != Changes::default()));
    write_histories(Path::new(receiving), RECEIVING, runs)?;
    let random = dice().map(|mut dice| sendings::generate::random(&mut dice));
    let runs = sendings::limits::all()
        .into_iter()
        .chain(random)
        .map(|history| (sendings::reference::run(&history).lines, false));
    write_histories(Path::new(sending), SENDING, runs)
}

/// A list with its answers, and which of its lines left the equality with the Rust.
#[derive(Default)]
struct List {
    stdin: String,
    stdout: String,
    lines: usize,
    cases: usize,
    left: usize,
    /// The first and the last of lines one behind the other.
    left_lines: Vec<(usize, usize)>,
}

impl List {
    /// Adds an input or a history: steps and answers, line by line.
    fn add(&mut self, lines: &[(String, String)], left: bool) {
        let first = self.lines + 1;
        for (step, answer) in lines {
            self.stdin += &format!("{step}\n");
            self.stdout += &format!("{answer}\n");
        }
        self.lines += lines.len();
        self.cases += 1;
        if !left {
            return;
        }
        self.left += 1;
        match self.left_lines.last_mut() {
            Some((_, last)) if *last + 1 == first => *last = self.lines,
            _ => self.left_lines.push((first, self.lines)),
        }
    }

    fn write(&self, folder: &Path) -> Result<(), Box<dyn Error>> {
        fs::write(folder.join("stdin"), &self.stdin)?;
        fs::write(folder.join("stdout"), &self.stdout)?;
        let name = folder.file_name().unwrap_or_default().display();
        let Self {
            lines, cases, left, ..
        } = self;
        println!("{name}: {cases} in {lines} lines; {left} left the equality with the Rust");
        let ranges = self
            .left_lines
            .iter()
            .map(|(first, last)| match first == last {
                true => format!("{first}"),
                false => format!("{first} to {last}"),
            });
        let ranges: Vec<String> = ranges.collect();
        if !ranges.is_empty() {
            println!("  lines {}", ranges.join(", "));
        }
        Ok(())
    }
}

/// Each history with whether it left the equality with the Rust.
fn write_histories(
    folder: &Path,
    most: usize,
    runs: impl Iterator<Item = (Vec<Line>, bool)>,
) -> Result<(), Box<dyn Error>> {
    let mut list = List::default();
    for (lines, left) in runs {
        if list.stdin.len() + beside::length(&lines) > most {
            break;
        }
        let lines: Vec<_> = lines
            .iter()
            .map(|line| (line.step(), line.answer()))
            .collect();
        list.add(&lines, left);
    }
    list.write(folder)
}

/// Inputs at the limits, then random ones.
fn inputs(leaf: &Leaf) -> Vec<Vec<u8>> {
    let mut inputs = Vec::new();
    let mut seen = HashSet::new();
    let mut add = |input: &[u8], inputs: &mut Vec<Vec<u8>>| {
        if seen.insert(input.to_vec()) {
            inputs.push(input.to_vec());
        }
    };
    (leaf.limits)(&mut |input| add(input, &mut inputs));
    let cases = CASES.max(inputs.len() + RANDOM);
    let mut rng = SeededRng::new(Some(SEED ^ (leaf.letter as u64) << 56));
    while inputs.len() < cases {
        let input = (leaf.random)(&mut rng, MOST);
        if input.len() <= MOST {
            add(&input, &mut inputs);
        }
    }
    inputs
}

fn write_leaves(folder: &Path) -> Result<(), Box<dyn Error>> {
    let mut list = List::default();
    // Several records are several inputs of the leaf `p`.
    for leaf in LEAVES.iter().filter(|leaf| leaf.letter != 'd') {
        for input in inputs(leaf) {
            assert!((leaf.domain)(&input));
            let mut answer = Vec::new();
            let left = leaf.expected(&input, &mut answer).is_some();
            let line = |bytes: &[u8]| format!("{} {}", leaf.letter, hex(bytes));
            list.add(&[(line(&input), line(&answer))], left);
        }
    }
    list.write(folder)
}
