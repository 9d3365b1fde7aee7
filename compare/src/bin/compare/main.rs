//! Asks the Rust and the Rattle library the same inputs and compares the answers.
//!
//! compare COUNT SEED

use std::env;
use std::ops::Range;
use std::process::ExitCode;
use std::time::Instant;

use dimpl::SeededRng;
use dimpl::leaves::{LEAVES, Leaf, hex, named};
use dimpl::requests::{REQUESTS, Request};

mod rattle;

/// Random inputs are at most about as long as the longest datagram.
const MOST: usize = 16_500;

/// Both answers to one input.
#[derive(Default)]
struct Answers {
    /// The Rust's, or that of the request that changes it.
    expected: Vec<u8>,
    changed: Option<usize>,
    rattle: Vec<u8>,
}

struct Comparison<'a> {
    leaf: &'a Leaf,
    answers: Answers,
    count: u64,
    /// Inputs that left the equality with the Rust, by the request.
    left: [u64; REQUESTS.len()],
    failed: Option<Vec<u8>>,
}

impl Comparison<'_> {
    fn differ(&mut self, input: &[u8]) -> bool {
        let Answers {
            expected,
            changed,
            rattle,
        } = &mut self.answers;
        expected.clear();
        rattle.clear();
        *changed = self.leaf.expected(input, expected);
        rattle::answer(self.leaf.letter, input, rattle);
        expected != rattle
    }

    /// Compares one input, until one has failed.
    fn input(&mut self, input: &[u8]) {
        if self.failed.is_some() {
            return;
        }
        assert!(
            (self.leaf.domain)(input),
            "{} {}",
            self.leaf.letter,
            hex(input)
        );
        if self.differ(input) {
            self.failed = Some(input.to_vec());
        }
        match self.answers.changed {
            Some(request) => self.left[request] += 1,
            None => self.count += 1,
        }
    }

    /// Tries the input, and takes it over if it fails too.
    fn try_instead(&mut self, current: &mut Vec<u8>, input: Vec<u8>) -> bool {
        let fails = (self.leaf.domain)(&input) && self.differ(&input);
        if fails {
            *current = input;
        }
        fails
    }

    /// Takes the bytes in `range` out, if the input then fails too.
    fn take_out(&mut self, input: &mut Vec<u8>, range: Range<usize>) -> bool {
        let mut shorter = input.clone();
        shorter.drain(range);
        self.try_instead(input, shorter)
    }

    /// Takes parts out and makes bytes smaller for as long as the input fails.
    fn shrink(&mut self, mut input: Vec<u8>) -> Vec<u8> {
        loop {
            let before = input.clone();
            self.shorten(&mut input);
            for at in 0..input.len() {
                let value = input[at];
                for smaller in [0, 1, value / 2, value.saturating_sub(1)] {
                    if smaller < input[at] {
                        let mut other = input.clone();
                        other[at] = smaller;
                        if !self.try_instead(&mut input, other.clone()) && at + 1 < input.len() {
                            other[at + 1] = 255;
                            self.try_instead(&mut input, other);
                        }
                    }
                }
            }
            if input == before {
                return input;
            }
        }
    }

    fn shorten(&mut self, input: &mut Vec<u8>) {
        let unit = self.leaf.unit;
        if unit == 0 {
            return;
        }
        // The longest front and the longest end that can go.
        let parts = input.len() / unit;
        _ = (1..=parts).rev().any(|n| self.take_out(input, 0..n * unit));
        let parts = input.len() / unit;
        _ = (0..parts).any(|n| self.take_out(input, n * unit..input.len()));
        // Parts in the middle: any long one, then the short ones at every place.
        let mut size = input.len() / unit;
        while size > 0 {
            let stride = unit * if size > 20 { size / 2 } else { 1 };
            let mut at = 0;
            while at + size * unit <= input.len() {
                if !self.take_out(input, at..at + size * unit) {
                    at += stride;
                }
            }
            size = if size > 40 { size / 2 } else { size - 1 };
        }
    }

    fn report(&mut self, input: Vec<u8>) {
        let leaf = self.leaf;
        let input = self.shrink(input);
        self.differ(&input);
        let line = |label: &str, fields, bytes: &[u8]| {
            println!("  {label:<7} {} {}", leaf.letter, hex(bytes));
            for names in named(fields, bytes) {
                println!("          {names}");
            }
        };
        let request = self.answers.changed.map(|request| &REQUESTS[request]);
        let (what, label) = match request {
            Some(Request { number, .. }) => (format!("not as request {number} says"), "request"),
            None => ("the answers differ".to_string(), "Rust"),
        };
        println!("{} {}: {what}", leaf.letter, leaf.name);
        line("input", leaf.input, &input);
        line(label, leaf.answer, &self.answers.expected);
        line("Rattle", leaf.answer, &self.answers.rattle);
    }

    /// How many inputs were compared, and how many more left the equality with the Rust.
    fn counts(&self) -> String {
        let Leaf { letter, name, .. } = self.leaf;
        let mut line = format!("{letter} {name:<28} {:>10} inputs compared", self.count);
        for (request, left) in REQUESTS.iter().zip(self.left) {
            if left > 0 {
                let Request {
                    number, difference, ..
                } = request;
                line += &format!(
                    ", {left} more as request {number} says: difference {difference}"
                );
            }
        }
        line
    }
}

/// A leaf asked all its short inputs, those at its limits and random ones.
fn ask(leaf: &Leaf, count: u64, seed: u64) -> Comparison<'_> {
    eprintln!("leaves: {} {}", leaf.letter, leaf.name);
    let mut comparison = Comparison {
        leaf,
        answers: Answers::default(),
        count: 0,
        left: Default::default(),
        failed: None,
    };
    (leaf.short)(&mut |input| comparison.input(input));
    (leaf.limits)(&mut |input| comparison.input(input));
    // Each leaf has its own random numbers, so that one leaf's do not move another's.
    let mut rng = SeededRng::new(Some(seed ^ (leaf.letter as u64) << 56));
    for _ in 0..count {
        if comparison.failed.is_some() {
            break;
        }
        comparison.input(&(leaf.random)(&mut rng, MOST));
    }
    comparison
}

fn main() -> ExitCode {
    let args: Vec<String> = env::args().skip(1).collect();
    let numbers: Vec<u64> = args.iter().filter_map(|arg| arg.parse().ok()).collect();
    let ([count, seed], 2) = (numbers[..].try_into().unwrap_or([0, 0]), args.len()) else {
        eprintln!("usage: compare COUNT SEED");
        return ExitCode::from(2);
    };

    let begun = Instant::now();
    let mut lines = Vec::new();
    let mut failures = 0;
    for leaf in LEAVES {
        let mut comparison = ask(leaf, count, seed);
        if let Some(input) = comparison.failed.take() {
            comparison.report(input);
            failures += 1;
        }
        lines.push(comparison.counts());
    }
    eprintln!("leaves: all asked, {} s", begun.elapsed().as_secs());

    for line in lines {
        println!("{line}");
    }
    let leaves = LEAVES.len();
    if failures > 0 {
        println!("{failures} of {leaves} leaves differ (COUNT {count}, SEED {seed})");
        return ExitCode::FAILURE;
    }
    println!("all {leaves} leaves agree (COUNT {count}, SEED {seed})");
    ExitCode::SUCCESS
}
