//! Runs random histories of receiving through the Rust and through the library, or the Rattle program
//! `readings`, and compares the answers.
//!
//! histories COUNT SEED [PROGRAM]

use std::io;
use std::ops::Range;
use std::process::ExitCode;

use dimpl::beside::{self, Answers, Batch};
use dimpl::dice::Dice;
use dimpl::histories::generate::random;
use dimpl::histories::{History, REASONS, Reasons, Run, Step, between, limits, reference};
use dimpl::requests::Left;
use dimpl::{driver, library};

fn fails(side: &dyn Answers, history: &History) -> io::Result<bool> {
    beside::fails(side, &reference::run(history).lines)
}

/// Takes the smaller history, if it differs too.
fn try_instead(side: &dyn Answers, current: &mut History, other: History) -> io::Result<bool> {
    let smaller = other != *current && fails(side, &other)?;
    if smaller {
        *current = other;
    }
    Ok(smaller)
}

/// The history with bytes of a datagram taken out, and the first of its replies.
fn without(history: &History, step: usize, taken: Range<usize>, first: usize) -> History {
    let mut other = history.clone();
    if let Step::Datagram { bytes, replies } = &mut other.steps[step] {
        let length = bytes.len();
        bytes.drain(taken.start.min(length)..taken.end.min(length));
        replies.drain(..first.min(replies.len()));
    }
    other
}

/// Takes whole records from the front of a datagram, with the replies to them; then from its end.
fn cut(side: &dyn Answers, history: &mut History, step: usize) -> io::Result<()> {
    let Step::Datagram { bytes, replies } = &history.steps[step] else {
        return Ok(());
    };
    let (length, asked) = (bytes.len().min(500), replies.len().min(3));
    let fronts = (0..=asked).flat_map(|n| (1..=length).rev().map(move |m| (0..m, n)));
    for (taken, replies) in fronts {
        let other = without(history, step, taken, replies);
        if try_instead(side, history, other)? {
            break;
        }
    }
    for end in 0..length {
        let other = without(history, step, end..usize::MAX, 0);
        if try_instead(side, history, other)? {
            break;
        }
    }
    Ok(())
}

/// Takes parts of a datagram out, long ones first.
fn thin(side: &dyn Answers, history: &mut History, step: usize) -> io::Result<()> {
    let mut size = 64;
    while size > 0 {
        let mut at = 0;
        while let Step::Datagram { bytes, .. } = &history.steps[step]
            && at + size <= bytes.len()
        {
            let other = without(history, step, at..at + size, 0);
            if !try_instead(side, history, other)? {
                at += size;
            }
        }
        size /= 2;
    }
    Ok(())
}

/// Takes the last replies about a datagram away.
fn forget_replies(side: &dyn Answers, history: &mut History, step: usize) -> io::Result<()> {
    loop {
        let mut other = history.clone();
        if let Step::Datagram { replies, .. } = &mut other.steps[step] {
            replies.pop();
        }
        if !try_instead(side, history, other)? {
            return Ok(());
        }
    }
}

/// Drops steps, then bytes of datagrams, for as long as the history differs.
fn shrink(side: &dyn Answers, mut history: History) -> io::Result<History> {
    loop {
        let before = history.clone();
        let mut other = history.clone();
        beside::drop_steps(&mut history.steps, |steps| {
            other.steps = steps.to_vec();
            fails(side, &other)
        })?;
        for i in 0..history.steps.len() {
            cut(side, &mut history, i)?;
            thin(side, &mut history, i)?;
            forget_replies(side, &mut history, i)?;
        }
        if history == before {
            return Ok(history);
        }
    }
}

#[derive(Default)]
struct Tally {
    steps: usize,
    kinds: [u64; 10],
    reasons: Reasons,
    refusals: [u64; 24],
    early: usize,
    left: Left,
}

impl Tally {
    fn count(&mut self, run: &Run) {
        self.steps += run.lines.len();
        self.left.count(&run.changes);
        self.early += between::at_questions(&run.lines);
        for line in &run.lines {
            self.refusals[line.refusal()] += 1;
        }
        self.sum(&run.kinds, &run.reasons, &[0; 24]);
    }

    fn sum(&mut self, kinds: &[u64], reasons: &[u64], refusals: &[u64]) {
        let sums = self.kinds.iter_mut().chain(&mut self.reasons);
        let sums = sums.chain(&mut self.refusals);
        let more = kinds.iter().chain(reasons).chain(refusals);
        sums.zip(more).for_each(|(sum, n)| *sum += n);
    }

    fn print(&self) {
        self.left.print();
        let names = [
            "end",
            "fault 2",
            "fault 3",
            "dropped",
            "plaintext",
            "unopened",
            "opened",
            "mask question",
            "opening question",
        ];
        for (name, n) in names.iter().zip(&self.kinds[1..]) {
            println!("  {name:<18} {n:>9}");
        }
        for reason in REASONS {
            let n = self.reasons[reason as usize];
            println!("  dropped by {reason:<7} {n:>9}");
        }
        println!(
            "  keyed, removed or released while a question waits {:>9}",
            self.early
        );
        for refusal in [1, 13, 15, 23] {
            println!("  refused by {refusal:<7} {:>9}", self.refusals[refusal]);
        }
    }
}

impl driver::Tally for Tally {
    fn add(&mut self, other: &Self) {
        self.steps += other.steps;
        self.early += other.early;
        self.left.add(&other.left);
        self.sum(&other.kinds, &other.reasons, &other.refusals);
    }
}

fn compare(side: &dyn Answers, count: u64, seed: u64) -> io::Result<bool> {
    let mut fixed = limits::all();
    fixed.extend(limits::longest());
    fixed.extend(limits::padded());
    fixed.extend(limits::late());
    let at_limits = fixed.len() as u64;
    let total = at_limits + count;
    // Each history has its own random numbers.
    let history = |i: u64| match fixed.get(i as usize) {
        Some(history) => history.clone(),
        None => random(&mut Dice::new(seed << 32 ^ (i - at_limits))),
    };
    let (differs, tally) = driver::many("receiving", total, |numbers, tally: &mut Tally| {
        let mut batch = Batch::default();
        for i in numbers {
            let run = reference::run(&history(i));
            tally.count(&run);
            if let Some(differs) = batch.add(side, i, run.lines)? {
                return Ok(Some(differs));
            }
        }
        batch.compare(side)
    })?;
    if let Some(i) = differs {
        let run = reference::run(&shrink(side, history(i))?);
        beside::report(side, "histories", &run.lines)?;
        run.changes.tell();
        return Ok(false);
    }
    let steps = tally.steps;
    println!(
        "{total} histories of receiving agree: {at_limits} at the limits, {count} random (SEED {seed}), {steps} steps"
    );
    tally.print();
    Ok(true)
}

fn main() -> ExitCode {
    let Some((count, seed, programs)) = driver::arguments(1) else {
        eprintln!("usage: histories COUNT SEED [PROGRAM]");
        return ExitCode::from(2);
    };
    let side = library::receiving(programs.first());
    driver::exit("histories", compare(&*side, count, seed))
}
