//! Runs random histories in which each reading is dealt with through the Rust's `classify_record` and through the library, and
//! compares the answers.
//!
//! classes COUNT SEED

use std::io;
use std::process::ExitCode;

use dimpl::beside::{self, Answers, Batch};
use dimpl::classes::generate::random;
use dimpl::classes::{History, Met, Run, Step, limits, reference};
use dimpl::dice::Dice;
use dimpl::requests::Left;
use dimpl::{driver, library};

fn fails(side: &dyn Answers, history: &History) -> io::Result<bool> {
    beside::fails(side, &reference::run(history).lines)
}

/// Takes the smaller history, if it differs too.
fn try_instead(side: &dyn Answers, current: &mut History, other: History) -> io::Result<()> {
    if other != *current && fails(side, &other)? {
        *current = other;
    }
    Ok(())
}

/// Takes records out of a datagram, and the calls between.
fn thin(side: &dyn Answers, history: &mut History, step: usize) -> io::Result<()> {
    let Step::Datagram { parts, .. } = &history.steps[step] else {
        return Ok(());
    };
    for i in (0..parts.len()).rev() {
        let mut other = history.clone();
        if let Step::Datagram { parts, .. } = &mut other.steps[step] {
            parts.remove(i);
        }
        try_instead(side, history, other)?;
    }
    let mut other = history.clone();
    if let Step::Datagram { between, .. } = &mut other.steps[step] {
        *between = 0;
    }
    try_instead(side, history, other)
}

/// Drops steps, then records of datagrams, for as long as the history differs.
fn shrink(side: &dyn Answers, mut history: History) -> io::Result<History> {
    loop {
        let before = history.clone();
        let mut other = history.clone();
        beside::drop_steps(&mut history.steps, |steps| {
            other.steps = steps.to_vec();
            fails(side, &other)
        })?;
        for i in 0..history.steps.len() {
            thin(side, &mut history, i)?;
        }
        if history == before {
            return Ok(history);
        }
    }
}

#[derive(Default)]
struct Tally {
    steps: usize,
    met: Met,
    left: Left,
}

impl Tally {
    fn count(&mut self, run: &Run) {
        self.steps += run.lines.len();
        self.met.add(&run.met);
        self.left.count(&run.changes);
    }

    fn print(&self) {
        self.left.print();
        let met = &self.met;
        let names = [
            "nothing waits",
            "beyond the close",
            "unprotected",
            "ignored",
            "ACK acted on",
            "first close",
            "alert told",
            "handshake",
            "application data",
            "other type",
            "unopened",
        ];
        for (name, n) in names.iter().zip(&met.kinds[1..]) {
            println!("  {name:<25} {n:>9}");
        }
        let numbers = [
            ("plaintext, encryption off", met.plaintext[0]),
            ("plaintext, encryption on", met.plaintext[1]),
            ("sealed, unopened", met.unopened),
            ("sealed, opened", met.opened),
            ("readings passed over", met.passed),
            ("refused by 15", met.refused),
            ("records marked", met.marked),
            ("ACKs that mark nothing", met.idle),
            ("flights emptied", met.emptied),
            ("bytes behind an alert", met.ended),
        ];
        for (name, n) in numbers {
            println!("  {name:<25} {n:>9}");
        }
    }
}

impl driver::Tally for Tally {
    fn add(&mut self, other: &Self) {
        self.steps += other.steps;
        self.met.add(&other.met);
        self.left.add(&other.left);
    }
}

fn compare(side: &dyn Answers, count: u64, seed: u64) -> io::Result<bool> {
    let fixed = limits::all();
    let at_limits = fixed.len() as u64;
    let total = at_limits + count;
    // Each history has its own random numbers.
    let history = |i: u64| match fixed.get(i as usize) {
        Some(history) => history.clone(),
        None => random(&mut Dice::new(seed << 32 ^ (i - at_limits))),
    };
    let (differs, tally) = driver::many("readings", total, |numbers, tally: &mut Tally| {
        let mut batch = Batch::default();
        for i in numbers {
            let run = reference::run(&history(i));
            tally.count(&run);
            if let Some(differs) = batch.add(side, i, run.lines)? {
                return Ok(Some(differs));
            }
        }
        batch.compare(side)
    })?;
    if let Some(i) = differs {
        let run = reference::run(&shrink(side, history(i))?);
        beside::report(side, "classes", &run.lines)?;
        run.changes.tell();
        return Ok(false);
    }
    let steps = tally.steps;
    println!(
        "{total} histories of readings dealt with agree: {at_limits} at the limits, {count} random (SEED {seed}), {steps} steps"
    );
    tally.print();
    Ok(true)
}

fn main() -> ExitCode {
    let Some((count, seed, _)) = driver::arguments(0) else {
        eprintln!("usage: classes COUNT SEED");
        return ExitCode::from(2);
    };
    driver::exit("classes", compare(&*library::classes(), count, seed))
}
