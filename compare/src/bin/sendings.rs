//! Runs random histories of sending through the Rust and through the library, or the Rattle program
//! `sendings`, and compares the answers.
//!
//! sendings COUNT SEED [PROGRAM]

use std::collections::BTreeMap;
use std::process::ExitCode;
use std::{io, panic};

use dimpl::beside::{self, Answers, Batch};
use dimpl::dice::Dice;
use dimpl::differences::sending::{named, shrink};
use dimpl::sendings::generate::random;
use dimpl::sendings::{self, History, limits, reference};
use dimpl::{driver, library};

fn fails(side: &dyn Answers, history: &History) -> io::Result<bool> {
    beside::fails(side, &reference::run(history).lines)
}

#[derive(Default)]
struct Tally {
    steps: usize,
    sent: sendings::Tally,
    /// The first refused call of each history, by its refusal and what the Rust does there.
    met: BTreeMap<(u8, String), u64>,
}

impl Tally {
    /// What the Rust does where 01 refuses: it must not go on by 17, 18, 19, 20 and 22.
    fn refused(&mut self, history: &History) {
        if let Some((refusal, outcome)) = reference::first_refused(history) {
            let stops = outcome != "done";
            assert!(
                stops || matches!(refusal, 13 | 14 | 21),
                "the Rust does not refuse by {refusal}: {history:?}"
            );
            *self.met.entry((refusal, named(&outcome))).or_default() += 1;
        }
    }

    fn print(&self) {
        let sent = &self.sent;
        let numbers = [
            ("records", sent.records),
            ("messages", sent.messages),
            ("pieces", sent.pieces),
            ("saved records", sent.saved),
            ("resends", sent.resends),
            ("records resent", sent.resent),
            ("ACKs acted on", sent.acks),
            ("records marked", sent.marked),
            ("records noted", sent.noted),
            ("ACKs sent", sent.acks_sent),
            ("sealings", sent.sealings),
            ("datagrams taken", sent.datagrams),
        ];
        for (name, n) in numbers {
            println!("  {name:<18} {n:>9}");
        }
        for (refusal, n) in sent.refusals.iter().enumerate().skip(12) {
            if *n > 0 {
                println!("  refused by {refusal:<7} {n:>9}");
            }
        }
        println!("  at the first call that 01 refuses the Rust, asked all the same:");
        for ((refusal, outcome), n) in &self.met {
            println!("  {refusal} {outcome:<15} {n:>9}");
        }
    }
}

impl driver::Tally for Tally {
    fn add(&mut self, other: &Self) {
        self.steps += other.steps;
        self.sent.add(&other.sent);
        for (kind, n) in &other.met {
            *self.met.entry(kind.clone()).or_default() += n;
        }
    }
}

fn compare(side: &dyn Answers, count: u64, seed: u64) -> io::Result<bool> {
    let mut fixed = limits::all();
    fixed.extend(limits::longest());
    let at_limits = fixed.len() as u64;
    let total = at_limits + count;
    // Each history has its own random numbers.
    let history = |i: u64| match fixed.get(i as usize) {
        Some(history) => history.clone(),
        None => random(&mut Dice::new(seed << 32 ^ (i - at_limits))),
    };
    let (differs, tally) = driver::many("sending", total, |numbers, tally: &mut Tally| {
        let mut batch = Batch::default();
        for i in numbers {
            let history = history(i);
            let run = reference::run(&history);
            tally.steps += run.lines.len();
            tally.sent.add(&run.tally);
            tally.refused(&history);
            if let Some(differs) = batch.add(side, i, run.lines)? {
                return Ok(Some(differs));
            }
        }
        batch.compare(side)
    })?;
    if let Some(i) = differs {
        let history = shrink(history(i), |other| fails(side, other))?;
        beside::report(side, "sendings", &reference::run(&history).lines)?;
        return Ok(false);
    }
    let steps = tally.steps;
    println!(
        "{total} histories of sending agree: {at_limits} at the limits, {count} random (SEED {seed}), {steps} steps"
    );
    tally.print();
    Ok(true)
}

fn main() -> ExitCode {
    let Some((count, seed, programs)) = driver::arguments(1) else {
        eprintln!("usage: sendings COUNT SEED [PROGRAM]");
        return ExitCode::from(2);
    };
    // The Rust's panics are answers.
    let hook = panic::take_hook();
    panic::set_hook(Box::new(move |info| {
        let place = info.location().map_or("", |place| place.file());
        if place.starts_with("src/") && !place.contains("target/") {
            hook(info);
        }
    }));
    let side = library::sending(programs.first());
    driver::exit("sendings", compare(&*side, count, seed))
}
