//! Runs random histories of two ends through the Rust and through the library, or the Rattle programs
//! `sendings` and `readings`, and compares the answers.
//!
//! ends COUNT SEED [SENDINGS READINGS]

use std::io;
use std::process::ExitCode;

use dimpl::beside::{self, Answers, Batch, Line};
use dimpl::dice::Dice;
use dimpl::ends::generate::random;
use dimpl::ends::{self, History, Met, Run, Step};
use dimpl::histories::REASONS;
use dimpl::requests::Left;
use dimpl::{driver, library, sendings};

struct Sides {
    sending: Box<dyn Answers>,
    receiving: Box<dyn Answers>,
}

impl Sides {
    /// The scripts of a run, each with who answers it and its name.
    fn scripts<'a>(&'a self, run: &'a Run) -> [(&'a dyn Answers, &'static str, &'a [Line]); 4] {
        let (sending, receiving) = (&*self.sending, &*self.receiving);
        [
            (sending, "end 0, sending", &run.sending[0]),
            (receiving, "end 0, receiving", &run.receiving[0]),
            (sending, "end 1, sending", &run.sending[1]),
            (receiving, "end 1, receiving", &run.receiving[1]),
        ]
    }

    fn fails(&self, history: &History) -> io::Result<bool> {
        for (side, _, lines) in self.scripts(&ends::run(history)) {
            if beside::fails(side, lines)? {
                return Ok(true);
            }
        }
        Ok(false)
    }

    /// Drops steps and shortens contents for as long as the history fails.
    fn shrink(&self, mut history: History) -> io::Result<History> {
        loop {
            let before = history.clone();
            let mut other = history.clone();
            beside::drop_steps(&mut history.steps, |steps| {
                other.steps = steps.to_vec();
                self.fails(&other)
            })?;
            for i in 0..history.steps.len() {
                for length in [0, 1, 20, 100, 500] {
                    let mut other = history.clone();
                    if let Some(bytes) = content(&mut other.steps[i].1) {
                        bytes.length = bytes.length.min(length);
                        bytes.pattern.truncate(1);
                    }
                    if other == history {
                        continue;
                    }
                    if self.fails(&other)? {
                        history = other;
                        break;
                    }
                }
            }
            if history == before {
                return Ok(history);
            }
        }
    }

    fn report(&self, history: &History) -> io::Result<()> {
        println!("ends: the answers differ after these steps, each with its end");
        println!("  {:?}", history.settings);
        for (end, step) in &history.steps {
            println!("  {end} {step:?}");
        }
        let run = ends::run(history);
        for (side, name, lines) in self.scripts(&run) {
            if beside::fails(side, lines)? {
                beside::report(side, name, lines)?;
                run.met.changes.tell();
                return Ok(());
            }
        }
        Ok(())
    }
}

fn content(step: &mut Step) -> Option<&mut sendings::Bytes> {
    match step {
        Step::Send(sendings::Step::Send { content, .. }) => Some(content),
        Step::Send(sendings::Step::Message { body, .. }) => Some(body),
        _ => None,
    }
}

#[derive(Default)]
struct Tally {
    steps: usize,
    lines: usize,
    met: Met,
    left: Left,
}

impl driver::Tally for Tally {
    fn add(&mut self, other: &Self) {
        self.steps += other.steps;
        self.lines += other.lines;
        self.met.add(&other.met);
        self.left.add(&other.left);
    }
}

/// Histories whose scripts are compared together.
#[derive(Default)]
struct Batches {
    sending: Batch,
    receiving: Batch,
}

impl Batches {
    fn add(&mut self, sides: &Sides, history: u64, run: Run) -> io::Result<Option<u64>> {
        let (sending, receiving) = (&*sides.sending, &*sides.receiving);
        let mut differs = Vec::new();
        for lines in run.sending {
            differs.extend(self.sending.add(sending, history, lines)?);
        }
        for lines in run.receiving {
            differs.extend(self.receiving.add(receiving, history, lines)?);
        }
        if !differs.is_empty() {
            // One before it may differ in what is not yet compared.
            differs.extend(self.compare(sides)?);
        }
        Ok(differs.into_iter().min())
    }

    fn compare(&mut self, sides: &Sides) -> io::Result<Option<u64>> {
        let sending = self.sending.compare(&*sides.sending)?;
        let receiving = self.receiving.compare(&*sides.receiving)?;
        Ok(sending.into_iter().chain(receiving).min())
    }
}

fn compare(sides: &Sides, count: u64, seed: u64) -> io::Result<bool> {
    let beyond = count / 4;
    let total = count + beyond;
    // Each history has its own random numbers.
    let history = |i: u64| random(&mut Dice::new(seed << 32 ^ i), i < count);
    let (differs, tally) = driver::many("two ends", total, |numbers, tally: &mut Tally| {
        let mut batches = Batches::default();
        for i in numbers {
            let history = history(i);
            let run = ends::run(&history);
            let refused = |n: &usize| *n != 16 && *n != 22 && run.met.sent.refusals[*n] > 0;
            let first = (12..24).find(refused);
            assert!(i >= count || first.is_none(), "refused by {first:?}");
            tally.steps += history.steps.len();
            tally.lines += run.lines();
            tally.met.add(&run.met);
            tally.left.count(&run.met.changes);
            if let Some(differs) = batches.add(sides, i, run)? {
                return Ok(Some(differs));
            }
        }
        batches.compare(sides)
    })?;
    if let Some(i) = differs {
        let history = sides.shrink(history(i))?;
        sides.report(&history)?;
        return Ok(false);
    }
    let Tally {
        steps, lines, met, ..
    } = &tally;
    println!(
        "{total} histories of two ends agree: {count} in the domain, {beyond} with refusals (SEED {seed}), {steps} steps, {lines} answers"
    );
    tally.left.print();
    print(met);
    Ok(true)
}

fn print(met: &Met) {
    let sent = &met.sent;
    let numbers = [
        ("records", sent.records),
        ("messages", sent.messages),
        ("pieces", sent.pieces),
        ("saved records", sent.saved),
        ("resends", sent.resends),
        ("records resent", sent.resent),
        ("sealings", sent.sealings),
        ("datagrams sent", sent.datagrams),
        ("lost", met.lost),
        ("doubled", met.doubled),
        ("altered or cut", met.damaged),
        ("arrived", met.arrived),
        ("plaintext", met.kinds[5]),
        ("unopened", met.kinds[6]),
        ("opened", met.kinds[7]),
        ("dropped", met.kinds[4]),
        ("records noted", sent.noted),
        ("not noted: 32 are", met.unnoted),
        ("ACKs sent", sent.acks_sent),
        ("ACKs acted on", sent.acks),
        ("records marked", sent.marked),
        ("by a number before", met.by_remembered),
        ("flights emptied", met.emptied),
    ];
    for (name, n) in numbers {
        println!("  {name:<18} {n:>9}");
    }
    for reason in REASONS {
        let n = met.reasons[reason as usize];
        if n > 0 {
            println!("  dropped by {reason:<7} {n:>9}");
        }
    }
    for (refusal, n) in sent.refusals.iter().enumerate().skip(12) {
        if *n > 0 {
            println!("  refused by {refusal:<7} {n:>9}");
        }
    }
}

fn main() -> ExitCode {
    let Some((count, seed, programs)) = driver::arguments(2) else {
        eprintln!("usage: ends COUNT SEED [SENDINGS READINGS]");
        return ExitCode::from(2);
    };
    let sides = Sides {
        sending: library::sending(programs.first()),
        receiving: library::receiving(programs.last()),
    };
    driver::exit("ends", compare(&sides, count, seed))
}
