//! What the drivers share: their arguments and exit status, and runs of many histories, split among threads.

use std::ops::Range;
use std::panic::resume_unwind;
use std::process::ExitCode;
use std::sync::Mutex;
use std::sync::atomic::{AtomicU64, Ordering::SeqCst};
use std::time::{Duration, Instant};
use std::{env, io, thread};

/// So many histories are handed to a thread at once.
const CHUNK: u64 = 64;
/// How often it is said how far a run has come.
const PAUSE: Duration = Duration::from_secs(10);

/// COUNT and SEED, and the programs to ask in place of the library: all of these or none.
pub fn arguments(programs: usize) -> Option<(u64, u64, Vec<String>)> {
    let args: Vec<String> = env::args().skip(1).collect();
    let [count, seed, named @ ..] = &args[..] else {
        return None;
    };
    let whole = named.is_empty() || named.len() == programs;
    let numbers = (count.parse().ok()?, seed.parse().ok()?);
    whole.then(|| (numbers.0, numbers.1, named.to_vec()))
}

/// 0 if all agree, 1 if some differ, 2 where something stops the run.
pub fn exit(name: &str, agree: io::Result<bool>) -> ExitCode {
    match agree {
        Ok(true) => ExitCode::SUCCESS,
        Ok(false) => ExitCode::FAILURE,
        Err(error) => {
            eprintln!("{name}: {error}");
            ExitCode::from(2)
        }
    }
}

/// What histories met, counted: the sum does not depend on their order.
pub trait Tally: Default + Send {
    fn add(&mut self, other: &Self);
}

/// A run of many histories, which are known by their numbers from 0 on.
struct Many<'a> {
    what: &'a str,
    total: u64,
    /// The first that no thread has.
    next: AtomicU64,
    done: AtomicU64,
    /// The first found that differs. Those behind it need not be run.
    differs: AtomicU64,
    begun: Instant,
    told: Mutex<Instant>,
}

/// The first history that differs, and what was met. `chunk` runs the histories with some numbers, one after the
/// other, counts what they meet, and says which of them differs first. Chunks are begun in their order and all before the first
/// difference are run, so neither answer depends on how many threads there are.
pub fn many<T: Tally>(
    what: &str,
    total: u64,
    chunk: impl Fn(Range<u64>, &mut T) -> io::Result<Option<u64>> + Sync,
) -> io::Result<(Option<u64>, T)> {
    let threads = threads();
    eprintln!("{what}: {total} histories on {threads} threads");
    let many = Many {
        what,
        total,
        next: AtomicU64::new(0),
        done: AtomicU64::new(0),
        differs: AtomicU64::new(u64::MAX),
        begun: Instant::now(),
        told: Mutex::new(Instant::now()),
    };
    let tallies: io::Result<Vec<T>> = thread::scope(|scope| {
        let begin = |_| scope.spawn(|| many.work(&chunk));
        let workers: Vec<_> = (0..threads).map(begin).collect();
        let joined = workers.into_iter().map(|worker| worker.join());
        joined
            .map(|tally| tally.unwrap_or_else(|panic| resume_unwind(panic)))
            .collect()
    });
    let mut sum = T::default();
    tallies?.iter().for_each(|tally| sum.add(tally));
    let differs = Some(many.differs.into_inner()).filter(|history| *history < total);
    let seconds = many.begun.elapsed().as_secs();
    match differs {
        Some(n) => eprintln!("{what}: history {n} differs; looking for the smallest that does"),
        None => eprintln!("{what}: all {total} histories agree, {seconds} s"),
    }
    Ok((differs, sum))
}

/// As many as the environment says, else as the machine has processors.
fn threads() -> usize {
    let named = env::var("THREADS").ok().and_then(|n| n.parse().ok());
    let processors = || thread::available_parallelism().map_or(1, |n| n.get());
    named.unwrap_or_else(processors).max(1)
}

impl Many<'_> {
    fn work<T: Tally>(
        &self,
        chunk: impl Fn(Range<u64>, &mut T) -> io::Result<Option<u64>>,
    ) -> io::Result<T> {
        let mut tally = T::default();
        loop {
            let from = self.next.fetch_add(CHUNK, SeqCst);
            if from >= self.total.min(self.differs.load(SeqCst)) {
                return Ok(tally);
            }
            let numbers = from..self.total.min(from + CHUNK);
            let count = numbers.end - numbers.start;
            let unfinished = Unfinished(self, from);
            let differs = chunk(numbers, &mut tally)?;
            std::mem::forget(unfinished);
            match differs {
                Some(history) => drop(self.differs.fetch_min(history, SeqCst)),
                None => self.tell(count),
            }
        }
    }

    /// Says now and then how far the run has come.
    fn tell(&self, count: u64) {
        let done = self.done.fetch_add(count, SeqCst) + count;
        let mut told = self.told.lock().unwrap();
        if told.elapsed() >= PAUSE {
            *told = Instant::now();
            let (what, total) = (self.what, self.total);
            let seconds = self.begun.elapsed().as_secs();
            eprintln!("{what}: {done} of {total} histories agree, {seconds} s");
        }
    }
}

/// A chunk, with its first number, that ends by an error or a panic ends the run: no thread begins another.
struct Unfinished<'a>(&'a Many<'a>, u64);

impl Drop for Unfinished<'_> {
    fn drop(&mut self) {
        let Self(many, from) = self;
        many.next.store(many.total, SeqCst);
        let last = many.total.min(*from + CHUNK) - 1;
        eprintln!("{}: stopped at histories {from} to {last}", many.what);
    }
}
