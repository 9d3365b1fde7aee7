//! Times the record layer of the Rust and of the Rattle library side by side, with a cipher that does nothing on both sides.
//!
//!     bench RUNS              times all rows, RUNS runs of each
//!     bench rows              the number and name of each row
//!     bench SIDE ROW COUNT    runs a row on one side, rust or rattle, for callgrind

mod agree;
mod clock;
mod inputs;
mod place;
mod rattle;
mod rust;

use place::at_place;

type Side = Box<dyn Fn(u32) -> f64>;

struct Row {
    name: String,
    /// Calls in a run.
    count: u32,
    rust: Side,
    rattle: Side,
}

fn row(
    name: String,
    count: u32,
    rust: impl Fn(u32) -> f64 + 'static,
    rattle: impl Fn(u32) -> f64 + 'static,
) -> Row {
    Row {
        name,
        count,
        rust: Box::new(rust),
        rattle: Box::new(rattle),
    }
}

/// A side of a row that has a size.
type OfSize = fn(usize, u32) -> f64;

fn record_of(n: usize, what: &str, rust: OfSize, rattle: OfSize) -> Row {
    let name = format!("{what} of {n}");
    row(name, 100_000, move |k| rust(n, k), move |k| rattle(n, k))
}

/// Bytes of a datagram whose one record is padding, and how often it is read in a run.
const PADDED: [(usize, u32); 2] = [(1_500, 100_000), (16_384, 10_000)];

fn padded_to(n: usize, count: u32) -> Row {
    let name = format!("read one padded to {n}");
    row(
        name,
        count,
        move |k| rust::read_padded(n, k),
        move |k| rattle::read_padded(n, k),
    )
}

fn rows() -> Vec<Row> {
    let sizes = [16, 200, 1200];
    let read = sizes.map(|n| record_of(n, "read a record", rust::read, rattle::read));
    let deal = sizes.map(|n| record_of(n, "and deal with it", rust::deal, rattle::deal));
    let padded = PADDED.map(|(n, count)| padded_to(n, count));
    let send = sizes.map(|n| record_of(n, "send a record", rust::send, rattle::send));
    let in_place =
        sizes.map(|n| record_of(n, "send, taken in place", rust::send, rattle::send_in_place));
    let message = row(
        "send a message of 16384".into(),
        5_000,
        rust::message,
        rattle::message,
    );
    let resend = row(
        "resend a flight of 12".into(),
        6_400,
        rust::resend,
        rattle::resend,
    );
    let ack = row(
        "act on an ACK of 32".into(),
        16_000,
        rust::act_on_ack,
        rattle::act_on_ack,
    );
    let mut rows = Vec::from_iter(read.into_iter().chain(deal).chain(padded));
    rows.extend(send.into_iter().chain(in_place));
    rows.extend([message, resend, ack]);
    rows
}

const TURNS: u32 = 10;

/// A run: both sides by turns, so that what the machine does besides falls on both.
fn run(row: &Row, run: u32) -> (f64, f64) {
    let count = row.count / TURNS;
    let (mut a, mut b) = (0.0, 0.0);
    for i in run * TURNS..(run + 1) * TURNS {
        a += at_place(i, &mut || (row.rust)(count));
        b += at_place(i, &mut || (row.rattle)(count));
    }
    (a / TURNS as f64, b / TURNS as f64)
}

fn compare(row: &Row, runs: u32) {
    let mut times: Vec<(f64, f64, f64)> = (0..runs)
        .map(|i| {
            let (a, b) = run(row, i);
            (b / a, a, b)
        })
        .collect();
    times.sort_by(|a, b| a.0.total_cmp(&b.0));
    let least = |f: fn(&(f64, f64, f64)) -> f64| times.iter().map(f).fold(f64::MAX, f64::min);
    println!(
        "{:28} Rust {:8.1} ns   Rattle {:8.1} ns   ratio {:.2} ({:.2} to {:.2})",
        row.name,
        least(|r| r.1),
        least(|r| r.2),
        times[times.len() / 2].0,
        times[0].0,
        times[times.len() - 1].0,
    );
}

fn usage() -> ! {
    eprintln!("usage: bench RUNS | bench rows | bench rust|rattle ROW COUNT");
    std::process::exit(2)
}

/// The number that an argument is.
fn given(arg: &str) -> u32 {
    arg.parse()
        .ok()
        .filter(|n| *n > 0)
        .unwrap_or_else(|| usage())
}

fn once(side: &str, row: u32, count: u32) {
    let rows = rows();
    let row = rows.get(row as usize - 1).unwrap_or_else(|| usage());
    match side {
        "rust" => (row.rust)(count),
        "rattle" => (row.rattle)(count),
        _ => usage(),
    };
}

fn main() {
    let args: Vec<String> = std::env::args().skip(1).collect();
    match args.iter().map(String::as_str).collect::<Vec<_>>()[..] {
        ["rows"] => {
            for (i, row) in rows().iter().enumerate() {
                println!("{} {}", i + 1, row.name);
            }
        }
        [side, row, count] => once(side, given(row), given(count)),
        [runs] => {
            agree::agree();
            rows().iter().for_each(|row| compare(row, given(runs)));
        }
        _ => usage(),
    }
}
