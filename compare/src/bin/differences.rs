//! Prints the smallest inputs found at which the Rust differs, with what both do.
//!
//! differences COUNT SEED [SENDINGS READINGS]

use std::process::ExitCode;
use std::{io, panic};

use dimpl::beside::Answers;
use dimpl::differences::{Found, classes, rebuilding, receiving, sending};
use dimpl::{driver, library};

fn print(title: &str, found: &[Found]) {
    println!("{title}");
    for Found { input, rust, here } in found {
        println!("  input   {input}");
        println!("  Rust    {rust}");
        println!("  Rattle  {here}");
        println!();
    }
}

fn all(sends: &dyn Answers, receives: &dyn Answers, count: u64, seed: u64) -> io::Result<bool> {
    print("number rebuilding", &rebuilding::all(receives)?);
    print("receiving", &receiving::all(receives)?);
    // No program deals with readings.
    print("readings dealt with", &classes::all(&*library::classes())?);
    print("sending", &sending::all(sends, count, seed)?);
    print("a number sealed twice", &[sending::sealed_twice()]);
    Ok(true)
}

fn main() -> ExitCode {
    let Some((count, seed, programs)) = driver::arguments(2) else {
        eprintln!("usage: differences COUNT SEED [SENDINGS READINGS]");
        return ExitCode::from(2);
    };
    // The Rust's panics are answers.
    panic::set_hook(Box::new(|_| {}));
    let sends = library::sending(programs.first());
    let receives = library::receiving(programs.last());
    driver::exit("differences", all(&*sends, &*receives, count, seed))
}
