//! Starts a charging post and a gateway as two processes, is the bad link between them, and says at the end what came of it.

mod account;
mod advice;
mod crypto;
mod cut;
mod end;
mod gateway;
mod handshake;
mod history;
mod late;
mod ledger;
mod link;
mod messages;
mod meter;
mod options;
mod page;
mod post;
mod report;
mod run;
mod system;
mod verdict;

use std::io::{self, Write};
use std::process::ExitCode;
use std::sync::atomic::AtomicBool;
use std::sync::Arc;

use clap::Parser;
use signal_hook::consts::{SIGINT, SIGTERM};
use signal_hook::flag;

use end::End;
use options::{Options, Role};
use page::Page;
use run::Run;

const NOT_FINISHED: u8 = 2;

/// Set when this process is asked to end.
fn interruption() -> io::Result<Arc<AtomicBool>> {
    let interrupted = Arc::default();
    for signal in [SIGINT, SIGTERM] {
        flag::register(signal, Arc::clone(&interrupted))?;
    }
    Ok(interrupted)
}

fn run_end(options: &Options, role: &Role) -> io::Result<u8> {
    // Ctrl-C reaches all three processes. The ends do not heed it: they end when the link tells them to, so that their logs are whole.
    interruption()?;
    let end = End::new(options, &role.name, role.port)?;
    if role.name == "post" {
        post::run(options, end);
    } else {
        gateway::run(options, end);
    }
    Ok(0)
}

fn run_link(options: &Options) -> io::Result<u8> {
    let interrupted = interruption()?;
    let report = Run::new(options)?.report(&interrupted);
    let text = if options.json { report.json() } else { Page(&report).to_string() };
    io::stdout().write_all(text.as_bytes())?;
    Ok(report.verdict.exit_status as u8)
}

fn options() -> Result<Options, ExitCode> {
    Options::try_parse().map_err(|why| {
        let text = why.to_string();
        if why.use_stderr() {
            eprint!("host/run: {}", text.strip_prefix("error: ").unwrap_or(&text));
            return ExitCode::from(NOT_FINISHED);
        }
        print!("{text}");
        ExitCode::SUCCESS
    })
}

fn main() -> ExitCode {
    let options = match options() {
        Ok(options) => options,
        Err(status) => return status,
    };
    let status = match &options.end {
        Some(role) => run_end(&options, role),
        None => run_link(&options),
    };
    ExitCode::from(status.unwrap_or_else(|why| {
        eprintln!("host/run: {why}");
        NOT_FINISHED
    }))
}
