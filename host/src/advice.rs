//! One line of advice that fits a run's numbers.

use indicatif::HumanCount;

use crate::account::REACH;
use crate::options::Options;
use crate::report::{Records, Report, Way, WiderWindow};
use crate::verdict::{Ending, Word};

pub fn on(options: &Options, report: &Report) -> String {
    let again = format!("--seed {} and the same options make the link choose the same again", options.seed);
    match report.verdict.word {
        Word::DoesNotHold => format!("keep this page; {again}"),
        Word::NotFinished if report.verdict.ending == Ending::Ended => again,
        Word::NotFinished => on_time(report),
        Word::Holds => {
            let way = &report.post_to_gateway;
            let but = if way.records.lost_first > 0 { "but for those lost first, " } else { "" };
            format!("{but}{}", on_late(options, way).unwrap_or_else(|| on_records(&way.records)))
        }
    }
}

/// A run that was not finished: how long it would take, or why no time is enough.
fn on_time(report: &Report) -> String {
    if report.verdict.none_in_reach {
        return "a record carries 16 bits of its number, so an epoch whose first 65,536 are lost cannot go on: key a new one or shake hands anew"
            .to_string();
    }
    let meter = &report.meter;
    if meter.sent == 0 {
        return "the handshake did not come to its end: lower --lose, or give more --seconds".to_string();
    }
    if meter.sent == meter.to_send {
        return "all meter records were sent, and orders not acknowledged or closes not seen yet: lower --lose or --orders, or give more --seconds"
            .to_string();
    }
    // By what has gone all its way; the orders take some more.
    let records = &report.post_to_gateway.records;
    let settled = (records.sealed - records.on_their_way).max(1);
    let needed = report.seconds * meter.to_send as f64 / settled as f64;
    let all = HumanCount(meter.to_send as u64);
    format!("at this pace {all} meter records take {needed:.0} s: give --seconds {:.0}, or fewer --records", (1.5 * needed).ceil())
}

/// The records of a run that holds, without those that --lose-first asked for.
fn sealed(records: &Records) -> usize {
    records.sealed - records.lost_first
}

fn is_many(records: &Records, n: usize) -> bool {
    n * 100 > sealed(records)
}

fn share(records: &Records, n: usize) -> String {
    format!("{:.0} %", 100.0 * n as f64 / sealed(records) as f64)
}

/// The narrowest window that would have read nearly as many as the widest.
fn wider(windows: &[WiderWindow]) -> String {
    let most = windows.last().map_or(0, |widest| widest.never_handed_over);
    match windows.iter().find(|window| 100 * window.never_handed_over >= 99 * most) {
        Some(WiderWindow { numbers, never_handed_over: read @ 1.., .. }) => {
            format!("; a window of {numbers} would have read {} of them", HumanCount(*read as u64))
        }
        _ => String::new(),
    }
}

/// A run that holds and in which many came too late.
fn on_late(options: &Options, way: &Way) -> Option<String> {
    let (records, reach) = (&way.records, REACH as usize / options.pack);
    if !is_many(records, records.too_late) {
        return None;
    }
    let why = if options.reorder > reach {
        let pack = if options.pack > 1 { ", or --pack" } else { "" };
        format!("overtaken by more than {REACH} records: lower --reorder to {reach}{pack}")
    } else {
        format!("held back while more than {REACH} records passed: lower --delay or --delay-ms")
    };
    Some(format!("{} came too late, {why}{}", share(records, records.too_late), wider(&way.readings.wider_windows)))
}

/// A run that holds: what most of the missing records are missing for.
fn on_records(records: &Records) -> String {
    if is_many(records, records.beside_another) {
        let n = HumanCount(records.beside_another as u64);
        return format!("{n} records went along with another one in their datagram: a lower --pack loses fewer at once");
    }
    let gone = records.lost - records.lost_first + records.damaged;
    if is_many(records, gone) {
        let gone = share(records, gone);
        return format!(
            "{gone} were lost or damaged, and nothing sends them again: what has to arrive is saved and resent, as the orders are"
        );
    }
    "nearly all arrived: --lose, --reorder, --corrupt and --forge make the link worse".to_string()
}
