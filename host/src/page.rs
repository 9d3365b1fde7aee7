//! The page at the end, and the bar on the way to it.

use std::fmt;
use std::time::{Duration, Instant};

use indicatif::{HumanCount, ProgressBar, ProgressDrawTarget, ProgressStyle};

use crate::account::{NOT_OPENED, SEEN, TOO_OLD};
use crate::crypto::Masks;
use crate::history::{Counts, READ_BY_WHY};
use crate::report::{Report, Way};

/// Refusals in the order of their tests.
const REASONS: [(usize, &str); 12] = [
    (1, "over 16,384 bytes"),
    (2, "header or length beyond the datagram"),
    (3, "a seventeenth reading"),
    (4, "bad plaintext type, version or epoch"),
    (5, "epoch bits 0 or 1 before encryption"),
    (6, "no keys for the epoch"),
    (7, "protected part too short"),
    (8, "number above 2^48 - 1"),
    (SEEN, "number used (seen)"),
    (TOO_OLD, "number too old"),
    (NOT_OPENED, "the cipher did not open it"),
    (11, "no content type"),
];

/// A bar on stderr, where that is a terminal.
pub struct Progress {
    bar: ProgressBar,
    last: Instant,
}

impl Progress {
    pub fn new(records: usize) -> Progress {
        let bar = ProgressBar::with_draw_target(Some(records as u64), ProgressDrawTarget::stderr());
        let style = ProgressStyle::with_template("{bar:30} {human_pos} of {human_len} records sent, {msg}");
        bar.set_style(style.expect("the template is well formed"));
        Progress { bar, last: Instant::now() }
    }

    pub fn tell(&mut self, sent: usize, handed_over: usize, obeyed: usize) {
        if self.bar.is_hidden() || self.last.elapsed() < Duration::from_millis(100) {
            return;
        }
        self.last = Instant::now();
        self.bar.set_position((sent as u64).min(self.bar.length().unwrap_or(0)));
        self.bar.set_message(format!("{} handed over, {obeyed} orders obeyed", number(handed_over)));
    }

    pub fn end(&self) {
        self.bar.finish_and_clear();
    }
}

fn number(n: usize) -> HumanCount {
    HumanCount(n as u64)
}

fn kwh(wh: u64) -> String {
    format!("{}.{:03} kWh", HumanCount(wh / 1000), wh % 1000)
}

fn reasons(counts: &Counts) -> String {
    let [taken, seen, old, cipher] = [counts.taken, counts.seen, counts.old, counts.cipher].map(number);
    format!("taken {taken}, seen {seen}, old {old}, cipher {cipher}")
}

/// A report as people read it.
pub struct Page<'a>(pub &'a Report);

impl fmt::Display for Page<'_> {
    fn fmt(&self, f: &mut fmt::Formatter<'_>) -> fmt::Result {
        let report = self.0;
        let masks = if report.masks == Masks::Library { " with masks by the library" } else { "" };
        writeln!(f, "{}{masks}, seed {}, {:.1} s", report.cipher, report.seed, report.seconds)?;
        writeln!(f, "  {:<52}{:>16}{:>18}", "", "post to gateway", "gateway to post")?;
        self.datagrams(f)?;
        self.records(f)?;
        self.readings(f)?;
        self.totals(f)?;
        self.history(f)?;
        self.verdict(f)?;
        writeln!(f, "advice: {}", report.advice)
    }
}

impl Page<'_> {
    fn row(&self, f: &mut fmt::Formatter<'_>, name: &str, count: impl Fn(&Way) -> usize) -> fmt::Result {
        self.words(f, name, |way| number(count(way)).to_string())
    }

    /// A row that is there only where it says something.
    fn row_if_any(&self, f: &mut fmt::Formatter<'_>, name: &str, count: fn(&Way) -> usize) -> fmt::Result {
        if count(&self.0.post_to_gateway) + count(&self.0.gateway_to_post) > 0 {
            self.row(f, name, count)?;
        }
        Ok(())
    }

    fn words(&self, f: &mut fmt::Formatter<'_>, name: &str, word: impl Fn(&Way) -> String) -> fmt::Result {
        let [up, down] = [&self.0.post_to_gateway, &self.0.gateway_to_post].map(word);
        writeln!(f, "  {name:<52}{up:>16}{down:>18}")
    }

    fn datagrams(&self, f: &mut fmt::Formatter<'_>) -> fmt::Result {
        self.row(f, "datagrams sent", |way| way.datagrams.link.sent)?;
        self.row(f, "  lost by the link", |way| way.datagrams.link.lost)?;
        self.row(f, "  doubled by the link", |way| way.datagrams.link.doubled)?;
        self.row(f, "  held back for a time", |way| way.datagrams.link.held_back)?;
        self.row(f, "  damaged", |way| way.datagrams.link.damaged)?;
        self.row(f, "  forged besides", |way| way.datagrams.link.forged)?;
        self.row(f, "  delivered", |way| way.datagrams.link.delivered)?;
        self.row(f, "  delivered and not read at the end", |way| way.datagrams.unread)
    }

    fn records(&self, f: &mut fmt::Formatter<'_>) -> fmt::Result {
        self.row(f, "records sealed", |way| way.records.sealed)?;
        self.row(f, "  handed over", |way| way.records.handed_over)?;
        self.row(f, "  lost by the link", |way| way.records.lost)?;
        self.row_if_any(f, "    of these the first ones, as --lose-first says", |way| way.records.lost_first)?;
        self.row(f, "  too late: overtaken by more than 63 records", |way| way.records.too_late)?;
        self.row_if_any(f, "  out of reach: too many lost before them", |way| way.records.out_of_reach)?;
        self.row(f, "  damaged", |way| way.records.damaged)?;
        self.row(f, "  read before their keys", |way| way.records.before_keys)?;
        self.row(f, "  on their way at the end", |way| way.records.on_their_way)?;
        self.row_if_any(f, "  LEFT OUT", |way| way.records.left_out)?;
        self.row_if_any(f, "  DROPPED BEYOND THE CLOSE", |way| way.records.beyond_close)?;
        self.words(f, "lowest number handed over in epoch 3", |way| {
            way.records.lowest_number_handed_over_in_epoch_3.map_or("none".to_string(), |lowest| HumanCount(lowest).to_string())
        })?;
        self.row(f, "what --pack cost: lost or damaged beside another", |way| way.records.beside_another)?;
        self.row(f, "records sent again", |way| way.records.sent_again)?;
        self.row(f, "saved records acknowledged", |way| way.records.acknowledged)?;
        self.row(f, "masks made by the ciphers of the two ends", |way| way.records.masks_by_cipher)
    }

    fn readings(&self, f: &mut fmt::Formatter<'_>) -> fmt::Result {
        self.row(f, "records read in plaintext", |way| way.readings.plaintext)?;
        self.row(f, "sealed records read before encryption", |way| way.readings.unopened)?;
        self.row(f, "alerts and ACKs forged in plaintext after encryption", |way| way.readings.forged_in_plaintext)?;
        self.row(f, "  dropped", |way| way.readings.forged_in_plaintext_dropped)?;
        self.row(f, "closes seen", |way| way.readings.closes)?;
        self.row(f, "handshake messages put together", |way| way.readings.messages)?;
        self.row(f, "  from so many pieces", |way| way.readings.pieces)?;
        for (refusal, reason) in REASONS {
            let count = |way: &Way| way.readings.dropped_by(refusal);
            if count(&self.0.post_to_gateway) + count(&self.0.gateway_to_post) > 0 {
                self.row(f, &format!("dropped by {refusal}: {reason}"), count)?;
                match refusal {
                    SEEN => self.seen(f)?,
                    TOO_OLD => self.too_old(f)?,
                    _ => {}
                }
            }
        }
        Ok(())
    }

    fn seen(&self, f: &mut fmt::Formatter<'_>) -> fmt::Result {
        self.row(f, "  doubles, handed over before", |way| way.readings.doubles)?;
        self.row(f, "  damaged or forged numbers", |way| way.readings.dropped_by(SEEN).saturating_sub(way.readings.doubles))
    }

    /// How late they came, and what wider windows would have read of them.
    fn too_old(&self, f: &mut fmt::Formatter<'_>) -> fmt::Result {
        for (i, band) in self.0.post_to_gateway.readings.below_highest.iter().enumerate() {
            let to = band.to.map_or("or more".to_string(), |to| format!("to {to}"));
            self.row(f, &format!("  {} {to} below the highest number", band.from), |way| way.readings.below_highest[i].count)?;
        }
        for (i, window) in self.0.post_to_gateway.readings.wider_windows.iter().enumerate() {
            let name = format!("  a window of {} would have read at most", window.numbers);
            self.row(f, &name, |way| way.readings.wider_windows[i].at_most)?;
            self.row(f, "    of these overtaken, and never handed over", |way| way.readings.wider_windows[i].never_handed_over)?;
        }
        Ok(())
    }

    fn totals(&self, f: &mut fmt::Formatter<'_>) -> fmt::Result {
        let (meter, orders) = (&self.0.meter, &self.0.orders);
        let [sent, handed_over, counted] = [meter.sent, meter.handed_over, meter.counted].map(number);
        writeln!(f, "meter records: {sent} sent, {handed_over} handed over, {counted} counted")?;
        let [sent, handed_over, counted] = [meter.sent_wh, meter.handed_over_wh, meter.counted_wh].map(kwh);
        writeln!(f, "energy: {sent} sent; of what was handed over {handed_over} at the post, {counted} at the gateway")?;
        writeln!(f, "orders: {} given, {} obeyed", orders.given, orders.obeyed)
    }

    /// What the program `why` is to find in the file.
    fn history(&self, f: &mut fmt::Formatter<'_>) -> fmt::Result {
        let Some(history) = &self.0.history else { return Ok(()) };
        if let Some(why) = &history.failed {
            return writeln!(f, "receive history of the gateway: not written whole: {why}");
        }
        writeln!(f, "receive history of the gateway: {} records written to {}", number(history.records), history.file)?;
        if let Some(counted) = &history.counted {
            writeln!(f, "  as the gateway counted: {}", reasons(counted))?;
        }
        if history.records > READ_BY_WHY {
            writeln!(f, "  why/run reads the first {} of them: {}", number(READ_BY_WHY), reasons(&history.read_by_why))?;
        }
        Ok(())
    }

    fn verdict(&self, f: &mut fmt::Formatter<'_>) -> fmt::Result {
        let verdict = &self.0.verdict;
        for finding in &verdict.findings {
            writeln!(f, "DOES NOT HOLD: {finding}")?;
        }
        if let Some(why) = &verdict.unfinished {
            writeln!(f, "not finished: {why}; {}", self.so_far())?;
        }
        let head = match (&verdict.unfinished, verdict.findings.is_empty()) {
            (_, false) => return Ok(()),
            (Some(_), true) if !verdict.whole => return writeln!(f, "so far: nothing that must not be, in what the ends could tell"),
            (Some(_), true) => "so far",
            (None, true) => "holds",
        };
        writeln!(f, "{head}: no record handed over twice, changed or invented, none left out that arrived undamaged and in reach,")?;
        let rest = "none of these dropped as seen or as too old that was not, none marked acknowledged that was not handed over;";
        writeln!(f, "{:head$}  {rest}", "", head = head.len())?;
        let rest = "each meter record counted was sent, each order obeyed once;";
        writeln!(f, "{:head$}  {rest}", "", head = head.len())?;
        let closes = if verdict.unfinished.is_none() { ", both closes seen" } else { "" };
        let masks = if self.0.masks == Masks::Library { "; every mask made by the library" } else { "" };
        let rest = format!("no alert or ACK forged in plaintext heeded, no record dropped beyond a close{closes}{masks}");
        writeln!(f, "{:head$}  {rest}", "", head = head.len())
    }

    fn so_far(&self) -> String {
        let (meter, orders) = (&self.0.meter, &self.0.orders);
        let (sent, to_send) = (number(meter.sent), number(meter.to_send));
        format!("{sent} of {to_send} meter records sent, {} of {} orders obeyed", orders.obeyed, orders.to_give)
    }
}
