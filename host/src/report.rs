//! What a run came to, in numbers: the page and the JSON object are written from it.

use serde::Serialize;

use crate::account::{Account, Fate, NOT_OPENED, SEEN, TOO_OLD};
use crate::advice;
use crate::crypto::Masks;
use crate::history::{Counts, Written};
use crate::late::{Bands, WIDTHS};
use crate::ledger::{Ledger, Record};
use crate::link::Tally;
use crate::meter::Word;
use crate::options::Options;
use crate::verdict::{Ending, Verdict};

/// What the two ends told of themselves, the post first.
#[derive(Clone, Debug, Default)]
pub struct Told {
    pub orders_given: usize,
    pub orders_obeyed: Vec<usize>,
    pub counted: usize,
    pub energy: u64,
    /// Records sent again and records marked acknowledged.
    pub resent: [usize; 2],
    pub marked: [usize; 2],
    /// Masks that the ciphers of a direction were asked for, at both ends.
    pub masks: [usize; 2],
    /// Records of a direction that the cipher opened, where the reading end has said all.
    pub opened: [Option<usize>; 2],
    /// What was written of the gateway's receive history, where it is asked for.
    pub history: Option<Written>,
    /// Why an end stopped by itself.
    pub stopped: [Option<String>; 2],
    /// Whether an end said all that it had to say.
    pub done: [bool; 2],
}

#[derive(Serialize)]
pub struct Report {
    pub cipher: &'static str,
    /// Who makes the masks of record numbers.
    pub masks: Masks,
    pub seed: u64,
    pub seconds: f64,
    pub post_to_gateway: Way,
    pub gateway_to_post: Way,
    pub meter: Meter,
    pub orders: Orders,
    /// The gateway's receive history, where it is asked for.
    pub history: Option<History>,
    #[serde(flatten)]
    pub verdict: Verdict,
    pub advice: String,
}

/// One direction.
#[derive(Clone, Serialize)]
pub struct Way {
    pub datagrams: Datagrams,
    pub records: Records,
    pub readings: Readings,
}

#[derive(Clone, Serialize)]
pub struct Datagrams {
    #[serde(flatten)]
    pub link: Tally,
    pub unread: usize,
}

/// Records sealed, by what became of them; each is counted once in the fields up to `beyond_close`.
#[derive(Clone, Default, Serialize)]
pub struct Records {
    pub sealed: usize,
    pub handed_over: usize,
    pub lost: usize,
    pub damaged: usize,
    pub too_late: usize,
    pub out_of_reach: usize,
    pub before_keys: usize,
    pub on_their_way: usize,
    pub left_out: usize,
    pub beyond_close: usize,
    /// Of those lost, the ones that --lose-first asks for.
    pub lost_first: usize,
    pub lowest_number_handed_over_in_epoch_3: Option<u64>,
    /// Of those lost and damaged, the ones that shared a datagram with another one.
    pub beside_another: usize,
    pub sent_again: usize,
    pub acknowledged: usize,
    /// Masks that the ciphers of the two ends were asked for.
    pub masks_by_cipher: usize,
}

#[derive(Clone, Serialize)]
pub struct Readings {
    pub plaintext: usize,
    pub unopened: usize,
    /// Alerts and ACKs that the link forged in plaintext once the reading end encrypts, and those of them that were dropped.
    pub forged_in_plaintext: usize,
    pub forged_in_plaintext_dropped: usize,
    pub closes: usize,
    /// Handshake messages put together, and the pieces that they were put together from.
    pub messages: usize,
    pub pieces: usize,
    /// Of those dropped by 9, the undamaged ones: they were handed over before.
    pub doubles: usize,
    /// Of those dropped by 26, the undamaged ones: handed over before, and never.
    pub doubles_too_old: usize,
    pub too_late: usize,
    /// Those dropped by 26, by how far below the highest number they came.
    pub below_highest: Vec<Band>,
    pub wider_windows: Vec<WiderWindow>,
    /// By refusal: how often.
    pub dropped: Vec<Dropped>,
}

/// Records that came at least and at most so far below the highest number.
#[derive(Clone, Serialize)]
pub struct Band {
    pub from: u64,
    pub to: Option<u64>,
    pub count: usize,
}

/// What a window of so many numbers would have read of those dropped by 26.
#[derive(Clone, Serialize)]
pub struct WiderWindow {
    pub numbers: u64,
    /// Those that it reaches, as an end by itself can tell: some are doubles, replayed, damaged or forged.
    pub at_most: usize,
    /// Of these the records too late, which were never handed over, each counted once.
    pub never_handed_over: usize,
}

#[derive(Clone, Serialize)]
pub struct Dropped {
    pub refusal: usize,
    pub count: usize,
}

#[derive(Clone, Default, PartialEq, Serialize)]
pub struct Meter {
    pub to_send: usize,
    pub sent: usize,
    pub sent_wh: u64,
    pub handed_over: usize,
    pub handed_over_wh: u64,
    pub counted: usize,
    pub counted_wh: u64,
}

#[derive(Clone, Serialize)]
pub struct Orders {
    pub to_give: usize,
    pub given: usize,
    pub obeyed: usize,
}

/// The gateway's receive history in its file.
#[derive(Clone, Serialize)]
pub struct History {
    pub file: String,
    /// How many were written, up to a failure.
    pub records: usize,
    /// By the gateway's own counters, where it has said all: openings that its cipher said yes to, and dropped by 9, 26 and 10.
    pub counted: Option<Counts>,
    /// Those that the program `why` reads, the first 65,536, by what the gateway told of each.
    pub read_by_why: Counts,
    /// Why not all were written.
    pub failed: Option<String>,
    /// All that were written, by what the gateway told of each.
    #[serde(skip)]
    pub told: Counts,
}

impl History {
    fn new(written: &Written, up: &Ledger, told: &Told) -> History {
        let dropped_by = |refusal: usize| up.dropped.get(&refusal).copied().unwrap_or(0);
        let (seen, old, cipher) = (dropped_by(SEEN), dropped_by(TOO_OLD), dropped_by(NOT_OPENED));
        History {
            file: written.file.clone(),
            records: written.counts.all(),
            counted: told.opened[0].map(|taken| Counts { taken, seen, old, cipher }),
            read_by_why: written.first,
            failed: written.failed.clone(),
            told: written.counts,
        }
    }
}

impl Way {
    fn new(side: usize, tally: &Tally, ledger: &Ledger, account: &Account, told: &Told) -> Way {
        Way {
            datagrams: Datagrams { link: tally.clone(), unread: account.unread },
            records: Records {
                sealed: ledger.sealed.len(),
                handed_over: account.count(Fate::HandedOver),
                lost: account.count(Fate::Lost),
                damaged: account.count(Fate::Damaged),
                too_late: account.count(Fate::TooLate),
                out_of_reach: account.count(Fate::OutOfReach),
                before_keys: account.count(Fate::BeforeKeys),
                on_their_way: account.count(Fate::OnItsWay),
                left_out: account.count(Fate::LeftOut),
                beyond_close: account.count(Fate::BeyondClose),
                lost_first: account.lost_first,
                lowest_number_handed_over_in_epoch_3: account.lowest_in_epoch_3,
                beside_another: account.beside,
                sent_again: told.resent[side],
                acknowledged: told.marked[side],
                masks_by_cipher: told.masks[side],
            },
            readings: Readings {
                plaintext: ledger.plaintext,
                unopened: ledger.unopened,
                forged_in_plaintext: account.forged,
                forged_in_plaintext_dropped: account.forged_dropped,
                closes: account.closes,
                messages: ledger.messages,
                pieces: ledger.pieces,
                doubles: account.doubles,
                doubles_too_old: account.doubles_too_old,
                too_late: account.late,
                below_highest: bands(&account.below),
                wider_windows: wider_windows(account),
                dropped: ledger.dropped.iter().map(|(&refusal, &count)| Dropped { refusal, count }).collect(),
            },
        }
    }
}

fn bands(below: &Bands) -> Vec<Band> {
    let ends = WIDTHS[1..].iter().map(|width| Some(width - 1)).chain([None]);
    let bands = WIDTHS.iter().zip(ends).zip(below.0);
    bands.map(|((&from, to), count)| Band { from, to, count }).collect()
}

fn wider_windows(account: &Account) -> Vec<WiderWindow> {
    let reached = |numbers: u64| WiderWindow {
        numbers,
        at_most: account.below.reached_by(numbers),
        never_handed_over: account.missed.reached_by(numbers),
    };
    WIDTHS[1..].iter().copied().map(reached).collect()
}

impl Readings {
    pub fn dropped_by(&self, refusal: usize) -> usize {
        self.dropped.iter().filter(|dropped| dropped.refusal == refusal).map(|dropped| dropped.count).sum()
    }
}

/// How many of these are meter records, and their energy.
fn energy<'a>(records: impl Iterator<Item = &'a Record>) -> (usize, u64) {
    records.fold((0, 0), |(count, sum), record| match Word::of(&record.content) {
        Some(Word::Meter { wh, .. }) if record.content_type == 23 => (count + 1, sum + u64::from(wh)),
        _ => (count, sum),
    })
}

impl Meter {
    fn new(options: &Options, up: &Ledger, account: &Account, told: &Told) -> Meter {
        let handed = up.sealed.iter().zip(&account.fates).filter(|(_, fate)| **fate == Fate::HandedOver);
        let (sent, sent_wh) = energy(up.sealed.iter());
        let (handed_over, handed_over_wh) = energy(handed.map(|(record, _)| record));
        let (counted, counted_wh) = (told.counted, told.energy);
        Meter { to_send: options.meter_records(), sent, sent_wh, handed_over, handed_over_wh, counted, counted_wh }
    }
}

impl Report {
    pub fn new(options: &Options, tallies: [&Tally; 2], ledgers: &[Ledger; 2], told: &Told, ending: Ending, seconds: f64) -> Report {
        let accounts = [Account::of(&ledgers[0]), Account::of(&ledgers[1])];
        let meter = Meter::new(options, &ledgers[0], &accounts[0], told);
        let history = told.history.as_ref().map(|written| History::new(written, &ledgers[0], told));
        let verdict = Verdict::new(ending, &accounts, told, &meter, options.suite.masks(), history.as_ref());
        let way = |side: usize| Way::new(side, tallies[side], &ledgers[side], &accounts[side], told);
        let mut report = Report {
            cipher: options.suite.name(),
            masks: options.suite.masks(),
            seed: options.seed,
            seconds: (seconds * 1000.0).round() / 1000.0,
            post_to_gateway: way(0),
            gateway_to_post: way(1),
            meter,
            orders: Orders { to_give: options.orders + 1, given: told.orders_given, obeyed: told.orders_obeyed.len() },
            history,
            verdict,
            advice: String::new(),
        };
        report.advice = advice::on(options, &report);
        report
    }

    /// One object, for programs.
    pub fn json(&self) -> String {
        serde_json::to_string_pretty(self).expect("a report has only what JSON can say") + "\n"
    }
}

#[cfg(test)]
mod tests {
    use clap::Parser;
    use serde_json::{json, Value};

    use super::*;
    use crate::ledger::check;
    use crate::link::{Datagram, Kind, Sent};
    use crate::page::Page;

    /// A run of one meter record of 14 Wh, which was handed over, after two handshake messages.
    fn report(ending: Ending) -> Report {
        let mut up = Ledger::default();
        up.seals(&mut meter_record(0).split_ascii_whitespace());
        up.reads("r", &mut meter_record(0).split_ascii_whitespace());
        up.reads("x", &mut "9".split_ascii_whitespace());
        for pieces in ["1", "3"] {
            up.reads("m", &mut pieces.split_ascii_whitespace());
        }
        report_of(up, &["--records", "1"], ending)
    }

    /// A run whose first meter records of epoch 3 were lost, all but the last, which was read, and handed over if it was in reach.
    fn report_without_first(first: usize, ending: Ending) -> Report {
        let mut up = Ledger::default();
        up.reads("k", &mut "3".split_ascii_whitespace());
        for number in 0..=first {
            up.seals(&mut meter_record(number).split_ascii_whitespace());
            up.sends(Sent { records: number..number + 1, lost: number < first, among_first: number < first });
        }
        up.delivers(&Datagram { bytes: vec![], records: first..first + 1, kind: Kind::Intact });
        if first < 65_536 {
            up.reads("r", &mut meter_record(first).split_ascii_whitespace());
        }
        up.reads("g", &mut check(&[]).to_string().split_ascii_whitespace());
        report_of(up, &["--records", "1", "--lose-first", &first.to_string()], ending)
    }

    fn meter_record(number: usize) -> String {
        format!("3 {number} 23 {}", hex::encode(Word::Meter { index: 0, wh: 14 }.bytes()))
    }

    fn report_of(up: Ledger, words: &[&str], ending: Ending) -> Report {
        report_told(up, words, ending, Told::default())
    }

    /// With what the ends told besides.
    fn report_told(up: Ledger, words: &[&str], ending: Ending, told: Told) -> Report {
        let options = Options::parse_from([&["host/run", "--orders", "0"], words].concat());
        let (counted, energy) = (up.handed, 14 * up.handed as u64);
        let obeyed = (1..=counted).collect();
        let told = Told { counted, energy, orders_given: counted, orders_obeyed: obeyed, done: [true, true], ..told };
        let tally = Tally { sent: 1, delivered: 1, ..Tally::default() };
        let ledgers = [up, Ledger::default()].map(|ledger| if ending == Ending::Ended { close(ledger) } else { ledger });
        Report::new(&options, [&tally, &Tally::default()], &ledgers, &told, ending, 0.25)
    }

    /// The last record is a close, which is seen.
    fn close(mut ledger: Ledger) -> Ledger {
        ledger.seals(&mut "3 100000 21 0100".split_ascii_whitespace());
        ledger.reads("d", &mut "3 100000 21 0".split_ascii_whitespace());
        ledger
    }

    #[test]
    fn json_is_one_object_with_the_page_in_it() {
        let json: Value = serde_json::from_str(&report(Ending::Ended).json()).expect("JSON");
        assert_eq!(json["verdict"], "holds");
        assert_eq!(json["exit_status"], 0);
        assert_eq!(json["unfinished"], Value::Null);
        assert_eq!(json["post_to_gateway"]["datagrams"]["sent"], 1);
        assert_eq!(json["post_to_gateway"]["records"]["handed_over"], 2);
        assert_eq!(json["post_to_gateway"]["readings"]["closes"], 1);
        assert_eq!(json["gateway_to_post"]["readings"]["closes"], 1);
        assert_eq!(json["post_to_gateway"]["readings"]["dropped"][0]["refusal"], 9);
        assert_eq!(json["meter"]["counted_wh"], 14);
    }

    /// A run in which these numbers of 0 to 700 were handed over, then 700, and after it those come, which are all seen or too old.
    fn report_of_late(handed: &[usize], dropped: &[usize]) -> Report {
        let mut up = Ledger::default();
        up.reads("k", &mut "3".split_ascii_whitespace());
        (0..=700).for_each(|number| up.seals(&mut meter_record(number).split_ascii_whitespace()));
        let handed = handed.iter().chain([&700]).map(|number| (*number, vec![("r", meter_record(*number))]));
        let dropped = dropped.iter().map(|number| match 700 - number {
            0..64 => (*number, vec![("x", "9".to_string())]),
            below => (*number, vec![("x", "26".to_string()), ("t", below.to_string())]),
        });
        for (i, (number, lines)) in handed.chain(dropped).enumerate() {
            let bytes = i.to_be_bytes().to_vec();
            let read = ("g", check(&bytes).to_string());
            up.delivers(&Datagram { bytes, records: number..number + 1, kind: Kind::Intact });
            for (kind, words) in lines.into_iter().chain([read]) {
                up.reads(kind, &mut words.split_ascii_whitespace());
            }
        }
        report_of(up, &["--records", "701"], Ending::Ended)
    }

    #[test]
    fn the_page_tells_late_ones_from_doubles_and_how_late_they_came() {
        let report = report_of_late(&[188, 444, 572, 636, 637], &[700, 637, 636, 573, 572, 445, 444, 189, 188]);
        assert_eq!(report.verdict.findings, [""; 0]);
        assert_eq!(row(&report, "dropped by 9: number used (seen)").unwrap(), ["2", "0"]);
        assert_eq!(row(&report, "doubles, handed over before").unwrap(), ["2", "0"]);
        assert_eq!(row(&report, "damaged or forged numbers").unwrap(), ["0", "0"]);
        assert_eq!(row(&report, "dropped by 26: number too old").unwrap(), ["7", "0"]);
        for (band, count) in [("64 to 127", "2"), ("128 to 255", "2"), ("256 to 511", "2"), ("512 or more", "1")] {
            assert_eq!(row(&report, &format!("{band} below the highest number")).unwrap(), [count, "0"]);
        }
        for (width, at_most) in [(128, "2"), (256, "4"), (512, "6")] {
            assert_eq!(row(&report, &format!("a window of {width} would have read at most")).unwrap(), [at_most, "0"]);
        }
        assert_eq!(row(&report, "of these overtaken, and never handed over").unwrap(), ["1", "0"]);
    }

    #[test]
    fn json_has_the_late_ones_as_the_page_has_them() {
        let report = report_of_late(&[188, 444, 572, 636, 637], &[700, 637, 636, 573, 572, 445, 444, 189, 188]);
        let json: Value = serde_json::from_str(&report.json()).expect("JSON");
        let readings = &json["post_to_gateway"]["readings"];
        let counts = ["doubles", "doubles_too_old", "too_late"].map(|name| readings[name].clone());
        assert_eq!(counts, [2, 4, 3].map(Value::from));
        assert_eq!(readings["below_highest"][0], json!({ "from": 64, "to": 127, "count": 2 }));
        assert_eq!(readings["below_highest"][3], json!({ "from": 512, "to": null, "count": 1 }));
        for (i, (numbers, at_most, never)) in [(128, 2, 1), (256, 4, 2), (512, 6, 3)].into_iter().enumerate() {
            let window = json!({ "numbers": numbers, "at_most": at_most, "never_handed_over": never });
            assert_eq!(readings["wider_windows"][i], window);
        }
        assert_eq!(readings["dropped"], json!([{ "refusal": 9, "count": 2 }, { "refusal": 26, "count": 7 }]));
    }

    #[test]
    fn nothing_is_said_of_wider_windows_where_none_came_late() {
        let report = report_of_late(&[637], &[700, 637]);
        assert_eq!(report.verdict.exit_status, 0);
        assert_eq!((row(&report, "dropped by 26"), row(&report, "a window of 128")), (None, None));
    }

    #[test]
    fn advice_names_the_window_that_would_have_read_late_ones() {
        let late = |numbers: std::ops::Range<usize>| report_of_late(&[], &numbers.collect::<Vec<_>>()).advice;
        for (numbers, end) in [
            (600..620, "--delay-ms; a window of 128 would have read 20 of them"),
            (560..580, "--delay-ms; a window of 256 would have read 20 of them"),
            (180..200, "--delay-ms; a window of 512 would have read 11 of them"),
            (100..120, "--delay-ms"),
        ] {
            let advice = late(numbers);
            assert!(advice.starts_with("3 % came too late, held back while more than 63 ") && advice.ends_with(end), "{advice}");
        }
    }

    #[test]
    fn json_says_what_is_not_finished() {
        let json: Value = serde_json::from_str(&report(Ending::TimeOver(1)).json()).expect("JSON");
        assert_eq!(json["verdict"], "not finished");
        assert_eq!(json["exit_status"], 2);
        assert_eq!(json["unfinished"], "the time was over after 1 s");
    }

    /// The two numbers in a row of the page.
    fn row(report: &Report, name: &str) -> Option<Vec<String>> {
        let page = Page(report).to_string();
        let row = page.lines().find_map(|line| line.trim_start().strip_prefix(name))?;
        Some(row.split_ascii_whitespace().map(str::to_string).collect())
    }

    const LOWEST: &str = "lowest number handed over in epoch 3";
    const LOST_FIRST: &str = "of these the first ones, as --lose-first says";
    const OUT_OF_REACH: &str = "out of reach: too many lost before them";

    #[test]
    fn the_page_says_from_which_number_on() {
        for (first, told) in [(40_000, "40,000"), (65_535, "65,535")] {
            let report = report_without_first(first, Ending::Ended);
            let json: Value = serde_json::from_str(&report.json()).expect("JSON");
            assert_eq!(row(&report, LOWEST).unwrap(), [told, "100,000"]);
            assert_eq!(row(&report, LOST_FIRST).unwrap(), [told, "0"]);
            assert_eq!(row(&report, OUT_OF_REACH), None);
            assert_eq!(json["post_to_gateway"]["records"]["lowest_number_handed_over_in_epoch_3"], first);
            assert_eq!(json["gateway_to_post"]["records"]["lowest_number_handed_over_in_epoch_3"], 100_000);
            assert_eq!((json["post_to_gateway"]["records"]["lost_first"].clone(), json["exit_status"].clone()), (first.into(), 0.into()));
        }
        assert_eq!(row(&report(Ending::Ended), LOWEST).unwrap(), ["0", "100,000"]);
        assert_eq!(row(&report(Ending::Ended), LOST_FIRST), None);
    }

    #[test]
    fn the_page_says_how_many_messages_were_put_together() {
        let report = report(Ending::Ended);
        let json: Value = serde_json::from_str(&report.json()).expect("JSON");
        assert_eq!(row(&report, "handshake messages put together").unwrap(), ["2", "0"]);
        assert_eq!(row(&report, "from so many pieces").unwrap(), ["4", "0"]);
        let readings = &json["post_to_gateway"]["readings"];
        assert_eq!((readings["messages"].clone(), readings["pieces"].clone()), (2.into(), 4.into()));
    }

    #[test]
    fn the_page_says_who_makes_the_masks() {
        const ROW: &str = "masks made by the ciphers of the two ends";
        for (name, head, masks) in [
            ("aes-128-gcm", "aes-128-gcm, seed 1, ", "cipher"),
            ("chacha20", "chacha20-poly1305 with masks by the library, seed 1, ", "library"),
        ] {
            let report = report_of(Ledger::default(), &["--cipher", name], Ending::Ended);
            let (page, json) = (Page(&report).to_string(), serde_json::from_str::<Value>(&report.json()).expect("JSON"));
            assert!(page.starts_with(head), "{page}");
            assert_eq!(page.contains("; every mask made by the library\n"), masks == "library", "{page}");
            assert_eq!(row(&report, ROW).unwrap(), ["0", "0"]);
            assert_eq!((&json["masks"], &json["post_to_gateway"]["records"]["masks_by_cipher"]), (&json!(masks), &json!(0)));
        }
    }

    #[test]
    fn the_page_says_what_was_forged_and_that_both_closed() {
        let mut up = Ledger::default();
        up.delivers(&Datagram { bytes: vec![], records: 0..0, kind: Kind::Plaintext });
        for (kind, words) in [("p", ""), ("n", "26"), ("g", &check(&[]).to_string())] {
            up.reads(kind, &mut words.split_ascii_whitespace());
        }
        let report = report_of(up, &["--records", "1"], Ending::Ended);
        assert_eq!(row(&report, "alerts and ACKs forged in plaintext after encryption").unwrap(), ["1", "0"]);
        assert_eq!(row(&report, "dropped ").unwrap(), ["1", "0"]);
        assert_eq!(row(&report, "closes seen").unwrap(), ["1", "1"]);
        assert_eq!(row(&report, "DROPPED BEYOND THE CLOSE"), None);
        let page = Page(&report).to_string();
        assert!(page.contains("no record dropped beyond a close, both closes seen\n"), "{page}");
    }

    /// A run whose gateway opened 3 records, and dropped two as seen, one as too old and one that did not open; its history has these first,
    /// and so many more that were taken.
    fn report_of_history(opened: Option<usize>, failed: Option<&str>, more: usize) -> Report {
        let mut up = Ledger::default();
        for refusal in ["9", "9", "26", "10", "6"] {
            up.reads("x", &mut refusal.split_ascii_whitespace());
        }
        let first = Counts { taken: 3, seen: 2, old: 1, cipher: 1 };
        let counts = Counts { taken: first.taken + more, ..first };
        let written = Written { file: "gateway.history".to_string(), counts, first, failed: failed.map(str::to_string) };
        let told = Told { opened: [opened, None], history: Some(written), ..Told::default() };
        report_told(up, &["--records", "1"], Ending::Ended, told)
    }

    #[test]
    fn the_page_says_what_is_in_the_history() {
        let report = report_of_history(Some(3), None, 0);
        let (page, json) = (Page(&report).to_string(), serde_json::from_str::<Value>(&report.json()).expect("JSON"));
        assert!(page.contains("\nreceive history of the gateway: 7 records written to gateway.history\n"), "{page}");
        assert!(page.contains("\n  as the gateway counted: taken 3, seen 2, old 1, cipher 1\n"), "{page}");
        assert!(!page.contains("65,536"), "{page}");
        let counts = json!({ "taken": 3, "seen": 2, "old": 1, "cipher": 1 });
        let history = json!({ "file": "gateway.history", "records": 7, "counted": counts, "read_by_why": counts, "failed": null });
        assert_eq!((&json["history"], &json["exit_status"]), (&history, &json!(0)));
    }

    #[test]
    fn nothing_is_said_of_a_history_that_is_not_asked_for() {
        let report = report(Ending::Ended);
        let json: Value = serde_json::from_str(&report.json()).expect("JSON");
        assert!(!Page(&report).to_string().contains("history"));
        assert_eq!(json["history"], Value::Null);
    }

    #[test]
    fn the_page_has_the_counts_of_those_that_are_read() {
        let report = report_of_history(Some(100_003), None, 100_000);
        let page = Page(&report).to_string();
        assert!(page.contains("\n  as the gateway counted: taken 100,003, seen 2, old 1, cipher 1\n"), "{page}");
        assert!(page.contains("\n  why/run reads the first 65,536 of them: taken 3, seen 2, old 1, cipher 1\n"), "{page}");
        assert_eq!(report.verdict.exit_status, 0);
    }

    #[test]
    fn a_history_that_is_not_written_is_not_finished() {
        let report = report_of_history(Some(3), Some("gateway.history: no space"), 0);
        let page = Page(&report).to_string();
        assert!(page.contains("\nreceive history of the gateway: not written whole: gateway.history: no space\n"), "{page}");
        assert!(page.contains("\nnot finished: the receive history was not written: gateway.history: no space; "), "{page}");
        assert_eq!(report.verdict.exit_status, 2);
    }

    #[test]
    fn a_history_with_other_counts_does_not_hold() {
        let report = report_of_history(Some(4), None, 0);
        assert_eq!((report.verdict.exit_status, report.verdict.findings.len()), (1, 1));
        assert!(report.verdict.findings[0].starts_with("the receive history has other records than the gateway counted"));
        // One that did not say all has not counted.
        let report = report_of_history(None, None, 0);
        let page = Page(&report).to_string();
        assert_eq!(report.verdict.findings, [""; 0]);
        assert!(!page.contains("as the gateway counted"), "{page}");
    }

    #[test]
    fn the_page_says_why_none_is_in_reach() {
        let report = report_without_first(65_536, Ending::TimeOver(20));
        assert_eq!((report.verdict.exit_status, report.verdict.findings.len()), (2, 0));
        assert_eq!(row(&report, LOWEST).unwrap(), ["none", "none"]);
        assert_eq!(row(&report, OUT_OF_REACH).unwrap(), ["1", "0"]);
        let page = Page(&report).to_string();
        assert!(page.contains("not finished: the time was over after 20 s; no record of epoch 3 was in reach, since "), "{page}");
        assert!(page.contains("; 65,537 of 65,537 meter records sent, "), "{page}");
        assert!(page.contains("advice: a record carries 16 bits of its number, so "), "{page}");
    }

    #[test]
    fn advice_on_losses_leaves_out_those_asked_for() {
        let report = report_without_first(40_000, Ending::Ended);
        assert!(report.advice.starts_with("but for those lost first, nearly all arrived"), "{}", report.advice);
    }

    #[test]
    fn the_page_ends_with_verdict_and_advice() {
        let page = Page(&report(Ending::Interrupted)).to_string();
        assert!(page.contains("not finished: it was interrupted; 1 of 1 meter records sent, 1 of 1 orders obeyed\n"), "{page}");
        assert!(!page.contains("HOLD"), "{page}");
        assert!(page.lines().last().is_some_and(|line| line.starts_with("advice: ")), "{page}");
    }
}
