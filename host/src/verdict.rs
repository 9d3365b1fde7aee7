//! Whether a run is as it must be: it holds, it does not, or it was not finished. What is only missing is never held against it.

use indicatif::HumanCount;
use serde::Serialize;

use crate::account::{Account, Fate};
use crate::crypto::Masks;
use crate::report::{History, Meter, Told};

/// How a run came to its end.
#[derive(Clone, Copy, PartialEq)]
pub enum Ending {
    /// An end ended by itself, and the other was told to.
    Ended,
    /// After so many seconds.
    TimeOver(u64),
    Interrupted,
}

#[derive(Clone, Copy, Debug, PartialEq, Serialize)]
pub enum Word {
    #[serde(rename = "holds")]
    Holds,
    #[serde(rename = "does not hold")]
    DoesNotHold,
    #[serde(rename = "not finished")]
    NotFinished,
}

#[derive(Serialize)]
pub struct Verdict {
    #[serde(rename = "verdict")]
    pub word: Word,
    pub exit_status: i32,
    /// What must not be, and is.
    pub findings: Vec<String>,
    /// Why the run was not finished.
    pub unfinished: Option<String>,
    #[serde(skip)]
    pub ending: Ending,
    /// Whether both ends said all that they had to say.
    #[serde(skip)]
    pub whole: bool,
    /// Whether in a direction all that came of epoch 3 was out of reach.
    #[serde(skip)]
    pub none_in_reach: bool,
}

/// Why a run whose first 65,536 records of epoch 3 are gone cannot come to its end.
const NONE_IN_REACH: &str = "no record of epoch 3 was in reach, since none of the first 65,536 arrived";

impl Verdict {
    pub fn new(ending: Ending, accounts: &[Account; 2], told: &Told, meter: &Meter, masks: Masks, history: Option<&History>) -> Verdict {
        let mut findings = wrong_records(accounts, told.done);
        findings.extend(wrong_counts(told, meter));
        findings.extend(wrong_closes(ending, accounts, told.done));
        findings.extend(wrong_masks(told, masks));
        findings.extend(history.and_then(wrong_history));
        let none_in_reach = accounts.iter().any(Account::none_in_reach);
        let unfinished = unfinished(ending, told).map(|why| if none_in_reach { format!("{why}; {NONE_IN_REACH}") } else { why });
        let unfinished = unfinished.or_else(|| history.and_then(unwritten));
        let (word, exit_status) = match (findings.is_empty(), &unfinished) {
            (false, _) => (Word::DoesNotHold, 1),
            (true, Some(_)) => (Word::NotFinished, 2),
            (true, None) => (Word::Holds, 0),
        };
        Verdict { word, exit_status, findings, unfinished, ending, whole: told.done == [true, true], none_in_reach }
    }
}

/// The log of an end that broke off lacks its last lines: what such lines would explain is no finding.
fn wrong_records(accounts: &[Account; 2], done: [bool; 2]) -> Vec<String> {
    let sum = |count: fn(&Account) -> usize, told: [bool; 2]| -> usize {
        accounts.iter().zip(told).filter(|(_, told)| *told).map(|(account, _)| count(account)).sum()
    };
    let [post, gateway] = done;
    let (always, by_sender, by_receiver) = ([true, true], [post, gateway], [gateway, post]);
    let counts = [
        (sum(|a| a.twice, always), "handed over twice"),
        (sum(|a| a.changed, always), "handed over changed"),
        (sum(|a| a.invented, by_sender), "handed over that was not sealed"),
        (sum(|a| a.left_out, always), "left out though undamaged and in reach"),
        (sum(|a| a.misjudged, by_sender), "dropped as seen or as too old that was not, or the other way round"),
        (sum(|a| a.unacknowledged, by_receiver), "marked acknowledged of which no sending was handed over"),
        (sum(|a| a.count(Fate::BeyondClose), always), "dropped beyond a close, after which none is sent"),
        (sum(|a| a.forged - a.forged_dropped, always), "forged in plaintext that was not dropped"),
    ];
    let found = counts.into_iter().filter(|(n, _)| *n > 0);
    found.map(|(n, what)| format!("{}: a record {what}", HumanCount(n as u64))).collect()
}

fn wrong_counts(told: &Told, meter: &Meter) -> Vec<String> {
    let mut wrong = Vec::new();
    let handed_over = (meter.handed_over, meter.handed_over_wh);
    if told.done == [true, true] && handed_over != (meter.counted, meter.counted_wh) {
        wrong.push("the gateway counted other meter records than were sent".to_string());
    }
    let in_order = told.orders_obeyed.iter().enumerate().all(|(i, order)| *order == i + 1);
    if !in_order || (told.done[1] && told.orders_obeyed.len() > told.orders_given) {
        wrong.push("an order was obeyed that was not given, or twice".to_string());
    }
    wrong
}

/// Each end closes once, and ends by itself only when it has seen the other's close.
fn wrong_closes(ending: Ending, accounts: &[Account; 2], done: [bool; 2]) -> Option<String> {
    let [up, down] = accounts.each_ref().map(|account| account.closes);
    let is_whole = ending == Ending::Ended && done == [true, true];
    let is_wrong = up.max(down) > 1 || (is_whole && (up, down) != (1, 1));
    is_wrong.then(|| "an end did not see the other's close, or saw two".to_string())
}

/// Where the library makes the masks no cipher is asked for one.
fn wrong_masks(told: &Told, masks: Masks) -> Option<String> {
    let asked: usize = told.masks.iter().sum();
    let is_wrong = masks == Masks::Library && asked > 0;
    is_wrong.then(|| format!("{}: a mask asked of a cipher that the library has to make", HumanCount(asked as u64)))
}

/// The gateway's counters and its history tell of the same records. Of one that is not written whole nothing is held against the gateway.
fn wrong_history(history: &History) -> Option<String> {
    let is_wrong = history.failed.is_none() && history.counted.is_some_and(|counted| counted != history.told);
    is_wrong.then(|| "the receive history has other records than the gateway counted".to_string())
}

fn unwritten(history: &History) -> Option<String> {
    history.failed.as_ref().map(|why| format!("the receive history was not written: {why}"))
}

fn unfinished(ending: Ending, told: &Told) -> Option<String> {
    match ending {
        Ending::TimeOver(seconds) => return Some(format!("the time was over after {seconds} s")),
        Ending::Interrupted => return Some("it was interrupted".to_string()),
        Ending::Ended => {}
    }
    let side = told.done.iter().position(|done| !done)?;
    let why = told.stopped[side].as_deref().unwrap_or("it did not say why");
    Some(format!("{} ended before its time: {why}", ["the post", "the gateway"][side]))
}

#[cfg(test)]
mod tests {
    use super::*;

    fn told() -> Told {
        Told { orders_given: 2, orders_obeyed: vec![1, 2], counted: 3, energy: 30, done: [true, true], ..Told::default() }
    }

    fn meter() -> Meter {
        Meter { to_send: 3, sent: 3, sent_wh: 30, handed_over: 3, handed_over_wh: 30, counted: 3, counted_wh: 30 }
    }

    /// A direction whose close was seen.
    fn closed() -> Account {
        Account { closes: 1, ..Account::default() }
    }

    fn verdict(ending: Ending, up: Account, told: &Told) -> Verdict {
        Verdict::new(ending, &[up, closed()], told, &meter(), Masks::Cipher, None)
    }

    #[test]
    fn a_whole_run_holds() {
        let verdict = verdict(Ending::Ended, closed(), &told());
        assert_eq!((verdict.word, verdict.exit_status), (Word::Holds, 0));
        assert!(verdict.findings.is_empty() && verdict.unfinished.is_none());
    }

    #[test]
    fn time_and_interruption_are_not_finished() {
        for (ending, why) in [(Ending::TimeOver(1), "the time was over after 1 s"), (Ending::Interrupted, "it was interrupted")] {
            let verdict = verdict(ending, Account::default(), &told());
            assert_eq!((verdict.word, verdict.exit_status), (Word::NotFinished, 2));
            assert_eq!(verdict.unfinished.as_deref(), Some(why));
        }
    }

    #[test]
    fn an_end_that_stops_is_not_finished() {
        let stopped = [None, Some("refusal 20".to_string())];
        let verdict = verdict(Ending::Ended, Account::default(), &Told { stopped, done: [true, false], ..told() });
        assert_eq!((verdict.word, verdict.exit_status), (Word::NotFinished, 2));
        assert_eq!(verdict.unfinished.as_deref(), Some("the gateway ended before its time: refusal 20"));
    }

    #[test]
    fn each_finding_does_not_hold() {
        let accounts = [
            Account { twice: 1, ..closed() },
            Account { changed: 1, ..closed() },
            Account { invented: 1, ..closed() },
            Account { left_out: 1, ..closed() },
            Account { misjudged: 1, ..closed() },
            Account { unacknowledged: 1, ..closed() },
            Account { fates: vec![Fate::BeyondClose], ..closed() },
            Account { forged: 2, forged_dropped: 1, ..closed() },
            Account { closes: 0, ..closed() },
            Account { closes: 2, ..closed() },
        ];
        for account in accounts {
            let verdict = verdict(Ending::Ended, account, &told());
            assert_eq!((verdict.word, verdict.exit_status, verdict.findings.len()), (Word::DoesNotHold, 1, 1));
        }
    }

    #[test]
    fn wrong_counts_and_orders_do_not_hold() {
        let wrong = [
            (told(), Meter { counted: 2, ..meter() }),
            (told(), Meter { counted_wh: 31, ..meter() }),
            (Told { orders_obeyed: vec![1, 1], ..told() }, meter()),
            (Told { orders_given: 1, ..told() }, meter()),
        ];
        for (told, meter) in wrong {
            let verdict = Verdict::new(Ending::Ended, &[closed(), closed()], &told, &meter, Masks::Cipher, None);
            assert_eq!((verdict.word, verdict.exit_status, verdict.findings.len()), (Word::DoesNotHold, 1, 1));
        }
    }

    #[test]
    fn a_mask_asked_of_a_cipher_does_not_hold_where_the_library_makes_them() {
        for (masks, asked, word) in [
            (Masks::Library, [0, 0], Word::Holds),
            (Masks::Library, [1, 0], Word::DoesNotHold),
            (Masks::Library, [0, 1], Word::DoesNotHold),
            (Masks::Cipher, [3, 4], Word::Holds),
        ] {
            let told = Told { masks: asked, ..told() };
            assert_eq!(Verdict::new(Ending::Ended, &[closed(), closed()], &told, &meter(), masks, None).word, word);
        }
    }

    #[test]
    fn a_finding_stays_one_in_a_run_not_finished() {
        let verdict = verdict(Ending::TimeOver(1), Account { twice: 1, ..Account::default() }, &told());
        assert_eq!((verdict.word, verdict.exit_status), (Word::DoesNotHold, 1));
    }

    #[test]
    fn a_close_not_seen_is_no_finding_in_a_run_not_finished() {
        let broke = Told { done: [false, true], ..told() };
        for (ending, told) in [(Ending::TimeOver(1), told()), (Ending::Interrupted, told()), (Ending::Ended, broke)] {
            let verdict = verdict(ending, Account::default(), &told);
            assert_eq!((verdict.word, verdict.exit_status), (Word::NotFinished, 2));
        }
    }

    #[test]
    fn what_a_broken_log_lacks_is_no_finding() {
        let post_broke = Told { done: [false, true], ..told() };
        let gateway_broke = Told { done: [true, false], orders_given: 0, counted: 0, energy: 0, ..told() };
        let invented = Account { invented: 1, ..Account::default() };
        let misjudged = Account { misjudged: 1, ..Account::default() };
        let unacknowledged = Account { unacknowledged: 1, ..Account::default() };
        for (account, told) in [(invented, &post_broke), (misjudged, &post_broke), (unacknowledged, &gateway_broke)] {
            let verdict = verdict(Ending::Interrupted, account, told);
            assert_eq!((verdict.word, verdict.exit_status), (Word::NotFinished, 2));
        }
    }
}
