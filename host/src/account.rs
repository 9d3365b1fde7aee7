//! What became of each record of a direction, and whether that is as it must be.

use std::collections::{HashMap, HashSet};
use std::ops::Range;
use std::slice;

use crate::late::{Bands, WIDTHS};
use crate::ledger::{Delivery, Event, Ledger, Record};
use crate::link::{Kind, Sent};

/// What became of a sealed record. Of several copies that arrived, the one that comes last here counts.
#[derive(Clone, Copy, Debug, Eq, Ord, PartialEq, PartialOrd)]
pub enum Fate {
    /// No copy of it was read when the run ended.
    OnItsWay,
    /// Gone with its datagram.
    Lost,
    /// Read before its epoch was keyed.
    BeforeKeys,
    Damaged,
    /// Read when its number could not be told from a lower one: too many before it had not arrived.
    OutOfReach,
    /// Read when it was behind the window.
    TooLate,
    /// Read undamaged, unused and in reach, and yet not handed over.
    LeftOut,
    /// Read, and dropped beyond the close.
    BeyondClose,
    /// Told to the far end, or dealt with there: an ACK, a close.
    HandedOver,
}

/// What comes of a direction.
#[derive(Default)]
pub struct Account {
    pub twice: usize,
    pub changed: usize,
    pub invented: usize,
    pub left_out: usize,
    /// Marked acknowledged though no sending of it was handed over.
    pub unacknowledged: usize,
    /// How often a close was told.
    pub closes: usize,
    /// Alerts and ACKs that the link forged in plaintext and the far end read once it encrypts, and those of them that it dropped.
    pub forged: usize,
    pub forged_dropped: usize,
    /// Datagrams delivered and not read: on their way when the far end ended, or lost between the sockets.
    pub unread: usize,
    /// Readings of undamaged records that were handed over before, at most 63 below the highest: dropped as seen.
    pub doubles: usize,
    /// Readings of undamaged records that were behind the window, dropped as too old: handed over before, and not.
    pub doubles_too_old: usize,
    pub late: usize,
    /// Datagrams of which a record was dropped as seen or as too old that was not, or was not dropped so.
    pub misjudged: usize,
    /// Records dropped as too old, by how far below the highest they came, as the end that read them tells.
    pub below: Bands,
    /// Of these the records too late, each counted once, as it came first: not those that the link lost and replayed.
    pub missed: Bands,
    /// Records lost or damaged together with another one in the same datagram, but for those lost as --lose-first says.
    pub beside: usize,
    /// Records lost as --lose-first says.
    pub lost_first: usize,
    /// The lowest number of epoch 3 that was handed over.
    pub lowest_in_epoch_3: Option<u64>,
    /// For each record sealed.
    pub fates: Vec<Fate>,
}

impl Account {
    /// Goes through all that was read in order.
    pub fn of(ledger: &Ledger) -> Account {
        let mut judge = Judge::new(ledger);
        for event in &ledger.events {
            match event {
                Event::Keyed(epoch) => {
                    judge.used.insert(*epoch, Used::default());
                }
                Event::Handed(record) => judge.hand(record),
                Event::Dealt { epoch, number, content_type, description } => {
                    judge.tell((*epoch, *number), Fate::HandedOver, |sealed| is_dealt(sealed, *content_type, *description));
                }
                Event::Beyond { epoch, number } => judge.tell((*epoch, *number), Fate::BeyondClose, |_| true),
                Event::Unprotected => judge.unprotected += 1,
                Event::Dropped(refusal) => judge.told.drops(*refusal),
                Event::Below(distance) => {
                    judge.told.below.push(*distance);
                    judge.account.below.add(*distance);
                }
                Event::Read(check) => judge.read(*check),
            }
        }
        let mut account = judge.account;
        account.closes = ledger.closes;
        let acknowledged = ledger.acknowledged.iter().filter(|record| record.epoch >= 2);
        account.unacknowledged = acknowledged.filter(|record| !was_handed(ledger, &account.fates, record)).count();
        account.unread = ledger.delivered.len().saturating_sub(ledger.read);
        let (first, others): (Vec<&Sent>, Vec<&Sent>) = ledger.sent.iter().partition(|sent| sent.among_first);
        account.beside = others.iter().map(|sent| beside(&account.fates, &sent.records)).sum();
        account.lost_first = first.iter().map(|sent| fates_of(&account.fates, &sent.records).len()).sum();
        let handed = ledger.sealed.iter().zip(&account.fates).filter(|(_, fate)| **fate == Fate::HandedOver);
        account.lowest_in_epoch_3 = handed.filter(|(record, _)| record.epoch == 3).map(|(record, _)| record.number).min();
        account
    }

    /// Whether records of epoch 3 were read and none was in reach.
    pub fn none_in_reach(&self) -> bool {
        self.lowest_in_epoch_3.is_none() && self.left_out == 0 && self.fates.contains(&Fate::OutOfReach)
    }

    pub fn count(&self, fate: Fate) -> usize {
        self.fates.iter().filter(|this| **this == fate).count()
    }
}

/// A number beside those that are used in its epoch.
enum Standing {
    /// Used, and in the window.
    Seen,
    /// Behind the window, so far below the highest.
    Behind {
        below: u64,
        is_used: bool,
    },
    Beyond,
    Fresh,
}

/// What the window's verdict drops from a datagram.
#[derive(Default, PartialEq)]
struct Drops {
    seen: usize,
    too_old: usize,
    /// How far below the highest those too old are.
    below: Vec<u64>,
}

/// Refusals: the number was used, and it is behind the window.
pub const SEEN: usize = 9;
pub const TOO_OLD: usize = 26;
pub const NOT_OPENED: usize = 10;

impl Drops {
    fn drops(&mut self, refusal: usize) {
        self.seen += usize::from(refusal == SEEN);
        self.too_old += usize::from(refusal == TOO_OLD);
    }

    /// Whether each one too old is as far below the highest as it has to be.
    fn are_sound(&self) -> bool {
        self.too_old == self.below.len() && self.below.iter().all(|below| *below > REACH)
    }
}

/// The numbers used in a receive epoch.
#[derive(Default)]
struct Used {
    numbers: HashSet<u64>,
    highest: Option<u64>,
}

/// A number more than this below the highest is behind the window.
pub const REACH: u64 = WIDTHS[0] - 1;
/// A record carries the last 16 bits of its number, which stand for the nearest number that is 0 or more and ends in them.
const BLOCK: u64 = 1 << 16;

impl Used {
    /// Fresh is: unused, at most 63 below the highest, and under 65,536 or under 32,768 above the highest plus one. `passed` is the highest of
    /// those handed over from the same datagram before.
    fn standing(&self, number: u64, passed: Option<u64>) -> Standing {
        let highest = self.highest.max(passed);
        let below = highest.unwrap_or(0).saturating_sub(number);
        let next = highest.map_or(0, |highest| highest + 1);
        let is_used = self.numbers.contains(&number);
        if below > REACH {
            Standing::Behind { below, is_used }
        } else if is_used {
            Standing::Seen
        } else if number >= BLOCK.max(next + BLOCK / 2) {
            Standing::Beyond
        } else {
            Standing::Fresh
        }
    }

    fn mark(&mut self, number: u64) {
        self.numbers.insert(number);
        self.highest = self.highest.max(Some(number));
    }
}

/// Whether this is the record that the library dealt with, by its type and, of an alert, its description.
fn is_dealt(sealed: &Record, content_type: u8, description: Option<u8>) -> bool {
    sealed.content_type == content_type && (description.is_none() || sealed.content.get(1) == description.as_ref())
}

/// Whether a sending of this record was handed over.
fn was_handed(ledger: &Ledger, fates: &[Fate], a: &Record) -> bool {
    let same = |r: &Record| r.epoch == a.epoch && r.content_type == a.content_type && r.content == a.content;
    ledger.sealed.iter().zip(fates).any(|(record, fate)| *fate == Fate::HandedOver && same(record))
}

/// The fates of a datagram's records: none where the log of an end that broke off lacks them.
fn fates_of<'a>(fates: &'a [Fate], records: &Range<usize>) -> &'a [Fate] {
    fates.get(records.clone()).unwrap_or(&[])
}

/// Of the records of a datagram, those lost or damaged but for one.
fn beside(fates: &[Fate], records: &Range<usize>) -> usize {
    let here = fates_of(fates, records);
    here.iter().filter(|fate| matches!(fate, Fate::Lost | Fate::Damaged)).count().saturating_sub(1)
}

/// On the way through what was read.
struct Judge<'a> {
    sealed: &'a [Record],
    index: HashMap<(u16, u64), usize>,
    used: HashMap<u16, Used>,
    delivered: slice::Iter<'a, Delivery>,
    /// Those handed over from the datagram that is being read.
    here: Vec<usize>,
    /// How many in it were in plaintext and dropped.
    unprotected: usize,
    /// Those dropped from it by the window's verdict.
    told: Drops,
    /// Those that came too late.
    missed: HashSet<usize>,
    account: Account,
}

impl Judge<'_> {
    fn new(ledger: &Ledger) -> Judge<'_> {
        let mut fates = vec![Fate::OnItsWay; ledger.sealed.len()];
        for sent in ledger.sent.iter().filter(|sent| sent.lost) {
            // The log of an end that broke off may lack what it had sent.
            fates.iter_mut().take(sent.records.end).skip(sent.records.start).for_each(|fate| *fate = Fate::Lost);
        }
        Judge {
            sealed: &ledger.sealed,
            index: ledger.sealed.iter().enumerate().map(|(i, r)| ((r.epoch, r.number), i)).collect(),
            used: HashMap::new(),
            delivered: ledger.delivered.iter(),
            here: Vec::new(),
            unprotected: 0,
            told: Drops::default(),
            missed: HashSet::new(),
            account: Account { fates, ..Account::default() },
        }
    }

    fn meets(&mut self, i: usize, fate: Fate) {
        self.account.fates[i] = self.account.fates[i].max(fate);
    }

    /// A replay is the link's own doing: what became of the record before stays.
    fn meets_unless(&mut self, replayed: bool, i: usize, fate: Fate) {
        if !replayed {
            self.meets(i, fate);
        }
    }

    fn hand(&mut self, record: &Record) {
        let same = |sealed: &Record| sealed.content_type == record.content_type && sealed.content == record.content;
        self.tell((record.epoch, record.number), Fate::HandedOver, same);
    }

    /// The far end was told of a record, by its epoch and number, and whether it is the one that was sealed.
    fn tell(&mut self, place: (u16, u64), fate: Fate, is_same: impl Fn(&Record) -> bool) {
        let Some(&i) = self.index.get(&place) else {
            self.account.invented += 1;
            return;
        };
        self.account.changed += usize::from(!is_same(&self.sealed[i]));
        self.account.twice += usize::from(self.account.fates[i] >= Fate::BeyondClose);
        self.meets(i, fate);
        self.here.push(i);
    }

    /// A datagram is read: the records in it that were not handed over are looked at.
    fn read(&mut self, check: u64) {
        let mut due = None;
        if let Some(delivery) = self.delivered.find(|delivery| delivery.check == check) {
            let records = delivery.records.start..delivery.records.end.min(self.sealed.len());
            match delivery.kind {
                Kind::Intact | Kind::Replayed => due = self.read_whole(records, delivery.kind == Kind::Replayed),
                Kind::Damaged => records.for_each(|i| self.meets(i, Fate::Damaged)),
                Kind::Forged => {}
                Kind::Plaintext => {
                    self.account.forged += 1;
                    self.account.forged_dropped += usize::from(self.unprotected == 1);
                }
            }
        }
        self.unprotected = 0;
        let told = std::mem::take(&mut self.told);
        self.account.misjudged += usize::from(!told.are_sound() || due.is_some_and(|due| due != told));
        for i in std::mem::take(&mut self.here) {
            let record = &self.sealed[i];
            self.used.entry(record.epoch).or_default().mark(record.number);
        }
    }

    /// What the window's verdict has to drop, where that can be said: not of a number whose bits stand for another one.
    fn read_whole(&mut self, records: Range<usize>, replayed: bool) -> Option<Drops> {
        let (mut due, mut is_known) = (Drops::default(), true);
        // At most 16 readings from one datagram.
        for i in records.take(16).filter(|i| !self.here.contains(i)).collect::<Vec<_>>() {
            match self.standing(i) {
                None => self.meets(i, Fate::BeforeKeys),
                Some(Standing::Seen) => {
                    self.account.doubles += 1;
                    due.seen += 1;
                }
                Some(Standing::Behind { below, is_used }) => {
                    self.meets_unless(replayed, i, Fate::TooLate);
                    is_known &= below + 1 < BLOCK / 2;
                    self.comes_late(i, below, is_used, replayed);
                    due.too_old += 1;
                    due.below.push(below);
                }
                Some(Standing::Beyond) => {
                    self.meets_unless(replayed, i, Fate::OutOfReach);
                    is_known = false;
                }
                Some(Standing::Fresh) => {
                    self.account.left_out += 1;
                    self.meets(i, Fate::LeftOut);
                }
            }
        }
        is_known.then_some(due)
    }

    /// A record is read behind the window. One that was not handed over before will not be, and the first time it was nearest.
    fn comes_late(&mut self, i: usize, below: u64, is_used: bool, replayed: bool) {
        if below + 1 >= BLOCK / 2 {
            // Its bits stand for a higher number, under which it is not opened.
            return;
        }
        self.account.doubles_too_old += usize::from(is_used);
        self.account.late += usize::from(!is_used);
        if !is_used && !replayed && self.missed.insert(i) {
            self.account.missed.add(below);
        }
    }

    /// How a record stood when it was read. Records of its datagram that were handed over before it count as used.
    fn standing(&self, i: usize) -> Option<Standing> {
        let record = &self.sealed[i];
        let before = self.here.iter().filter(|before| **before < i).map(|before| &self.sealed[*before]);
        let passed = before.filter(|b| b.epoch == record.epoch).map(|b| b.number).max();
        Some(self.used.get(&record.epoch)?.standing(record.number, passed))
    }
}

#[cfg(test)]
mod tests {
    use super::*;
    use crate::link::Datagram;

    /// A direction whose records are numbered in epoch 3.
    struct Scene {
        ledger: Ledger,
        datagrams: Vec<Datagram>,
    }

    impl Scene {
        /// Each datagram is sent with so many records.
        fn new(counts: &[usize]) -> Scene {
            Scene::from(0, counts)
        }

        /// The first number is this one.
        fn from(mut number: usize, counts: &[usize]) -> Scene {
            let mut scene = Scene { ledger: Ledger::default(), datagrams: Vec::new() };
            scene.ledger.reads("k", &mut "3".split_ascii_whitespace());
            for count in counts {
                scene.send(number..number + count);
                number += count;
            }
            scene
        }

        /// A datagram is sent with records of these numbers.
        fn send(&mut self, numbers: Range<usize>) {
            let first = self.ledger.sealed.len();
            let bytes = self.datagrams.len().to_be_bytes().to_vec();
            numbers.for_each(|number| self.ledger.seals(&mut line(number).split_ascii_whitespace()));
            let records = first..self.ledger.sealed.len();
            self.ledger.sends(Sent { records: records.clone(), lost: false, among_first: false });
            self.datagrams.push(Datagram { bytes, records, kind: Kind::Intact });
        }

        fn lose(&mut self, i: usize) {
            self.ledger.sent[i].lost = true;
        }

        /// The first so many datagrams are lost as --lose-first says.
        fn lose_first(&mut self, n: usize) {
            self.ledger.sent[..n].iter_mut().for_each(|sent| (sent.lost, sent.among_first) = (true, true));
        }

        /// A datagram is delivered and read, and these records of it are handed over.
        fn read(&mut self, i: usize, kind: Kind, handed: &[usize]) {
            let datagram = Datagram { kind, ..self.datagrams[i].clone() };
            self.ledger.delivers(&datagram);
            for number in handed {
                self.ledger.reads("r", &mut line(*number).split_ascii_whitespace());
            }
            let check = crate::ledger::check(&datagram.bytes).to_string();
            self.ledger.reads("g", &mut check.split_ascii_whitespace());
        }

        /// A datagram is delivered and read, and its records are dropped as seen, and as too old, so far below the highest.
        fn drop(&mut self, i: usize, kind: Kind, seen: usize, below: &[u64]) {
            let seen = (0..seen).map(|_| ("x", SEEN as u64));
            let too_old = below.iter().flat_map(|below| [("x", TOO_OLD as u64), ("t", *below)]);
            for (kind, number) in seen.chain(too_old) {
                self.ledger.reads(kind, &mut number.to_string().split_ascii_whitespace());
            }
            self.read(i, kind, &[]);
        }

        fn account(&self) -> Account {
            Account::of(&self.ledger)
        }
    }

    fn line(number: usize) -> String {
        format!("3 {number} 23 {}", hex::encode(number.to_be_bytes()))
    }

    fn findings(account: &Account) -> [usize; 6] {
        [account.twice, account.changed, account.invented, account.left_out, account.unacknowledged, account.misjudged]
    }

    #[test]
    fn each_record_has_one_fate() {
        let mut scene = Scene::new(&[1, 1, 1, 1]);
        scene.read(0, Kind::Intact, &[0]);
        scene.lose(1);
        scene.read(2, Kind::Damaged, &[]);
        let account = scene.account();
        assert_eq!(account.fates, [Fate::HandedOver, Fate::Lost, Fate::Damaged, Fate::OnItsWay]);
        assert_eq!(findings(&account), [0; 6]);
    }

    #[test]
    fn a_double_is_told_from_one_that_is_late() {
        let mut scene = Scene::new(&[1; 66]);
        scene.read(1, Kind::Intact, &[1]);
        scene.read(2, Kind::Intact, &[2]);
        scene.read(65, Kind::Intact, &[65]);
        scene.drop(2, Kind::Intact, 1, &[]);
        scene.drop(1, Kind::Intact, 0, &[64]);
        scene.drop(0, Kind::Intact, 0, &[65]);
        let account = scene.account();
        assert_eq!((account.doubles, account.doubles_too_old, account.late), (1, 1, 1));
        assert_eq!(account.fates[..3], [Fate::TooLate, Fate::HandedOver, Fate::HandedOver]);
        assert_eq!((account.below, account.missed), (Bands([2, 0, 0, 0]), Bands([1, 0, 0, 0])));
        assert_eq!(findings(&account), [0; 6]);
    }

    /// The findings where numbers 1 and 2 were handed over, then 65, and these datagrams are dropped so.
    fn misjudged(drops: &[(usize, Kind, usize, &[u64])]) -> usize {
        let mut scene = Scene::new(&[1; 66]);
        [1, 2, 65].iter().for_each(|number| scene.read(*number, Kind::Intact, &[*number]));
        drops.iter().for_each(|(i, kind, seen, below)| scene.drop(*i, *kind, *seen, below));
        let account = scene.account();
        assert_eq!(findings(&account)[..5], [0; 5]);
        account.misjudged
    }

    #[test]
    fn seen_and_too_old_are_told_as_they_are() {
        for kind in [Kind::Intact, Kind::Replayed] {
            assert_eq!(misjudged(&[(2, kind, 1, &[]), (1, kind, 0, &[64]), (0, kind, 0, &[65])]), 0);
            // As the other one, as both, as neither, and at another distance.
            assert_eq!(misjudged(&[(2, kind, 0, &[64]), (1, kind, 1, &[]), (0, kind, 1, &[])]), 3);
            assert_eq!(misjudged(&[(2, kind, 1, &[64]), (1, kind, 1, &[64]), (2, kind, 0, &[]), (1, kind, 0, &[])]), 4);
            assert_eq!(misjudged(&[(1, kind, 0, &[65]), (0, kind, 0, &[64]), (0, kind, 0, &[65])]), 2);
        }
        // What is damaged or forged can have any number, and yet none in the window is too old.
        for kind in [Kind::Damaged, Kind::Forged] {
            assert_eq!(misjudged(&[(2, kind, 0, &[64]), (1, kind, 1, &[]), (0, kind, 0, &[]), (0, kind, 0, &[30_000])]), 0);
            assert_eq!(misjudged(&[(0, kind, 0, &[63])]), 1);
        }
    }

    #[test]
    fn each_one_too_old_has_a_distance() {
        let mut scene = Scene::new(&[1; 65]);
        scene.read(64, Kind::Intact, &[64]);
        scene.ledger.reads("x", &mut "26".split_ascii_whitespace());
        scene.read(0, Kind::Damaged, &[]);
        assert_eq!(findings(&scene.account()), [0, 0, 0, 0, 0, 1]);
    }

    #[test]
    fn late_ones_are_counted_by_how_late_they_came() {
        let mut scene = Scene::new(&[1; 600]);
        scene.read(599, Kind::Intact, &[599]);
        for below in [64, 127, 128, 255, 256, 511, 512, 599] {
            scene.drop(599 - below, Kind::Intact, 0, &[below as u64]);
        }
        let account = scene.account();
        assert_eq!((account.late, account.below, account.missed), (8, Bands([2; 4]), Bands([2; 4])));
        assert_eq!((account.count(Fate::TooLate), findings(&account)), (8, [0; 6]));
    }

    #[test]
    fn one_that_comes_late_twice_is_missed_once_as_it_came_first() {
        let mut scene = Scene::new(&[1; 300]);
        scene.read(100, Kind::Intact, &[100]);
        scene.drop(0, Kind::Intact, 0, &[100]);
        scene.read(299, Kind::Intact, &[299]);
        scene.drop(0, Kind::Intact, 0, &[299]);
        scene.drop(100, Kind::Intact, 0, &[199]);
        let account = scene.account();
        assert_eq!((account.late, account.doubles_too_old), (2, 1));
        assert_eq!((account.below, account.missed), (Bands([1, 1, 1, 0]), Bands([1, 0, 0, 0])));
        assert_eq!(findings(&account), [0; 6]);
    }

    #[test]
    fn one_handed_over_makes_the_next_of_its_datagram_late() {
        let mut scene = Scene::new(&[1, 1]);
        scene.send(70..71);
        scene.send(2..3);
        // A datagram with numbers 70 and 2, in this order.
        scene.datagrams[2].records = 2..4;
        scene.read(0, Kind::Intact, &[0]);
        for (kind, words) in [("x", "26"), ("t", "68")] {
            scene.ledger.reads(kind, &mut words.split_ascii_whitespace());
        }
        scene.read(2, Kind::Intact, &[70]);
        let account = scene.account();
        assert_eq!((account.late, account.missed, findings(&account)), (1, Bands([1, 0, 0, 0]), [0; 6]));
    }

    /// From 32,768 below the next number on the bits stand for a higher one: that it is not dropped as too old is a finding up to there.
    #[test]
    fn one_so_late_that_its_bits_stand_for_another_need_not_be_too_old() {
        for (number, late) in [(33_000, 1), (32_234, 1), (32_233, 0), (100, 0)] {
            let mut scene = Scene::from(number, &[1]);
            scene.send(65_000..65_001);
            scene.read(1, Kind::Intact, &[65_000]);
            scene.read(0, Kind::Intact, &[]);
            let account = scene.account();
            assert_eq!((account.fates[0], account.late, findings(&account)), (Fate::TooLate, late, [0, 0, 0, 0, 0, late]));
        }
    }

    #[test]
    fn the_last_in_reach_must_not_be_left_out() {
        let mut scene = Scene::new(&[1; 64]);
        scene.read(63, Kind::Intact, &[63]);
        scene.read(0, Kind::Intact, &[]);
        let account = scene.account();
        assert_eq!(account.fates[0], Fate::LeftOut);
        assert_eq!(findings(&account), [0, 0, 0, 1, 0, 0]);
    }

    #[test]
    fn a_lost_one_stays_lost_when_it_is_replayed_late() {
        let mut scene = Scene::new(&[1; 100]);
        scene.lose(0);
        scene.read(99, Kind::Intact, &[99]);
        scene.drop(0, Kind::Replayed, 0, &[99]);
        let account = scene.account();
        assert_eq!((account.fates[0], account.late), (Fate::Lost, 1));
        assert_eq!((account.below, account.missed, findings(&account)), (Bands([1, 0, 0, 0]), Bands::default(), [0; 6]));
    }

    /// The fate of this number, read and not handed over after the highest, if there is one, was handed over.
    fn fate_after(highest: Option<usize>, number: usize) -> Fate {
        let mut scene = Scene::from(number, &[1]);
        if let Some(highest) = highest {
            scene.send(highest..highest + 1);
            scene.read(1, Kind::Intact, &[highest]);
        }
        scene.read(0, Kind::Intact, &[]);
        let account = scene.account();
        assert_eq!(findings(&account), [0, 0, 0, usize::from(account.fates[0] == Fate::LeftOut), 0, 0]);
        account.fates[0]
    }

    #[test]
    fn up_to_65_535_lost_first_leave_the_next_in_reach() {
        for number in [0, 32_767, 32_768, 40_000, 65_535] {
            assert_eq!(fate_after(None, number), Fate::LeftOut);
        }
        for number in [65_536, 65_537, 100_000] {
            assert_eq!(fate_after(None, number), Fate::OutOfReach);
        }
    }

    #[test]
    fn the_reach_goes_up_to_65_535_and_with_the_highest() {
        let edges = [(0, 65_536), (32_767, 65_536), (32_768, 65_537), (40_000, 72_769), (65_535, 98_304)];
        for (highest, out) in edges {
            assert_eq!((fate_after(Some(highest), out - 1), fate_after(Some(highest), out)), (Fate::LeftOut, Fate::OutOfReach));
        }
    }

    #[test]
    fn one_that_was_out_of_reach_can_arrive_once_more() {
        let mut scene = Scene::from(65_535, &[1; 3]);
        scene.read(1, Kind::Intact, &[]);
        scene.read(2, Kind::Replayed, &[]);
        scene.read(0, Kind::Intact, &[65_535]);
        scene.read(1, Kind::Intact, &[65_536]);
        let account = scene.account();
        assert_eq!(account.fates, [Fate::HandedOver, Fate::HandedOver, Fate::OnItsWay]);
        assert_eq!(findings(&account), [0; 6]);
    }

    #[test]
    fn none_is_in_reach_unless_one_was_handed_over_or_left_out() {
        let mut scene = Scene::from(65_535, &[1; 2]);
        assert!(!scene.account().none_in_reach());
        scene.read(1, Kind::Intact, &[]);
        assert!(scene.account().none_in_reach());
        scene.read(0, Kind::Intact, &[]);
        assert!(!scene.account().none_in_reach());
        scene.read(0, Kind::Intact, &[65_535]);
        assert!(!scene.account().none_in_reach());
    }

    #[test]
    fn one_handed_over_brings_the_next_of_its_datagram_into_reach() {
        let mut scene = Scene::from(65_535, &[2]);
        scene.read(0, Kind::Intact, &[65_535]);
        let account = scene.account();
        assert_eq!(account.fates, [Fate::HandedOver, Fate::LeftOut]);
        assert_eq!(findings(&account), [0, 0, 0, 1, 0, 0]);
    }

    #[test]
    fn those_lost_first_are_told_apart() {
        let mut scene = Scene::new(&[3, 3, 3, 1]);
        scene.lose_first(2);
        scene.lose(2);
        scene.read(3, Kind::Intact, &[9]);
        let account = scene.account();
        assert_eq!((account.count(Fate::Lost), account.lost_first, account.beside), (9, 6, 2));
        assert_eq!((account.lowest_in_epoch_3, findings(&account)), (Some(9), [0; 6]));
    }

    #[test]
    fn the_lowest_number_is_the_lowest_and_not_the_first_read() {
        let mut scene = Scene::new(&[1; 10]);
        assert_eq!(scene.account().lowest_in_epoch_3, None);
        scene.read(7, Kind::Intact, &[7]);
        scene.read(4, Kind::Intact, &[4]);
        scene.ledger.seals(&mut "2 1 22 00".split_ascii_whitespace());
        scene.ledger.reads("r", &mut "2 1 22 00".split_ascii_whitespace());
        assert_eq!(scene.account().lowest_in_epoch_3, Some(4));
    }

    #[test]
    fn before_its_keys_is_no_finding() {
        let mut scene = Scene::new(&[1]);
        scene.ledger.events.clear();
        scene.read(0, Kind::Intact, &[]);
        let account = scene.account();
        assert_eq!((account.fates[0], findings(&account)), (Fate::BeforeKeys, [0; 6]));
    }

    #[test]
    fn packing_costs_what_goes_along() {
        let mut scene = Scene::new(&[4, 4, 4]);
        scene.lose(0);
        scene.read(1, Kind::Damaged, &[4, 5]);
        scene.read(2, Kind::Intact, &[8, 9, 10, 11]);
        let account = scene.account();
        assert_eq!((account.count(Fate::Lost), account.count(Fate::Damaged), account.beside), (4, 2, 3 + 1));
    }

    #[test]
    fn twice_changed_and_invented_are_findings() {
        let mut scene = Scene::new(&[1, 1]);
        scene.read(0, Kind::Intact, &[0]);
        scene.read(0, Kind::Intact, &[0]);
        scene.read(1, Kind::Intact, &[7]);
        scene.ledger.reads("r", &mut "3 1 23 00".split_ascii_whitespace());
        let account = scene.account();
        assert_eq!((account.twice, account.changed, account.invented), (1, 1, 1));
    }

    /// A direction with an ACK of number 0 and a close of number 1 in one datagram, of which the far end says these lines.
    fn dealt(lines: &[(&str, &str)]) -> Account {
        let mut scene = Scene::new(&[0]);
        for sealed in ["3 0 26 0000", "3 1 21 0100"] {
            scene.ledger.seals(&mut sealed.split_ascii_whitespace());
        }
        scene.ledger.delivers(&Datagram { bytes: vec![], records: 0..2, kind: Kind::Intact });
        for (kind, words) in lines {
            scene.ledger.reads(kind, &mut words.split_ascii_whitespace());
        }
        scene.ledger.reads("g", &mut crate::ledger::check(&[]).to_string().split_ascii_whitespace());
        scene.account()
    }

    #[test]
    fn what_the_library_dealt_with_is_handed_over() {
        let account = dealt(&[("d", "3 0 26"), ("d", "3 1 21 0")]);
        assert_eq!((account.fates.as_slice(), account.closes), (&[Fate::HandedOver; 2][..], 1));
        assert_eq!(findings(&account), [0; 6]);
        // As another type, as another alert, twice, and one that was not sealed.
        assert_eq!(findings(&dealt(&[("d", "3 0 20"), ("d", "3 1 21 40")])), [0, 2, 0, 0, 0, 0]);
        assert_eq!(findings(&dealt(&[("d", "3 0 26"), ("d", "3 0 26"), ("d", "3 1 21"), ("d", "3 2 26")])), [1, 0, 1, 0, 0, 0]);
        assert_eq!(findings(&dealt(&[("d", "3 1 21 0")])), [0, 0, 0, 1, 0, 0]);
    }

    #[test]
    fn beyond_the_close_is_not_left_out() {
        let account = dealt(&[("d", "3 1 21 0"), ("b", "3 0")]);
        assert_eq!(account.fates, [Fate::BeyondClose, Fate::HandedOver]);
        assert_eq!(findings(&account), [0; 6]);
    }

    #[test]
    fn forged_plaintext_has_to_be_dropped() {
        let mut ledger = Ledger::default();
        for (bytes, lines) in [(b"fatal", &["p", "n"][..]), (b"close", &["p"]), (b"acked", &[])] {
            ledger.delivers(&Datagram { bytes: bytes.to_vec(), records: 0..0, kind: Kind::Plaintext });
            for kind in lines {
                ledger.reads(kind, &mut "21".split_ascii_whitespace());
            }
            ledger.reads("g", &mut crate::ledger::check(bytes).to_string().split_ascii_whitespace());
        }
        // One that was on its way at the end did not arrive.
        ledger.delivers(&Datagram { bytes: vec![], records: 0..0, kind: Kind::Plaintext });
        let account = Account::of(&ledger);
        assert_eq!((account.forged, account.forged_dropped), (3, 1));
    }

    #[test]
    fn a_log_that_breaks_off_is_read_as_far_as_it_goes() {
        let mut scene = Scene::new(&[1, 2]);
        scene.ledger.sealed.truncate(1);
        scene.lose(1);
        scene.read(0, Kind::Intact, &[0]);
        scene.read(1, Kind::Damaged, &[]);
        assert_eq!(scene.account().fates, [Fate::HandedOver]);
    }
}
