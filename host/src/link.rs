//! One direction of the bad link: it loses, doubles, delays, reorders, corrupts and forges.

use std::collections::{BTreeMap, VecDeque};
use std::ops::Range;
use std::time::{Duration, Instant};

use huskelapse::content_type::{ACK, ALERT};
use rand::rngs::SmallRng;
use rand::{Rng, RngCore, SeedableRng};
use serde::Serialize;

use crate::cut::{is_sealed, records};
use crate::options::Options;

/// What a datagram is by the time it is delivered.
#[derive(Clone, Copy, Debug, PartialEq)]
pub enum Kind {
    /// As it was sent.
    Intact,
    /// Bytes of it are changed or cut off.
    Damaged,
    /// As it was sent, but the link's own doing: an old one once more.
    Replayed,
    /// Made up by the link.
    Forged,
    /// An alert or an ACK in plaintext, made up by the link once the far end encrypts.
    Plaintext,
}

/// A datagram on its way. `records` are the sealed records that it was sent with, by the order in which the far end sealed them.
#[derive(Clone)]
pub struct Datagram {
    pub bytes: Vec<u8>,
    pub records: Range<usize>,
    pub kind: Kind,
}

/// The sealed records that a datagram was sent with, and whether the link lost it.
pub struct Sent {
    pub records: Range<usize>,
    pub lost: bool,
    /// Lost since --lose-first says so.
    pub among_first: bool,
}

/// A datagram beside the first records of epoch 3, which the link is to lose.
#[derive(Clone, Copy, PartialEq)]
enum Place {
    AmongFirst,
    /// The first one that has later records alone.
    Next,
    Elsewhere,
}

#[derive(Clone, Default, Serialize)]
pub struct Tally {
    pub sent: usize,
    pub lost: usize,
    pub doubled: usize,
    pub held_back: usize,
    pub damaged: usize,
    pub forged: usize,
    pub delivered: usize,
}

pub struct Direction {
    options: Options,
    random: SmallRng,
    /// By the place at which it is due, and by the order in which it came.
    held: BTreeMap<(usize, usize), Datagram>,
    delayed: BTreeMap<(Instant, usize), Datagram>,
    old: Vec<Datagram>,
    last: Instant,
    sealed: usize,
    /// Of those sealed, the ones of epoch 3.
    in_epoch_3: usize,
    /// The last datagram with records of epoch 3 was among the first.
    loses_first: bool,
    /// The datagram that came last, and its records.
    latest: (Vec<u8>, Range<usize>),
    stranger: Stranger,
    order: usize,
    pub tally: Tally,
}

/// Who writes alerts and ACKs in plaintext to the far end.
struct Stranger {
    /// Apart from the other choices, since when the far end encrypts is a matter of time.
    random: SmallRng,
    /// The far end encrypts. Before that a plaintext alert is as good as any.
    begins: bool,
    /// Each kind of forgery has been sent.
    has_begun: bool,
    /// Epochs and numbers of what the far end sealed last.
    named: VecDeque<(u16, u64)>,
}

/// An ACK of so many records fits a datagram.
const NAMED: usize = 64;
/// Of alerts a fatal one and a close.
const FATAL: [u8; 2] = [2, 40];
const CLOSE: [u8; 2] = [1, 0];

const OLD: usize = 512;
const IDLE: Duration = Duration::from_millis(2);

fn comes_up(random: &mut SmallRng, percent: f64) -> bool {
    random.gen_bool(percent / 100.0)
}

impl Stranger {
    fn new(seed: u64) -> Stranger {
        Stranger { random: SmallRng::seed_from_u64(seed), begins: false, has_begun: false, named: VecDeque::new() }
    }

    /// A record in plaintext, under any number.
    fn record(&mut self, content_type: u8, content: &[u8]) -> Vec<u8> {
        let mut header = [content_type, 0xFE, 0xFD, 0, 0, 0, 0, 0, 0, 0, 0, 0, 0];
        self.random.fill_bytes(&mut header[5..11]);
        header[11..].copy_from_slice(&(content.len() as u16).to_be_bytes());
        [&header, content].concat()
    }

    /// A fatal alert, a close, or an ACK of all that is known.
    fn forgery(&mut self, which: usize) -> Vec<u8> {
        match which {
            0 => self.record(ALERT, &FATAL),
            1 => self.record(ALERT, &CLOSE),
            _ => {
                let mut content = (16 * self.named.len() as u16).to_be_bytes().to_vec();
                for (epoch, number) in &self.named {
                    content.extend(u64::from(*epoch).to_be_bytes());
                    content.extend(number.to_be_bytes());
                }
                self.record(ACK, &content)
            }
        }
    }

    /// What it writes beside a datagram, in so many percent of the cases: first each kind, then one at a time.
    fn writes(&mut self, percent: f64) -> Vec<Vec<u8>> {
        if !self.begins || percent == 0.0 {
            return Vec::new();
        }
        if !self.has_begun {
            self.has_begun = true;
            return (0..3).map(|which| self.forgery(which)).collect();
        }
        if !comes_up(&mut self.random, percent) {
            return Vec::new();
        }
        let which = self.random.gen_range(0..3);
        vec![self.forgery(which)]
    }
}

impl Direction {
    pub fn new(options: &Options, salt: u64) -> Direction {
        Direction {
            options: options.clone(),
            random: SmallRng::seed_from_u64(options.seed ^ salt),
            held: BTreeMap::new(),
            delayed: BTreeMap::new(),
            old: Vec::new(),
            last: Instant::now(),
            sealed: 0,
            in_epoch_3: 0,
            loses_first: false,
            latest: (Vec::new(), 0..0),
            stranger: Stranger::new(!(options.seed ^ salt)),
            order: 0,
            tally: Tally::default(),
        }
    }

    /// The far end encrypts from now on: what is written to it in plaintext must change nothing.
    pub fn far_end_encrypts(&mut self) {
        self.stranger.begins = true;
    }

    /// The far end sealed a record, which a forged ACK can name.
    pub fn far_end_sealed(&mut self, epoch: u16, number: u64) {
        self.stranger.named.truncate(NAMED - 1);
        self.stranger.named.push_front((epoch, number));
    }

    /// A datagram comes from the sending end.
    pub fn arrive(&mut self, bytes: &[u8], now: Instant) -> Sent {
        // One number for each datagram, from which its choices are made: what became of those before it plays no part.
        let random = &mut SmallRng::seed_from_u64(self.random.next_u64());
        let (records, in_epoch_3) = self.records(bytes);
        self.tally.sent += 1;
        self.last = now;
        let place = self.place(in_epoch_3);
        if place == Place::AmongFirst {
            // Nor is it kept for a replay or changed for a forgery: nothing of it arrives.
            self.tally.lost += 1;
            return Sent { records, lost: true, among_first: true };
        }
        let datagram = Datagram { bytes: bytes.to_vec(), records: records.clone(), kind: Kind::Intact };
        if comes_up(random, self.options.forge) {
            let forged = self.forge(random, &datagram);
            self.tally.forged += 1;
            self.hold(random, forged, now);
        }
        self.forge_plaintext(now);
        self.remember(random, &datagram);
        let lost = place == Place::Elsewhere && comes_up(random, self.options.lose);
        if lost {
            self.tally.lost += 1;
        } else if place == Place::Next {
            // After 65,535 no other number is in reach: whether anything arrives is not left to chance.
            self.hold(random, datagram, now);
        } else {
            self.pass(random, datagram, now);
        }
        Sent { records, lost, among_first: false }
    }

    /// The sealed records of a datagram, and how many of epoch 3 are new. One that is sent once more as it was has the records that it had.
    fn records(&mut self, bytes: &[u8]) -> (Range<usize>, usize) {
        if self.latest.0 == bytes {
            return (self.latest.1.clone(), 0);
        }
        let first = self.sealed;
        let (sealed, in_epoch_3) = sealed_records(bytes);
        self.sealed += sealed;
        self.latest = (bytes.to_vec(), first..self.sealed);
        (first..self.sealed, in_epoch_3)
    }

    /// Counts the records of epoch 3. A datagram that has one of the first is among them, whatever else is in it: a link loses datagrams.
    fn place(&mut self, in_epoch_3: usize) -> Place {
        if in_epoch_3 == 0 {
            return Place::Elsewhere;
        }
        let was_first = self.loses_first;
        self.loses_first = self.in_epoch_3 < self.options.lose_first;
        self.in_epoch_3 += in_epoch_3;
        match (was_first, self.loses_first) {
            (_, true) => Place::AmongFirst,
            (true, false) => Place::Next,
            (false, false) => Place::Elsewhere,
        }
    }

    /// Keeps some of the datagrams sent, for replays.
    fn remember(&mut self, random: &mut SmallRng, datagram: &Datagram) {
        let old = Datagram { kind: Kind::Replayed, ..datagram.clone() };
        if self.old.len() < OLD {
            self.old.push(old);
        } else {
            self.old[random.gen_range(0..OLD)] = old;
        }
    }

    /// A datagram that is not lost goes on, once or twice.
    fn pass(&mut self, random: &mut SmallRng, datagram: Datagram, now: Instant) {
        if comes_up(random, self.options.double) {
            self.tally.doubled += 1;
            let copy = self.corrupt(random, datagram.clone());
            self.hold(random, copy, now);
        }
        let datagram = self.corrupt(random, datagram);
        self.hold(random, datagram, now);
    }

    fn corrupt(&mut self, random: &mut SmallRng, mut datagram: Datagram) -> Datagram {
        if !comes_up(random, self.options.corrupt) {
            return datagram;
        }
        self.tally.damaged += 1;
        datagram.kind = Kind::Damaged;
        let n = datagram.bytes.len();
        if random.gen_ratio(1, 4) {
            datagram.bytes.truncate(random.gen_range(0..n));
        } else {
            for _ in 0..random.gen_range(1..=3) {
                datagram.bytes[random.gen_range(0..n)] ^= random.gen_range(1..=u8::MAX);
            }
        }
        datagram
    }

    /// An old datagram once more, random bytes, a sealed record of random bytes, or a real one under another number.
    fn forge(&self, random: &mut SmallRng, real: &Datagram) -> Datagram {
        let kind = random.gen_range(0..4);
        if kind == 0 && !self.old.is_empty() {
            return self.old[random.gen_range(0..self.old.len())].clone();
        }
        let mut bytes = if kind == 1 { real.bytes.clone() } else { vec![0; random.gen_range(1..=200)] };
        if kind == 1 {
            let end = bytes.len().min(3);
            random.fill_bytes(&mut bytes[1..end]);
        } else {
            random.fill_bytes(&mut bytes);
            if kind == 2 && bytes.len() >= 5 {
                let length = bytes.len() - 5;
                bytes[0] = 0x2C | bytes[0] & 3;
                bytes[3..5].copy_from_slice(&(length as u16).to_be_bytes());
            }
        }
        Datagram { bytes, records: 0..0, kind: Kind::Forged }
    }

    /// Alerts and ACKs in plaintext, once the far end encrypts.
    fn forge_plaintext(&mut self, now: Instant) {
        for bytes in self.stranger.writes(self.options.forge) {
            let random = &mut SmallRng::seed_from_u64(self.stranger.random.next_u64());
            self.tally.forged += 1;
            self.hold(random, Datagram { bytes, records: 0..0, kind: Kind::Plaintext }, now);
        }
    }

    fn hold(&mut self, random: &mut SmallRng, datagram: Datagram, now: Instant) {
        let place = self.tally.sent + random.gen_range(0..=self.options.reorder);
        self.order += 1;
        if comes_up(random, self.options.delay) {
            self.tally.held_back += 1;
            let until = now + Duration::from_millis(random.gen_range(1..=self.options.delay_ms as u64));
            self.delayed.insert((until, self.order), datagram);
        } else {
            self.held.insert((place, self.order), datagram);
        }
    }

    /// The next datagram that is due for the receiving end. Where nothing arrives any more, those that are held go on.
    pub fn due(&mut self, now: Instant) -> Option<Datagram> {
        while let Some(late) = self.delayed.first_entry().filter(|late| late.key().0 <= now) {
            // Behind all that arrived in the meantime and waits to be delivered.
            self.order += 1;
            self.held.insert((self.tally.sent, self.order), late.remove());
        }
        let idle = now.duration_since(self.last) > IDLE;
        let next = self.held.first_entry().filter(|next| idle || next.key().0 <= self.tally.sent)?;
        self.tally.delivered += 1;
        Some(next.remove())
    }

    pub fn is_empty(&self) -> bool {
        self.held.is_empty() && self.delayed.is_empty()
    }
}

/// How many sealed records a datagram from an end has, by its headers, and how many of them are of epoch 3.
fn sealed_records(datagram: &[u8]) -> (usize, usize) {
    let (mut count, mut in_epoch_3) = (0, 0);
    for record in records(datagram).filter(|record| is_sealed(record)) {
        count += 1;
        // The low bits of the epoch; no end here goes on to epoch 7.
        in_epoch_3 += usize::from(record[0] & 3 == 3);
    }
    (count, in_epoch_3)
}

#[cfg(test)]
mod tests {
    use clap::Parser;

    use super::*;

    /// A sealed record of so many bytes behind its header.
    fn sealed(length: u8) -> Vec<u8> {
        let mut bytes = vec![0x2F, 0, 0, 0, length];
        bytes.resize(5 + usize::from(length), length);
        bytes
    }

    const GOOD: [&str; 12] = ["--lose", "0", "--double", "0", "--reorder", "0", "--delay", "0", "--corrupt", "0", "--forge", "0"];

    /// A datagram with a sealed record for each of these epochs, all of them filled with one byte. Those of an end differ from each other.
    fn packed(epochs: &[u8], fill: u8) -> Vec<u8> {
        epochs.iter().flat_map(|epoch| [&[0x2C | epoch, fill, fill, 0, 20][..], &[fill; 20]].concat()).collect()
    }

    fn direction(words: &[&str]) -> Direction {
        Direction::new(&Options::parse_from([&["host/run"], words].concat()), 0)
    }

    fn lost(direction: &mut Direction, lengths: impl Iterator<Item = u8>) -> Vec<bool> {
        lengths.map(|length| direction.arrive(&sealed(length), Instant::now()).lost).collect()
    }

    #[test]
    fn a_seed_chooses_the_same_whatever_the_lengths() {
        let words = ["--seed", "7", "--corrupt", "50", "--forge", "50"];
        let short = lost(&mut direction(&words), (0..200).map(|_| 20));
        let mixed = lost(&mut direction(&words), (0..200).map(|i| 20 + i));
        let other = lost(&mut direction(&["--seed", "8"]), (0..200).map(|_| 20));
        assert!(short == mixed && short != other);
    }

    #[test]
    fn a_good_link_passes_all_on_in_order() {
        let mut direction = direction(&GOOD);
        lost(&mut direction, 20..120);
        let passed: Vec<_> = std::iter::from_fn(|| direction.due(Instant::now())).collect();
        assert!(passed.iter().map(|datagram| datagram.bytes[4]).eq(20..120));
        assert!(passed.iter().enumerate().all(|(i, datagram)| datagram.records == (i..i + 1) && datagram.kind == Kind::Intact));
        assert!(direction.is_empty());
    }

    #[test]
    fn the_first_of_epoch_3_are_lost_and_no_others() {
        let mut direction = direction(&[&GOOD[..], &["--lose-first", "4"]].concat());
        let epochs = [2, 2, 3, 3, 2, 3, 3, 3, 2, 3];
        let sent: Vec<_> = epochs.iter().zip(0..).map(|(epoch, i)| direction.arrive(&packed(&[*epoch], i), Instant::now())).collect();
        let lost: Vec<_> = (0..10).filter(|i| sent[*i].lost).collect();
        assert_eq!(lost, [2, 3, 5, 6]);
        assert!(sent.iter().all(|sent| sent.lost == sent.among_first));
        assert_eq!((direction.tally.sent, direction.tally.lost), (10, 4));
        let passed: Vec<_> = std::iter::from_fn(|| direction.due(Instant::now())).map(|datagram| datagram.records.start).collect();
        assert_eq!(passed, [0, 1, 4, 7, 8, 9]);
    }

    #[test]
    fn a_datagram_with_one_of_the_first_is_lost_with_all_in_it() {
        let mut direction = direction(&[&GOOD[..], &["--lose-first", "6"]].concat());
        let datagrams = [(&[2, 3][..], 0), (&[3; 4], 1), (&[2], 2), (&[3; 4], 3), (&[3; 4], 4)];
        let lost = datagrams.map(|(epochs, i)| direction.arrive(&packed(epochs, i), Instant::now()).lost);
        assert_eq!(lost, [true, true, false, true, false]);
        let passed: Vec<_> = std::iter::from_fn(|| direction.due(Instant::now())).map(|datagram| datagram.records).collect();
        assert_eq!(passed, [6..7, 11..15]);
    }

    #[test]
    fn nothing_of_the_first_arrives_by_replay_or_forgery() {
        let mut direction = direction(&["--lose-first", "100", "--forge", "95", "--double", "50"]);
        for i in 0..250 {
            let first = i < 100;
            let mut bytes = packed(&[3], if first { 7 } else { 9 });
            bytes[1] = i;
            assert_eq!(direction.arrive(&bytes, Instant::now()).among_first, first);
        }
        let passed: Vec<_> = std::iter::from_fn(|| direction.due(Instant::now() + IDLE * 1000)).collect();
        assert!(passed.iter().any(|datagram| datagram.kind == Kind::Replayed));
        let of_first = |datagram: &Datagram| datagram.bytes.ends_with(&[7; 20]) || datagram.records.start < datagram.records.end.min(100);
        assert!(passed.len() > 150 && !passed.iter().any(of_first));
    }

    #[test]
    fn the_next_one_arrives_however_bad_the_link_is() {
        for seed in 0..50 {
            let words = ["--seed", &seed.to_string(), "--lose-first", "3", "--lose", "95", "--corrupt", "95", "--forge", "0"];
            let mut direction = direction(&words);
            assert_eq!(lost(&mut direction, 20..24), [true, true, true, false]);
            let passed: Vec<_> = std::iter::from_fn(|| direction.due(Instant::now() + IDLE * 1000)).collect();
            assert!(passed.iter().map(|datagram| (datagram.records.clone(), datagram.kind)).eq([(3..4, Kind::Intact)]));
        }
    }

    /// The plaintext records of what is due, their types and contents.
    fn forged(direction: &mut Direction) -> Vec<(u8, Vec<u8>)> {
        let due = std::iter::from_fn(|| direction.due(Instant::now() + IDLE * 1000));
        let forged = due.filter(|datagram| datagram.kind == Kind::Plaintext);
        forged.map(|datagram| (datagram.bytes[0], datagram.bytes[13..].to_vec())).collect()
    }

    #[test]
    fn plaintext_is_forged_once_the_far_end_encrypts() {
        let mut direction = direction(&[&GOOD[..10], &["--forge", "50"]].concat());
        lost(&mut direction, 20..120);
        assert_eq!(forged(&mut direction), []);
        direction.far_end_encrypts();
        direction.far_end_sealed(2, 1);
        direction.far_end_sealed(3, 7);
        lost(&mut direction, 20..21);
        let named = [&[0, 32][..], &3_u64.to_be_bytes(), &7_u64.to_be_bytes(), &2_u64.to_be_bytes(), &1_u64.to_be_bytes()].concat();
        assert_eq!(forged(&mut direction), [(ALERT, FATAL.to_vec()), (ALERT, CLOSE.to_vec()), (ACK, named)]);
        lost(&mut direction, 20..120);
        assert!((20..80).contains(&forged(&mut direction).len()));
    }

    #[test]
    fn a_forged_ack_names_the_last_ones_and_fits() {
        let mut direction = direction(&[&GOOD[..10], &["--forge", "1"]].concat());
        direction.far_end_encrypts();
        (0..1000).for_each(|number| direction.far_end_sealed(3, number));
        lost(&mut direction, 20..21);
        let ack = forged(&mut direction).pop().unwrap().1;
        assert_eq!((ack.len(), &ack[..2], &ack[10..18]), (2 + 64 * 16, &[4, 0][..], &999_u64.to_be_bytes()[..]));
    }

    #[test]
    fn no_plaintext_is_forged_where_nothing_is() {
        let mut direction = direction(&GOOD);
        direction.far_end_encrypts();
        lost(&mut direction, 20..120);
        assert_eq!(forged(&mut direction), []);
    }

    #[test]
    fn forged_plaintext_changes_no_other_choice() {
        let words = ["--seed", "7", "--corrupt", "50", "--forge", "50"];
        let [mut one, mut other] = [&words; 2].map(|words| direction(words));
        other.far_end_encrypts();
        assert_eq!(lost(&mut one, 20..220), lost(&mut other, 20..220));
        assert_eq!((one.tally.doubled, one.tally.damaged), (other.tally.doubled, other.tally.damaged));
    }

    #[test]
    fn a_datagram_sent_once_more_has_the_records_that_it_had() {
        let mut direction = direction(&GOOD);
        let datagrams = [packed(&[3, 3], 1), packed(&[3], 2), packed(&[3], 2), packed(&[3], 3)];
        let records = datagrams.map(|bytes| direction.arrive(&bytes, Instant::now()).records);
        assert_eq!(records, [0..2, 2..3, 2..3, 3..4]);
    }

    #[test]
    fn those_lost_first_change_no_later_choice() {
        let [all, some] = [&[][..], &["--lose-first", "50"]].map(|words| lost(&mut direction(words), 20..220));
        assert!(some[..50].iter().all(|lost| *lost) && !some[50] && some[51..] == all[51..]);
    }
}
