//! The receive history of the gateway, for the program `why`: eight bytes for each sealed record whose number was rebuilt there.

use std::cell::Cell;
use std::fs::File;
use std::io::{self, BufWriter, Write};
use std::str::SplitAsciiWhitespace;

use huskelapse::{Cipher, CipherError, Reading, Refusal};
use serde::Serialize;

use crate::cut::{records, TWO_NUMBER_BYTES};

/// How many records `why` reads.
pub const READ_BY_WHY: usize = 65_536;

/// A cipher, and what it said of the opening that the latest reading asked for, until that is taken.
pub struct Overheard<'a, C> {
    pub cipher: &'a mut C,
    pub said: &'a Cell<Option<bool>>,
}

impl<C: Cipher> Cipher for Overheard<'_, C> {
    fn mask(&mut self, epoch: u16, sample: &[u8; 16]) -> Result<[u8; 2], CipherError> {
        self.cipher.mask(epoch, sample)
    }

    fn open(&mut self, epoch: u16, number: u64, nonce: &[u8; 12], header: &[u8], part: &mut [u8]) -> bool {
        let said = self.cipher.open(epoch, number, nonce, header, part);
        self.said.set(Some(said));
        said
    }

    fn seal(&mut self, epoch: u16, number: u64, nonce: &[u8; 12], header: &[u8], part: &mut [u8]) -> Result<(), CipherError> {
        self.cipher.seal(epoch, number, nonce, header, part)
    }
}

/// What became of a record whose number was rebuilt, in the words of `why`.
#[derive(Clone, Copy, Debug, PartialEq)]
pub enum Reason {
    Taken,
    Seen,
    Old,
    Cipher,
}

const REASONS: [Reason; 4] = [Reason::Taken, Reason::Seen, Reason::Old, Reason::Cipher];

impl Reason {
    /// By what the cipher said of the record's opening, where it was asked, and by the reading. A number above 2^48 - 1 would be one more
    /// reason, which `why` has not: no run comes so far.
    pub fn of(said: Option<bool>, reading: &Reading) -> Option<Reason> {
        match (said, reading) {
            (Some(true), _) => Some(Reason::Taken),
            (Some(false), _) => Some(Reason::Cipher),
            (None, Reading::Dropped(Refusal::Seen)) => Some(Reason::Seen),
            (None, Reading::Dropped(Refusal::TooOld)) => Some(Reason::Old),
            (None, _) => None,
        }
    }

    fn word(self) -> &'static str {
        match self {
            Reason::Taken => "taken",
            Reason::Seen => "seen",
            Reason::Old => "old",
            Reason::Cipher => "cipher",
        }
    }

    fn named(word: &str) -> Option<Reason> {
        REASONS.into_iter().find(|reason| reason.word() == word)
    }
}

/// The eight bytes of a record: epoch (2), bits of its number (1), the cipher's reply (1), the number bytes (2), two zeros. The reply is 0 where
/// the cipher was not asked. The record's own number bytes are read, which the library has unmasked in place; two bits of the epoch are the
/// epoch, since no end here goes on to epoch 6.
fn bytes(record: &[u8], reason: Reason) -> Option<[u8; 8]> {
    let [flags, first, second, ..] = *record else { return None };
    let (bits, [high, low]) = if flags & TWO_NUMBER_BYTES != 0 { (16, [first, second]) } else { (8, [0, first]) };
    Some([0, flags % 4, bits, u8::from(reason == Reason::Taken), high, low, 0, 0])
}

/// The records of a datagram that was read, each given by its place among them and by what became of it, as lines for the log.
pub fn lines(datagram: &[u8], noted: &[(usize, Reason)]) -> Vec<String> {
    let line = |(place, reason): &(usize, Reason)| {
        let bytes = bytes(records(datagram).nth(*place)?, *reason)?;
        Some(format!("{} {}", hex::encode(bytes), reason.word()))
    };
    noted.iter().filter_map(line).collect()
}

/// How many records, by what became of them.
#[derive(Clone, Copy, Debug, Default, PartialEq, Serialize)]
pub struct Counts {
    pub taken: usize,
    pub seen: usize,
    pub old: usize,
    pub cipher: usize,
}

impl Counts {
    fn add(&mut self, reason: Reason) {
        let count = match reason {
            Reason::Taken => &mut self.taken,
            Reason::Seen => &mut self.seen,
            Reason::Old => &mut self.old,
            Reason::Cipher => &mut self.cipher,
        };
        *count += 1;
    }

    pub fn all(&self) -> usize {
        self.taken + self.seen + self.old + self.cipher
    }
}

/// What was written of the history.
#[derive(Clone, Debug, Default)]
pub struct Written {
    pub file: String,
    pub counts: Counts,
    /// Of these the ones that `why` reads.
    pub first: Counts,
    /// Why not all of it was written.
    pub failed: Option<String>,
}

/// The file, written as the gateway's log comes.
pub struct History {
    file: BufWriter<File>,
    written: Written,
}

impl History {
    /// Begins the file anew.
    pub fn begin(name: &str) -> io::Result<History> {
        let file =
            File::create(name).map_err(|why| io::Error::other(format!("{name}: the receive history cannot be written there: {why}")))?;
        let written = Written { file: name.to_string(), ..Written::default() };
        Ok(History { file: BufWriter::with_capacity(1 << 16, file), written })
    }

    /// A line of the gateway's log. After the first failure nothing is written any more.
    pub fn takes(&mut self, words: &mut SplitAsciiWhitespace<'_>) {
        let bytes = words.next().and_then(|word| hex::decode(word).ok());
        let (Some(bytes), Some(reason)) = (bytes, words.next().and_then(Reason::named)) else { return };
        if self.written.failed.is_some() {
            return;
        }
        if let Err(why) = self.file.write_all(&bytes) {
            return self.fails(&why);
        }
        if self.written.counts.all() < READ_BY_WHY {
            self.written.first.add(reason);
        }
        self.written.counts.add(reason);
    }

    fn fails(&mut self, why: &io::Error) {
        self.written.failed.get_or_insert(format!("{}: {why}", self.written.file));
    }

    /// Writes what is left.
    pub fn end(mut self) -> Written {
        if self.written.failed.is_none() {
            if let Err(why) = self.file.flush() {
                self.fails(&why);
            }
        }
        // A buffer that could not be written is not tried again.
        let (_, _) = self.file.into_parts();
        self.written
    }
}

#[cfg(test)]
mod tests {
    use std::{env, fs, process};

    use huskelapse::content_type::APPLICATION_DATA;
    use huskelapse::openssl::Keys;
    use huskelapse::{Receiver, Sender};

    use super::*;
    use crate::crypto::{EpochKeys, Suite};

    #[test]
    fn a_record_has_eight_bytes() {
        for (record, reason, expected) in [
            (&[0x2F, 0, 5, 0, 20][..], Reason::Taken, [0, 3, 16, 1, 0, 5, 0, 0]),
            (&[0x2E, 0xFF, 0xC4, 0, 20], Reason::Cipher, [0, 2, 16, 0, 0xFF, 0xC4, 0, 0]),
            (&[0x2B, 1, 2, 9], Reason::Seen, [0, 3, 16, 0, 1, 2, 0, 0]),
            (&[0x27, 0xC4, 0, 20], Reason::Old, [0, 3, 8, 0, 0, 0xC4, 0, 0]),
            (&[0x22, 7, 9], Reason::Taken, [0, 2, 8, 1, 0, 7, 0, 0]),
        ] {
            assert_eq!(bytes(record, reason), Some(expected), "{record:?}");
        }
        assert_eq!(bytes(&[0x2F, 0], Reason::Taken), None);
    }

    #[test]
    fn words_are_those_of_the_reasons() {
        for reason in REASONS {
            assert_eq!(Reason::named(reason.word()), Some(reason));
        }
        assert_eq!(Reason::named("short"), None);
    }

    #[test]
    fn the_reason_goes_by_the_cipher_and_then_by_the_reading() {
        let data = Reading::ApplicationData { epoch: 3, number: 0, content: b"" };
        for (said, reading, reason) in [
            (Some(true), data, Some(Reason::Taken)),
            (Some(true), Reading::Dropped(Refusal::NoContentType), Some(Reason::Taken)),
            (Some(true), Reading::Beyond { epoch: 3, number: 9 }, Some(Reason::Taken)),
            (Some(false), Reading::Dropped(Refusal::NotOpened), Some(Reason::Cipher)),
            (None, Reading::Dropped(Refusal::Seen), Some(Reason::Seen)),
            (None, Reading::Dropped(Refusal::TooOld), Some(Reason::Old)),
            // Its number was not rebuilt.
            (None, Reading::Dropped(Refusal::NoKeys), None),
            (None, Reading::Dropped(Refusal::TooShort), None),
            (None, Reading::Fault(Refusal::Truncated), None),
            (None, Reading::Beyond { epoch: 3, number: 9 }, None),
            (None, Reading::Handshake { epoch: 0, number: 0, content: b"" }, None),
        ] {
            assert_eq!(Reason::of(said, &reading), reason, "{said:?} {reading:?}");
        }
    }

    /// A gateway that reads.
    struct Gateway {
        keys: Keys,
        receiver: Receiver,
    }

    impl Gateway {
        /// And the post's datagrams, of two records each: 0 and 1, then 2 and 3, up to 159.
        fn new(suite: Suite) -> (Gateway, Vec<Vec<u8>>) {
            let epoch = EpochKeys::new(3, "post");
            let (mut seals, mut keys) = (Keys::to_seal(suite.cipher()), Keys::to_open(suite.cipher()));
            let (mut sender, mut receiver) = (Sender::new(1200, 4).unwrap(), Receiver::new(Receiver::MIN_PROTECTED).unwrap());
            epoch.add_to(&mut seals, suite, 3).unwrap();
            epoch.add_to(&mut keys, suite, 3).unwrap();
            epoch.key_send(&mut sender, suite, 3).unwrap();
            epoch.key_receive(&mut receiver, suite, 3).unwrap();
            receiver.enable_peer_encryption();
            let datagrams = (0..80).map(|_| {
                (0..2).for_each(|_| sender.send(3, APPLICATION_DATA, b"14.2 kWh").unwrap());
                sender.seal(&mut seals).unwrap();
                sender.take_in_place().unwrap().unwrap().to_vec()
            });
            let datagrams = datagrams.collect();
            (Gateway { keys, receiver }, datagrams)
        }

        fn read(&mut self, datagram: &[u8]) -> Vec<String> {
            let (mut bytes, mut idle) = (datagram.to_vec(), Sender::new(1200, 1).unwrap());
            let (said, mut noted) = (Cell::new(None), Vec::new());
            let mut cipher = Overheard { cipher: &mut self.keys, said: &said };
            for (place, reading) in self.receiver.read(&mut bytes, &mut cipher, &mut idle).unwrap().enumerate() {
                noted.extend(Reason::of(said.take(), &reading).map(|reason| (place, reason)));
            }
            lines(&bytes, &noted)
        }
    }

    /// What comes before a record in its datagram, and is no part of the history: an alert in plaintext, and one of an epoch without keys.
    fn stray() -> Vec<u8> {
        [&[21, 0xFE, 0xFD, 0, 0, 0, 0, 0, 0, 0, 4, 0, 2, 1, 0][..], &[0x2E, 0, 1, 0, 20], &[0; 20]].concat()
    }

    #[test]
    fn lines_are_what_the_gateway_did_in_its_order() {
        for suite in [Suite::Aes, Suite::ChaCha] {
            let (mut gateway, datagrams) = Gateway::new(suite);
            assert_eq!(gateway.read(&datagrams[2]), ["0003100100040000 taken", "0003100100050000 taken"]);
            assert_eq!(gateway.read(&datagrams[2]), ["0003100000040000 seen", "0003100000050000 seen"]);
            // Its tag is changed; the record behind it is read.
            let mut damaged = datagrams[3].clone();
            let end = damaged.len() / 2;
            damaged[end - 1] ^= 1;
            assert_eq!(gateway.read(&damaged), ["0003100000060000 cipher", "0003100100070000 taken"]);
            // 6 was not marked. What stands before it is passed over, and a header that is cut off behind it ends the datagram.
            let among = [&stray(), &datagrams[3][..end], &stray(), &datagrams[3][end..], &datagrams[4][..end - 1]].concat();
            assert_eq!(gateway.read(&among), ["0003100100060000 taken", "0003100000070000 seen"]);
            // 69 is 64 above 5 and 63 above 6.
            assert_eq!(gateway.read(&datagrams[34][..end]), ["0003100100440000 taken"]);
            assert_eq!(gateway.read(&datagrams[34][end..]), ["0003100100450000 taken"]);
            assert_eq!(gateway.read(&datagrams[2]), ["0003100000040000 old", "0003100000050000 old"]);
            assert_eq!(gateway.read(&datagrams[3]), ["0003100000060000 seen", "0003100000070000 seen"]);
        }
    }

    #[test]
    fn a_number_of_one_byte_has_eight_bits() {
        let (mut gateway, datagrams) = Gateway::new(Suite::Aes);
        gateway.read(&datagrams[0]);
        // A record made up: 17 bytes and more behind a header with one number byte, whatever its mask makes of it.
        let forged = [&[0x27, 9, 0, 20][..], &[5; 20]].concat();
        let lines = gateway.read(&forged);
        assert_eq!(lines.len(), 1);
        assert!(lines[0].starts_with("0003080000") && lines[0][12..].starts_with("0000 "), "{lines:?}");
    }

    /// The file of these lines.
    fn written(name: &str, lines: impl IntoIterator<Item = String>) -> (Written, Vec<u8>) {
        let path = env::temp_dir().join(format!("huskelapse-{name}-{}", process::id()));
        let mut history = History::begin(path.to_str().unwrap()).unwrap();
        lines.into_iter().for_each(|line| history.takes(&mut line.split_ascii_whitespace()));
        let (written, bytes) = (history.end(), fs::read(&path).unwrap());
        fs::remove_file(&path).unwrap();
        (written, bytes)
    }

    #[test]
    fn the_file_has_the_bytes_and_the_counts_are_theirs() {
        let lines = ["0003100100050000 taken", "0003100000050000 seen", "0003100000060000 cipher", "0003080000070000 old"];
        let (written, bytes) = written("counts", lines.map(str::to_string));
        assert_eq!(hex::encode(bytes), "0003100100050000000310000005000000031000000600000003080000070000");
        let each = Counts { taken: 1, seen: 1, old: 1, cipher: 1 };
        assert_eq!((written.counts, written.first, written.failed), (each, each, None));
    }

    #[test]
    fn all_is_written_and_the_first_65_536_are_counted_apart() {
        let line = |i: usize| if i < READ_BY_WHY - 1 { "0003100100050000 taken" } else { "0003100000050000 seen" };
        let (written, bytes) = written("first", (0..READ_BY_WHY + 10).map(|i| line(i).to_string()));
        assert_eq!(bytes.len(), 8 * (READ_BY_WHY + 10));
        let counts = |seen| Counts { taken: READ_BY_WHY - 1, seen, ..Counts::default() };
        assert_eq!((written.counts, written.first), (counts(11), counts(1)));
    }

    #[test]
    fn a_file_that_cannot_be_written_is_said() {
        let why = History::begin("/no such folder/history").err().unwrap().to_string();
        assert!(why.starts_with("/no such folder/history: the receive history cannot be written there: "), "{why}");
        // Linux has a file that is always full.
        let mut history = History::begin("/dev/full").unwrap();
        (0..10).for_each(|_| history.takes(&mut "0003100100050000 taken".split_ascii_whitespace()));
        let why = history.end().failed.unwrap();
        assert!(why.starts_with("/dev/full: "), "{why}");
        let mut history = History::begin("/dev/full").unwrap();
        (0..20_000).for_each(|_| history.takes(&mut "0003100100050000 taken".split_ascii_whitespace()));
        assert!(history.end().failed.is_some());
    }
}
