//! How late records come: how far below the highest number of their epoch those are that the window no longer reaches.

use huskelapse::Reading;

use crate::cut::{records, TWO_NUMBER_BYTES};

/// The highest number opened at an end, by the low two bits of the epoch: no end here goes on to epoch 6.
#[derive(Clone, Copy, Default)]
pub struct Highest([Option<u64>; 4]);

impl Highest {
    /// A record was read. One that was opened has used its number, whatever it was; none here is without a content type.
    pub fn note(&mut self, reading: &Reading) {
        let (Reading::Handshake { epoch, number, .. }
        | Reading::ApplicationData { epoch, number, .. }
        | Reading::Ack { epoch, number, .. }
        | Reading::Close { epoch, number }
        | Reading::Alert { epoch, number, .. }
        | Reading::Other { epoch, number, .. }
        | Reading::Ignored { epoch, number, .. }
        | Reading::Beyond { epoch, number }) = *reading
        else {
            return;
        };
        if epoch >= 2 {
            let highest = &mut self.0[usize::from(epoch) % 4];
            *highest = (*highest).max(Some(number));
        }
    }

    /// How far a record that is too old is below the highest number, by its own number bytes, which the library has unmasked in place.
    /// They stand for the nearest number that ends in them, so the distance is under 65,536, or under 256 where there is one byte.
    fn above(&self, record: &[u8]) -> Option<u64> {
        let [flags, high, low, ..] = *record else { return None };
        let highest = self.0[usize::from(flags % 4)]?;
        Some(if flags & TWO_NUMBER_BYTES != 0 {
            (highest as u16).wrapping_sub(u16::from_be_bytes([high, low])).into()
        } else {
            (highest as u8).wrapping_sub(high).into()
        })
    }
}

/// The distances of the records of a datagram that were dropped as too old, each given by its place among the records and by the highest
/// numbers when it was read.
pub fn distances(datagram: &[u8], too_old: &[(usize, Highest)]) -> Vec<u64> {
    let of = |(place, highest): &(usize, Highest)| highest.above(records(datagram).nth(*place)?);
    too_old.iter().filter_map(of).collect()
}

/// How many numbers the library's window has, and how many wider ones would have.
pub const WIDTHS: [u64; 4] = [64, 128, 256, 512];

/// Records that came too late, by the width that their distance is at least.
#[derive(Clone, Copy, Debug, Default, PartialEq)]
pub struct Bands(pub [usize; WIDTHS.len()]);

impl Bands {
    /// One that the window reaches is not late, and not counted.
    pub fn add(&mut self, distance: u64) {
        if let Some(band) = WIDTHS.iter().rposition(|width| *width <= distance) {
            self.0[band] += 1;
        }
    }

    /// Those that a window of so many numbers reaches.
    pub fn reached_by(&self, width: u64) -> usize {
        WIDTHS.iter().zip(self.0).filter(|(least, _)| **least < width).map(|(_, count)| count).sum()
    }
}

#[cfg(test)]
mod tests {
    use huskelapse::content_type::APPLICATION_DATA;
    use huskelapse::openssl::Keys;
    use huskelapse::{Receiver, Refusal, Sender};

    use super::*;
    use crate::crypto::{EpochKeys, Suite};

    #[test]
    fn bands_begin_at_the_widths() {
        for (distance, counts) in [
            (0, [0, 0, 0, 0]),
            (63, [0, 0, 0, 0]),
            (64, [1, 0, 0, 0]),
            (127, [1, 0, 0, 0]),
            (128, [0, 1, 0, 0]),
            (255, [0, 1, 0, 0]),
            (256, [0, 0, 1, 0]),
            (511, [0, 0, 1, 0]),
            (512, [0, 0, 0, 1]),
            (65_535, [0, 0, 0, 1]),
        ] {
            let mut bands = Bands::default();
            bands.add(distance);
            assert_eq!(bands, Bands(counts), "{distance}");
            // A window of so many numbers reaches a distance under it.
            let reached = WIDTHS[1..].iter().map(|width| usize::from((64..*width).contains(&distance)));
            assert!(WIDTHS[1..].iter().map(|width| bands.reached_by(*width)).eq(reached), "{distance}");
        }
    }

    #[test]
    fn a_wider_window_reaches_those_of_the_narrower_ones() {
        let bands = Bands([1, 20, 300, 4000]);
        assert_eq!([64, 128, 256, 512].map(|width| bands.reached_by(width)), [0, 1, 21, 321]);
    }

    /// A post that sends 16 of its records in each datagram, and a gateway.
    struct Ends {
        keys: Keys,
        receiver: Receiver,
        highest: Highest,
    }

    impl Ends {
        fn new(suite: Suite) -> (Ends, Vec<Vec<u8>>) {
            let epoch = EpochKeys::new(3, "post");
            let (mut seals, mut keys) = (Keys::to_seal(suite.cipher()), Keys::to_open(suite.cipher()));
            let (mut sender, mut receiver) = (Sender::new(1200, 4).unwrap(), Receiver::new(Receiver::MIN_PROTECTED).unwrap());
            epoch.add_to(&mut seals, suite, 3).unwrap();
            epoch.add_to(&mut keys, suite, 3).unwrap();
            epoch.key_send(&mut sender, suite, 3).unwrap();
            epoch.key_receive(&mut receiver, suite, 3).unwrap();
            receiver.enable_peer_encryption();
            let datagrams = (0..50).map(|_| {
                (0..16).for_each(|_| sender.send(3, APPLICATION_DATA, b"14.2 kWh").unwrap());
                sender.seal(&mut seals).unwrap();
                sender.take_in_place().unwrap().unwrap().to_vec()
            });
            let datagrams = datagrams.collect();
            (Ends { keys, receiver, highest: Highest::default() }, datagrams)
        }

        /// How many records of a datagram are handed over and seen, and how far below the highest the others are.
        fn read(&mut self, datagram: &[u8]) -> (usize, usize, Vec<u64>) {
            let (mut bytes, mut idle) = (datagram.to_vec(), Sender::new(1200, 1).unwrap());
            let (mut handed, mut seen, mut too_old) = (0, 0, Vec::new());
            for (place, reading) in self.receiver.read(&mut bytes, &mut self.keys, &mut idle).unwrap().enumerate() {
                self.highest.note(&reading);
                match reading {
                    Reading::ApplicationData { .. } => handed += 1,
                    Reading::Dropped(Refusal::Seen) => seen += 1,
                    Reading::Dropped(Refusal::TooOld) => too_old.push((place, self.highest)),
                    other => panic!("{other:?}"),
                }
            }
            (handed, seen, distances(&bytes, &too_old))
        }
    }

    /// The library's drops and the distances that the datagrams tell: 64 is the least.
    #[test]
    fn distances_are_those_of_the_numbers() {
        for suite in [Suite::Aes, Suite::ChaCha] {
            let (mut ends, datagrams) = Ends::new(suite);
            assert_eq!(ends.read(&datagrams[0]), (16, 0, vec![]));
            assert_eq!(ends.read(&datagrams[4]), (16, 0, vec![]));
            // The highest is 79: 0 to 15 are 79 to 64 below it, and used; 16 is 63 below it.
            assert_eq!(ends.read(&datagrams[0]), (0, 0, (64..=79).rev().collect()));
            assert_eq!(ends.read(&datagrams[1]), (16, 0, vec![]));
            assert_eq!(ends.read(&datagrams[1]), (0, 16, vec![]));
            assert_eq!(ends.read(&datagrams[49]), (16, 0, vec![]));
            for (place, nearest) in [(45, 64), (41, 128), (17, 512), (0, 784)] {
                assert_eq!(ends.read(&datagrams[place]), (0, 0, (nearest..nearest + 16).rev().collect()));
            }
        }
    }

    #[test]
    fn a_record_opened_before_counts_and_one_behind_does_not() {
        let (mut ends, datagrams) = Ends::new(Suite::Aes);
        // The first records of these datagrams in one.
        let firsts = |places: &[usize]| -> Vec<u8> {
            places.iter().flat_map(|place| &datagrams[*place][..datagrams[*place].len() / 16]).copied().collect()
        };
        assert_eq!(ends.read(&firsts(&[0, 6, 1])), (2, 0, vec![80]));
        assert_eq!(ends.read(&firsts(&[0, 6, 1])), (0, 1, vec![96, 80]));
        assert_eq!(ends.read(&firsts(&[1, 7, 1])), (1, 0, vec![80, 96]));
    }

    #[test]
    fn the_distance_goes_by_the_bytes_that_there_are() {
        let mut highest = Highest::default();
        assert_eq!(highest.above(&[0x2F, 0, 0, 0, 0]), None);
        highest.note(&Reading::ApplicationData { epoch: 3, number: 65_540, content: b"" });
        highest.note(&Reading::ApplicationData { epoch: 3, number: 65_000, content: b"" });
        highest.note(&Reading::Handshake { epoch: 0, number: 70_000, content: b"" });
        assert_eq!(highest.above(&[0x2F, 0xFF, 0xC4, 0, 0]), Some(64));
        assert_eq!(highest.above(&[0x27, 0xC4, 0, 0]), Some(64));
        assert_eq!(highest.above(&[0x2E, 0xFF, 0xC4, 0, 0]), None);
        assert_eq!(highest.above(&[0x2F, 0xFF]), None);
    }
}
