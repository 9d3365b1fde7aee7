//! A datagram cut into its records by their headers, as the library cuts it.

use std::iter;

/// Bits of a sealed record's first byte: its number has two bytes and not one, and it has a length.
pub const TWO_NUMBER_BYTES: u8 = 0x08;
const HAS_LENGTH: u8 = 0x04;

pub const PLAINTEXT_HEADER: usize = 13;

pub fn is_sealed(record: &[u8]) -> bool {
    record.first().is_some_and(|first| first & 0xE0 == 0x20)
}

/// Bytes of the first record, or none where its header is cut off.
fn length(bytes: &[u8]) -> Option<usize> {
    let flags = *bytes.first()?;
    let header = if is_sealed(bytes) {
        if flags & HAS_LENGTH == 0 {
            // It runs to the end.
            return Some(bytes.len());
        }
        4 + usize::from(flags & TWO_NUMBER_BYTES != 0)
    } else {
        PLAINTEXT_HEADER
    };
    let field = bytes.get(..header)?.last_chunk()?;
    Some(header + usize::from(u16::from_be_bytes(*field)))
}

/// The records of a datagram, each with its header, as far as they are whole.
pub fn records(mut bytes: &[u8]) -> impl Iterator<Item = &[u8]> {
    iter::from_fn(move || {
        let (record, rest) = bytes.split_at_checked(length(bytes)?)?;
        bytes = rest;
        Some(record)
    })
}

#[cfg(test)]
mod tests {
    use super::*;

    #[test]
    fn records_lie_one_behind_the_other() {
        let plaintext = [&[22, 0xFE, 0xFD, 0, 0, 0, 0, 0, 0, 0, 7, 0, 2][..], &[1, 2]].concat();
        let sealed = [&[0x2F, 0, 9, 0, 20][..], &[5; 20]].concat();
        let one_number_byte = [&[0x27, 9, 0, 20][..], &[6; 20]].concat();
        let to_the_end = [&[0x2B, 0, 9][..], &[7; 20]].concat();
        let all = [plaintext, sealed, one_number_byte, to_the_end];
        assert!(records(&all.concat()).eq(all.iter().map(|record| &record[..])));
        assert_eq!(all.map(|record| is_sealed(&record)), [false, true, true, true]);
    }

    #[test]
    fn what_is_cut_off_is_left_out() {
        let sealed = [&[0x2F, 0, 9, 0, 20][..], &[5; 20]].concat();
        for n in 0..25 {
            assert!(records(&[&sealed, &sealed[..n]].concat()).eq([&sealed[..]]));
        }
    }
}
