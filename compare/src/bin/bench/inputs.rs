//! The inputs of both sides.

pub const IV: [u8; 12] = [1, 2, 3, 4, 5, 6, 7, 8, 9, 10, 11, 12];
pub const MTU: usize = 1500;
pub const QUEUE: usize = 16;

/// Saved records of the flight that is resent and acknowledged, each a datagram of its own.
pub const FLIGHT: usize = 12;
pub const SAVED: usize = 1400;

/// How often a flight can be resent: a record remembers as many earlier numbers.
pub const RESENDS: u32 = 32;

/// Flights that the same ACK is acted on for, one after the other, before their marks are taken away.
pub const FLIGHTS: usize = 8;

/// An application record with a content of n bytes, as the cipher that does nothing seals it.
pub fn sealed(n: usize) -> Vec<u8> {
    let mut record = vec![0x2F, 0, 0];
    record.extend_from_slice(&(n as u16 + 17).to_be_bytes());
    record.resize(5 + n, 0x55);
    record.push(23);
    record.resize(5 + n + 17, 0);
    record
}

pub fn number(record: &mut [u8], i: u32) {
    record[1] = (i >> 8) as u8;
    record[2] = i as u8;
}

/// An application record of n bytes with the longest padding that they can hold: a header of two bytes, no content.
pub fn padded(n: usize) -> Vec<u8> {
    let mut record = vec![0x23, 0, 23];
    record.resize(n, 0);
    record
}

/// The number of such a record.
pub fn short_number(record: &mut [u8], i: u32) {
    record[1] = i as u8;
}

/// The content of an ACK of these numbers in epoch 2.
pub fn ack(numbers: impl Iterator<Item = u64>) -> Vec<u8> {
    let mut content = vec![0, 0];
    for number in numbers {
        content.extend_from_slice(&2u64.to_be_bytes());
        content.extend_from_slice(&number.to_be_bytes());
    }
    let length = content.len() as u16 - 2;
    content[..2].copy_from_slice(&length.to_be_bytes());
    content
}

/// An ACK of 32 for the flight after two resends: of the numbers 0 to 35 those of the last record and the greatest other are missing, so
/// that the flight stays.
pub fn ack_of_32() -> Vec<u8> {
    ack((0..36).filter(|n| n % 12 != 11).take(32))
}
