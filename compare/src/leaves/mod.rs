//! The leaves: each a letter, the layout of its input and of its answer as bytes, and the inputs
//! to ask. All integers are big-endian. The driver and the sample use the same bytes.

pub mod inputs;
pub mod reference;

use crate::SeededRng;

/// Names and widths of the parts of an input or an answer; empty for plain bytes.
pub type Fields = &'static [(&'static str, usize)];

/// Takes inputs one by one.
pub type Emit<'a> = &'a mut dyn FnMut(&[u8]);

pub struct Leaf {
    pub letter: char,
    pub name: &'static str,
    /// Parts of the input; a script repeats them.
    pub input: Fields,
    /// Parts of the answer; a script repeats them.
    pub answer: Fields,
    /// How many bytes can be taken out of an input at once; 0 if its length is fixed.
    pub unit: usize,
    /// Whether the input is one that both sides answer.
    pub domain: fn(&[u8]) -> bool,
    /// The Rust's answer to an input of the domain.
    pub rust: fn(&[u8], &mut Vec<u8>),
    /// Given the Rust's answer: the place of the request that changes it, if one does. The answer is then the request's.
    pub changed: fn(&[u8], &mut Vec<u8>) -> Option<usize>,
    /// Inputs at the limits, a few dozen, each at most 100 bytes with few exceptions.
    pub limits: fn(Emit),
    /// All short inputs, shortest first.
    pub short: fn(Emit),
    /// A random input, or a damaged copy of a good one, of some `most` bytes at most.
    pub random: fn(&mut SeededRng, usize) -> Vec<u8>,
}

const RECORD: Fields = &[
    ("kind", 1),
    ("content_type", 1),
    ("epoch_bits", 1),
    ("s_flag", 1),
    ("sequence_number", 8),
    ("header_len", 2),
    ("length", 2),
];

/// The number that the Rust's signed arithmetic bears as `expected`: beyond it `expected as i64`
/// plus a distance of up to half a block would leave the range of i64.
const EXPECTED_LIMIT: u64 = (1 << 63) - (1 << 17);

/// Above this many bytes the Rust cuts the length of a sealed record that has none by `as u16`.
const DATAGRAM_LIMIT: usize = 65_535;

pub const LEAVES: &[Leaf] = &[
    Leaf {
        letter: 'w',
        name: "replay window",
        input: &[("op", 1), ("number", 8)],
        answer: &[("verdict", 1)],
        unit: 9,
        domain: |d| d.len().is_multiple_of(9) && d.chunks(9).all(|step| step[0] <= 1),
        rust: reference::window,
        changed: unchanged,
        limits: inputs::window_limits,
        short: inputs::window_short,
        random: inputs::window_random,
    },
    Leaf {
        letter: 's',
        name: "reconstruct_sequence",
        input: &[("s_flag", 1), ("partial", 8), ("expected", 8)],
        answer: &[("number", 8)],
        unit: 0,
        domain: |d| d.len() == 17 && d[0] <= 1 && be(&d[9..]) < EXPECTED_LIMIT,
        rust: reference::sequence,
        changed: reference::sequence_changed,
        limits: inputs::sequence_limits,
        short: inputs::sequence_short,
        random: inputs::sequence_random,
    },
    Leaf {
        letter: 'n',
        name: "nonce",
        input: &[],
        answer: &[],
        unit: 0,
        domain: |d| d.len() == 20,
        rust: reference::nonce,
        changed: unchanged,
        limits: inputs::nonce_limits,
        short: inputs::nonce_short,
        random: inputs::nonce_random,
    },
    Leaf {
        letter: 'p',
        name: "first record of a datagram",
        input: &[],
        answer: RECORD,
        unit: 1,
        domain: |d| d.len() <= DATAGRAM_LIMIT,
        rust: reference::first_record,
        changed: unchanged,
        limits: inputs::record_limits,
        short: inputs::record_short,
        random: inputs::record_random,
    },
    Leaf {
        letter: 'd',
        name: "all records of a datagram",
        input: &[],
        answer: RECORD,
        unit: 1,
        domain: |d| d.len() <= DATAGRAM_LIMIT,
        rust: reference::all_records,
        changed: unchanged,
        limits: inputs::datagram_limits,
        short: inputs::datagram_short,
        random: inputs::datagram_random,
    },
    Leaf {
        letter: 'q',
        name: "plaintext header written",
        input: &[("content_type", 1), ("sequence_number", 8), ("length", 2)],
        answer: &[],
        unit: 0,
        domain: |d| d.len() == 11,
        rust: reference::plaintext_header,
        changed: unchanged,
        limits: inputs::plaintext_limits,
        short: inputs::plaintext_short,
        random: inputs::plaintext_random,
    },
    Leaf {
        letter: 'u',
        name: "unified header written",
        input: &[("epoch", 2), ("sequence_number", 8), ("length", 2)],
        answer: &[],
        unit: 0,
        // In epoch 0 the Rust writes a plaintext header.
        domain: |d| d.len() == 12 && be(&d[..2]) != 0,
        rust: reference::unified_header,
        changed: unchanged,
        limits: inputs::unified_limits,
        short: inputs::unified_short,
        random: inputs::unified_random,
    },
    Leaf {
        letter: 'h',
        name: "handshake header written",
        input: &[
            ("msg_type", 1),
            ("length", 4),
            ("message_seq", 2),
            ("fragment_offset", 4),
            ("fragment_length", 4),
        ],
        answer: &[],
        unit: 0,
        domain: |d| d.len() == 15,
        rust: reference::handshake_header,
        changed: unchanged,
        limits: inputs::handshake_limits,
        short: inputs::handshake_short,
        random: inputs::handshake_random,
    },
    Leaf {
        letter: 'g',
        name: "handshake header read",
        input: &[],
        answer: &[
            ("found", 1),
            ("msg_type", 1),
            ("length", 3),
            ("message_seq", 2),
            ("fragment_offset", 3),
            ("fragment_length", 3),
        ],
        unit: 1,
        domain: |d| d.len() <= DATAGRAM_LIMIT,
        rust: reference::parse_handshake_header,
        changed: unchanged,
        limits: inputs::parse_handshake_limits,
        short: inputs::parse_handshake_short,
        random: inputs::parse_handshake_random,
    },
    Leaf {
        letter: 't',
        name: "inner content type",
        input: &[],
        answer: &[("found", 1), ("content_type", 1), ("length", 2)],
        unit: 1,
        domain: |d| d.len() <= DATAGRAM_LIMIT,
        rust: reference::inner_content_type,
        changed: unchanged,
        limits: inputs::inner_limits,
        short: inputs::inner_short,
        random: inputs::inner_random,
    },
];

/// No request changes an answer of the leaf.
fn unchanged(_: &[u8], _: &mut Vec<u8>) -> Option<usize> {
    None
}

/// What stands in the eight or fewer bytes.
pub fn be(bytes: &[u8]) -> u64 {
    bytes
        .iter()
        .fold(0, |value, byte| value << 8 | *byte as u64)
}

/// Writes `value` in `width` bytes. A value that does not fit makes the answer longer, so that it
/// equals no other.
pub fn put(out: &mut Vec<u8>, width: usize, value: u64) {
    let bytes = value.to_be_bytes();
    let fits = bytes[..8 - width].iter().all(|byte| *byte == 0);
    out.extend_from_slice(if fits { &bytes[8 - width..] } else { &bytes });
}

/// One record of a datagram, or its end.
#[derive(Debug, Clone, Copy, Default, PartialEq, Eq)]
pub struct Cut {
    pub kind: u8,
    pub content_type: u8,
    pub epoch_bits: u8,
    pub s_flag: u8,
    pub sequence_number: u64,
    pub header_len: usize,
    pub length: usize,
}

/// The datagram ends here.
pub const END: u8 = 0;
/// Header or length runs beyond the bytes.
pub const BEYOND: u8 = 1;
/// A plaintext record whose type, version or epoch is not allowed.
pub const REFUSED: u8 = 2;
/// A plaintext record.
pub const PLAIN: u8 = 3;
/// A sealed record.
pub const SEALED: u8 = 4;
/// Only in a list of records: a seventeenth plaintext record is left.
pub const SEVENTEENTH: u8 = 5;

impl Leaf {
    /// The answer to hold the Rattle to: the Rust's, or that of a request that changes it, and then the request's place.
    pub fn expected(&self, input: &[u8], out: &mut Vec<u8>) -> Option<usize> {
        (self.rust)(input, out);
        (self.changed)(input, out)
    }
}

impl Cut {
    pub fn of(kind: u8) -> Self {
        Cut {
            kind,
            ..Cut::default()
        }
    }

    pub fn put(&self, out: &mut Vec<u8>) {
        out.extend_from_slice(&[self.kind, self.content_type, self.epoch_bits, self.s_flag]);
        put(out, 8, self.sequence_number);
        put(out, 2, self.header_len as u64);
        put(out, 2, self.length as u64);
    }
}

/// Bytes in lowercase hexadecimal.
pub fn hex(bytes: &[u8]) -> String {
    bytes.iter().map(|byte| format!("{byte:02x}")).collect()
}

/// The same bytes by name, where they have names: a line for each round of the fields.
pub fn named(fields: Fields, bytes: &[u8]) -> Vec<String> {
    let mut lines = Vec::new();
    let mut rest = bytes;
    while !fields.is_empty() && !rest.is_empty() {
        let mut parts = Vec::new();
        for (name, width) in fields {
            let (part, after) = rest.split_at(rest.len().min(*width));
            rest = after;
            parts.push(format!("{name} {}", be(part)));
        }
        lines.push(parts.join(", "));
    }
    lines
}
