//! The inputs of each leaf: at the limits, all short ones, random and damaged ones.

use super::Emit;
use crate::SeededRng;

/// Limits of numbers and lengths.
const LIMITS: [u64; 12] = [
    0,
    64,
    128,
    256,
    16_384,
    32_768,
    65_536,
    1 << 24,
    1 << 32,
    1 << 48,
    1 << 63,
    u64::MAX,
];

/// One below, at and one above each limit, smallest first; the same number may come twice.
fn around() -> Vec<u64> {
    let mut numbers: Vec<u64> = LIMITS
        .iter()
        .flat_map(|n| [n.saturating_sub(1), *n, n.saturating_add(1)])
        .collect();
    numbers.dedup();
    numbers
}

pub fn below(rng: &mut SeededRng, bound: u64) -> u64 {
    rng.random::<u64>() % bound
}

fn pick<T: Copy>(rng: &mut SeededRng, from: &[T]) -> T {
    from[below(rng, from.len() as u64) as usize]
}

/// A number near a limit, a small one, one of any width, or one near a block's bound.
fn number(rng: &mut SeededRng) -> u64 {
    let away = below(rng, 5);
    match below(rng, 8) {
        0..=2 => pick(rng, &LIMITS).wrapping_add(away).wrapping_sub(2),
        3 => below(rng, 300),
        4 | 5 => {
            let width = 48 - below(rng, 48);
            let block = rng.random::<u64>() % (1 << width);
            let bound = pick(rng, &[128, 256, 32_768, 65_536]);
            (block * bound).wrapping_add(away).wrapping_sub(2)
        }
        _ => rng.random::<u64>() >> below(rng, 64),
    }
}

fn bytes(rng: &mut SeededRng, length: usize) -> Vec<u8> {
    match below(rng, 4) {
        0 => vec![pick(rng, &[0, 1, 255]); length],
        _ => (0..length).map(|_| rng.random::<u64>() as u8).collect(),
    }
}

/// All slices of `length` bytes over an alphabet.
fn slices(alphabet: &[u8], length: usize, emit: Emit) {
    let mut places = vec![0; length];
    loop {
        let slice: Vec<u8> = places.iter().map(|place| alphabet[*place]).collect();
        emit(&slice);
        let Some(at) = places.iter().rposition(|p| *p + 1 < alphabet.len()) else {
            return;
        };
        places[at] += 1;
        places[at + 1..].fill(0);
    }
}

fn every_byte() -> Vec<u8> {
    (0..=255).collect()
}

/// Each byte of `base` set to every value.
fn each_byte(base: &[u8], emit: Emit) {
    let mut input = base.to_vec();
    for at in 0..base.len() {
        for value in 0..=255 {
            input[at] = value;
            emit(&input);
        }
        input[at] = base[at];
    }
}

/// Each two neighbours of `base` set to every value of a small alphabet.
fn each_pair(base: &[u8], emit: Emit) {
    let mut input = base.to_vec();
    for at in 1..base.len() {
        for pair in 0..64 {
            let value = |n: usize| [0, 1, 15, 16, 127, 128, 254, 255][n];
            (input[at - 1], input[at]) = (value(pair / 8), value(pair % 8));
            emit(&input);
        }
        (input[at - 1], input[at]) = (base[at - 1], base[at]);
    }
}

/// Up to three of: a bit turned, a byte set, bytes taken out, cut off, put in or added.
fn damage(rng: &mut SeededRng, input: &mut Vec<u8>) {
    for _ in 0..below(rng, 4) {
        let length = input.len() as u64;
        if length == 0 {
            return;
        }
        // Headers stand in front: half of the damage goes there.
        let reach = pick(rng, &[length.min(16), length]);
        let at = below(rng, reach) as usize;
        match below(rng, 6) {
            0 => input[at] ^= 1 << below(rng, 8),
            1 => input[at] = pick(rng, &[0, 1, 0x16, 0x20, 0x2C, 0x30, 0x3F, 0xFE, 0xFF]),
            2 => _ = input.remove(at),
            3 => input.truncate(at),
            4 => input.insert(at, rng.random::<u64>() as u8),
            _ => {
                let more = below(rng, 20) as usize;
                let more = bytes(rng, more);
                input.extend_from_slice(&more);
            }
        }
    }
}

// The window.

const CHECK: u8 = 0;
const UPDATE: u8 = 1;

fn step(script: &mut Vec<u8>, op: u8, number: u64) {
    script.push(op);
    script.extend_from_slice(&number.to_be_bytes());
}

fn script(steps: &[(u8, u64)]) -> Vec<u8> {
    let mut script = Vec::new();
    for (op, number) in steps {
        step(&mut script, *op, *number);
    }
    script
}

pub fn window_limits(emit: Emit) {
    emit(&[]);
    emit(&script(&[(CHECK, 0)]));
    emit(&script(&[(UPDATE, 0), (CHECK, 0), (CHECK, 1)]));
    emit(&script(&[(UPDATE, 100), (CHECK, 37), (CHECK, 36)]));
    emit(&script(&[
        (UPDATE, 5),
        (UPDATE, 68),
        (CHECK, 5),
        (CHECK, 4),
    ]));
    // A jump by 62 to 65 and 127 to 129, seen at both ends of the window.
    for delta in [1, 2, 62, 63, 64, 65, 127, 128, 129] {
        emit(&script(&[
            (UPDATE, 7),
            (UPDATE, 7 + delta),
            (CHECK, 7),
            (CHECK, 8),
            (CHECK, 6 + delta),
            (CHECK, 7 + delta),
            (CHECK, 8 + delta),
            (CHECK, (7 + delta).saturating_sub(63)),
            (CHECK, (7 + delta).saturating_sub(64)),
        ]));
    }
    // Numbers below the highest, marked late.
    for back in [0, 1, 62, 63, 64, 65] {
        emit(&script(&[
            (UPDATE, 1000),
            (CHECK, 1000 - back),
            (UPDATE, 1000 - back),
            (CHECK, 1000 - back),
            (CHECK, 1001 - back),
            (CHECK, 999 - back),
        ]));
    }
    for n in around() {
        emit(&script(&[
            (UPDATE, n),
            (CHECK, n.saturating_sub(64)),
            (CHECK, n.saturating_sub(63)),
            (CHECK, n.saturating_sub(1)),
            (CHECK, n),
            (CHECK, n.saturating_add(1)),
            (CHECK, 0),
            (CHECK, u64::MAX),
        ]));
    }
}

pub fn window_short(emit: Emit) {
    const NUMBERS: [u64; 15] = [
        0,
        1,
        2,
        3,
        62,
        63,
        64,
        65,
        66,
        126,
        127,
        128,
        129,
        130,
        1 << 48,
    ];
    let alphabet: Vec<u8> = (0..2 * NUMBERS.len() as u8).collect();
    for length in 0..=3 {
        slices(&alphabet, length, &mut |word| {
            let mut steps = Vec::new();
            for c in word {
                step(&mut steps, c % 2, NUMBERS[*c as usize / 2]);
            }
            emit(&steps);
        });
    }
    // Every order of up to four updates, then every number asked.
    for length in 0..=4 {
        slices(&alphabet[..NUMBERS.len()], length, &mut |word| {
            let mut steps = Vec::new();
            for c in word {
                step(&mut steps, UPDATE, NUMBERS[*c as usize]);
            }
            for number in NUMBERS {
                step(&mut steps, CHECK, number);
            }
            emit(&steps);
        });
    }
}

pub fn window_random(rng: &mut SeededRng, most: usize) -> Vec<u8> {
    let mut steps = Vec::new();
    // Keep room to look at the whole window at the end, if there is any.
    let ends = if most >= 1_000 { 70 } else { 0 };
    let count = 1 + below(rng, (most / 9 - ends).min(60) as u64);
    let base = if below(rng, 2) == 0 { 0 } else { number(rng) };
    let mut highest = 0;
    for _ in 0..count {
        let from = highest.max(base);
        let n = match below(rng, 24) {
            0..=8 => from.saturating_add(1 + below(rng, 3)),
            9..=11 => from.saturating_add(pick(rng, &[62, 63, 64, 65, 127, 128])),
            12..=18 => from.saturating_sub(below(rng, 67)),
            19..=22 => from.saturating_sub(pick(rng, &[62, 63, 64, 65])),
            _ => number(rng),
        };
        let checks = if ends == 0 { 2 } else { 3 };
        let op = if below(rng, checks) == 0 {
            CHECK
        } else {
            UPDATE
        };
        step(&mut steps, op, n);
        if op == UPDATE {
            highest = highest.max(n);
        }
    }
    for back in 0..ends as u64 {
        let asked = highest.saturating_add(2).saturating_sub(back);
        step(&mut steps, CHECK, asked);
    }
    steps
}

// Number rebuilding.

fn rebuild(s_flag: u8, partial: u64, expected: u64) -> [u8; 17] {
    let mut input = [s_flag; 17];
    input[1..9].copy_from_slice(&partial.to_be_bytes());
    input[9..].copy_from_slice(&expected.to_be_bytes());
    input
}

pub fn sequence_limits(emit: Emit) {
    for (s_flag, partial, expected) in [
        (1, 65_535, 65_540),
        (1, 3, 65_530),
        (0, 138, 266),
        (0, 72, 200),
        (0, 128, 0),
        (0, 200, 0),
        (0, 0, 0),
        (0, 255, 0),
        (1, 0, 0),
        (1, 32_768, 0),
        (1, 32_769, 0),
        (1, 65_535, 0),
        (0, 127, 255),
        (0, 126, 255),
        (0, 0, 127),
        (0, 0, 128),
        (0, 0, 129),
        (0, 255, 126),
        (0, 255, 127),
        (0, 255, 128),
        (0, 0, 384),
        (0, 0, 385),
        (1, 32_767, 65_535),
        (1, 32_766, 65_535),
        (1, 0, 32_767),
        (1, 0, 32_768),
        (1, 0, 32_769),
        (1, 65_535, 32_766),
        (1, 65_535, 32_767),
        (1, 65_535, 32_768),
        (1, 0, 98_304),
        (1, 0, 98_305),
        (0, 255, (1 << 48) - 1),
        (0, 0, (1 << 48) - 1),
        (1, 65_535, (1 << 48) - 1),
        (1, 0, (1 << 48) - 1),
        (0, 255, 1 << 48),
        (1, 65_535, 1 << 48),
        (1, 32_768, 1 << 48),
        (0, 256, 0),
        (1, 65_536, 65_536),
        (0, u64::MAX, 1_000),
        (1, u64::MAX, 100_000),
        // Where the nearest number may be negative.
        (0, 129, 0),
        (0, 129, 1),
        (0, 130, 1),
        (0, 65_535, 126),
        (1, 40_000, 0),
        (1, 32_769, 1),
        (1, 32_770, 1),
        (1, 98_305, 0),
    ] {
        emit(&rebuild(s_flag, partial, expected));
    }
}

pub fn sequence_short(emit: Emit) {
    for expected in 0..=1024 {
        for partial in 0..256 {
            emit(&rebuild(0, partial, expected));
        }
    }
    // Around the bounds and middles of blocks, up to 2^48 and beyond.
    for (s_flag, block) in [(0, 256u64), (1, 65_536)] {
        for width in [0, 1, 2, 8, 16, 24, 32, 40, 46] {
            for middle in [0, block / 2, block] {
                let bound = ((1u64 << width) - 1) * block + middle;
                for expected in bound.saturating_sub(3)..=bound + 3 {
                    for partial in 0..block {
                        emit(&rebuild(s_flag, partial, expected));
                    }
                }
            }
        }
    }
}

pub fn sequence_random(rng: &mut SeededRng, _: usize) -> Vec<u8> {
    let s_flag = below(rng, 2) as u8;
    let block = if s_flag == 1 { 65_536 } else { 256 };
    let expected = number(rng) % super::EXPECTED_LIMIT;
    let partial = match below(rng, 4) {
        0 => expected.wrapping_add(below(rng, 9)).wrapping_sub(4) % block,
        1 => {
            expected
                .wrapping_add(block / 2 + below(rng, 5))
                .wrapping_sub(2)
                % block
        }
        2 => below(rng, block),
        _ => number(rng),
    };
    rebuild(s_flag, partial, expected).to_vec()
}

// The nonce.

fn nonce(iv: &[u8], number: u64) -> Vec<u8> {
    [iv, &number.to_be_bytes()].concat()
}

const IVS: [[u8; 12]; 4] = [
    [0; 12],
    [255; 12],
    [0, 1, 2, 3, 4, 5, 6, 7, 8, 9, 10, 11],
    [
        0x5D, 0x80, 0x01, 0xFE, 0x7F, 0x10, 0xAA, 0x55, 0xC3, 0x3C, 0x00, 0xFF,
    ],
];

pub fn nonce_limits(emit: Emit) {
    for (i, n) in around().into_iter().enumerate() {
        emit(&nonce(&IVS[i % 4], n));
    }
    for iv in &IVS {
        emit(&nonce(iv, 0x0102_0304_0506_0708));
        emit(&nonce(iv, u64::MAX));
    }
}

pub fn nonce_short(emit: Emit) {
    for iv in &IVS {
        for n in [0, u64::MAX, 0x0102_0304_0506_0708] {
            each_byte(&nonce(iv, n), emit);
            each_pair(&nonce(iv, n), emit);
        }
        for n in 0..=65_536 {
            emit(&nonce(iv, n));
        }
    }
}

pub fn nonce_random(rng: &mut SeededRng, _: usize) -> Vec<u8> {
    let iv = bytes(rng, 12);
    nonce(&iv, number(rng))
}

// Records and datagrams.

/// A plaintext record with the length field `length`, whatever the body.
fn plain(t: u8, version: u16, epoch: u16, number: u64, length: usize, body: &[u8]) -> Vec<u8> {
    let mut record = vec![t];
    record.extend_from_slice(&version.to_be_bytes());
    record.extend_from_slice(&epoch.to_be_bytes());
    record.extend_from_slice(&number.to_be_bytes()[2..]);
    record.extend_from_slice(&(length as u16).to_be_bytes());
    record.extend_from_slice(body);
    record
}

/// A sealed record with the length field `length`, if its flags have one.
fn sealed(flags: u8, number: u16, length: usize, body: &[u8]) -> Vec<u8> {
    let mut record = vec![flags];
    if flags & 0x08 != 0 {
        record.push((number >> 8) as u8);
    }
    record.push(number as u8);
    if flags & 0x04 != 0 {
        record.extend_from_slice(&(length as u16).to_be_bytes());
    }
    record.extend_from_slice(body);
    record
}

pub fn record_limits(emit: Emit) {
    emit(&[]);
    // Lone first bytes.
    for first in [0x00, 0x16, 0x1F, 0x20, 0x2F, 0x30, 0x3F, 0x40, 0xFF] {
        emit(&[first]);
    }
    // Plaintext: types, versions, epochs, numbers, lengths.
    for t in [0, 20, 21, 22, 23, 24, 25, 26, 27, 0x1F, 0x40, 255] {
        emit(&plain(t, 0xFEFD, 0, 1, 2, &[7, 9]));
    }
    for version in [0xFEFF, 0xFEFC, 0xFEFE, 0xFEFB, 0xFFFD, 0x0303, 0] {
        emit(&plain(22, version, 0, 1, 2, &[7, 9]));
    }
    for epoch in [1, 2, 256, 65_535] {
        emit(&plain(21, 0xFEFD, epoch, 1, 2, &[2, 40]));
    }
    for number in [0, 255, 256, (1 << 48) - 1] {
        emit(&plain(26, 0xFEFF, 0, number, 2, &[0, 0]));
    }
    for (length, body) in [(0, 0), (1, 0), (3, 2), (2, 3), (256, 80), (65_535, 80)] {
        emit(&plain(22, 0xFEFD, 0, 5, length, &[0x22; 80][..body]));
    }
    for length in [12, 13, 14] {
        emit(&plain(22, 0xFEFD, 0, 5, 1, &[1])[..length]);
        emit(&plain(99, 0xFEFD, 0, 5, 1, &[1])[..length]);
    }
    // Sealed: each set of flags with a protected part, with none, and with a header cut short;
    // then lengths.
    for flags in 0x20..0x30 {
        emit(&sealed(flags, 0x1234, 17, &[flags; 17]));
        let header = sealed(flags, 0x00FF, 0, &[]);
        let short = if flags & 3 == 2 { 1 } else { 0 };
        emit(&header[..header.len() - short]);
    }
    for length in [16, 18, 255, 65_535] {
        emit(&sealed(0x2E, 0xFFFF, length, &[0xAB; 17]));
    }
    emit(&sealed(0x32, 1, 17, &[1; 17]));
    // Two records, of which the first counts.
    emit(&[sealed(0x2D, 7, 17, &[1; 17]), sealed(0x22, 8, 0, &[2; 20])].concat());
    emit(&[plain(26, 0xFEFD, 0, 2, 2, &[0, 0]), vec![0x20]].concat());
    // Longer ones.
    emit(&sealed(0x23, 9, 0, &[3; 400]));
    emit(&plain(22, 0xFEFD, 0, 9, 256, &[5; 256]));
}

pub fn record_short(emit: Emit) {
    let all = every_byte();
    for length in 0..=2 {
        slices(&all, length, emit);
    }
    for first in 0x20..=0x3F {
        slices(&all, 2, &mut |rest| emit(&[first, rest[0], rest[1]]));
    }
    // Every first byte with every length around both headers.
    for length in 1..=20 {
        for fill in [0, 1, 2, 22, 0xFD, 0xFE, 0xFF] {
            for first in 0..=255 {
                let mut record = vec![fill; length];
                record[0] = first;
                emit(&record);
            }
        }
    }
    // Every first byte over each version, epoch, number and length.
    let versions = [0xFEFD, 0xFEFF, 0xFEFC, 0xFEFE, 0xFFFD, 0xFDFE, 0x0303, 0];
    for body in 0..=3usize {
        for length in body.saturating_sub(1)..=body + 1 {
            for first in 0..=255 {
                for version in versions {
                    for epoch in [0, 1, 2, 256, 65_535] {
                        for number in [0, 1, (1 << 48) - 1] {
                            let bytes = &[0, 23, 255][..body];
                            emit(&plain(first, version, epoch, number, length, bytes));
                        }
                    }
                }
            }
        }
    }
    for flags in 0x20..=0x3F {
        for body in [0usize, 1, 2, 3, 4, 15, 16, 17, 18] {
            for length in body.saturating_sub(2)..=body + 2 {
                for number in [0, 1, 127, 128, 255, 256, 0x0180, 0xFF00, 0xFFFF] {
                    for fill in [0, 1, 255] {
                        let record = sealed(flags, number, length, &vec![fill; body]);
                        emit(&record);
                        for cut in 1..record.len().min(6) {
                            emit(&record[..cut]);
                        }
                    }
                }
            }
        }
    }
    // Every version, epoch and length field.
    for value in 0..=65_535 {
        for t in [21, 22, 26, 23] {
            emit(&plain(t, value, 0, 0, 0, &[]));
            emit(&plain(t, 0xFEFD, value, 0, 0, &[]));
            emit(&plain(t, 0xFEFF, 0, 0, value as usize, &[1; 20]));
        }
        for flags in 0x20..=0x2F {
            emit(&sealed(flags, value, 3, &[1; 4]));
            emit(&sealed(flags, 0x0102, value as usize, &[2; 20]));
        }
    }
    // Lengths around the limits, up to the longest datagram and beyond it.
    for limit in [64, 128, 256, 1_500, 16_371, 16_379, 16_384, 32_768, 65_500] {
        for body in limit - 1..=limit + 1 {
            let bytes = vec![0x2C; body];
            for length in body - 1..=body + 1 {
                emit(&plain(22, 0xFEFD, 0, 3, length, &bytes));
                for flags in 0x20..=0x2F {
                    emit(&sealed(flags, 3, length, &bytes));
                }
            }
        }
    }
}

/// Good records one after the other; the last may have no length.
fn datagram(rng: &mut SeededRng, records: u64, most: usize) -> Vec<u8> {
    let mut datagram = Vec::new();
    for left in (0..1 + below(rng, records)).rev() {
        let room = most.saturating_sub(datagram.len() + 13);
        let length = match below(rng, 40) {
            0 => number(rng) as usize % 16_500,
            1..=4 => below(rng, 300) as usize,
            _ => below(rng, 24) as usize,
        };
        let body = bytes(rng, length.min(room));
        if below(rng, 3) == 0 {
            let t = pick(rng, &[21, 22, 26, 22, 26, 23]);
            let version = pick(rng, &[0xFEFD, 0xFEFD, 0xFEFF]);
            let record = plain(t, version, 0, number(rng), body.len(), &body);
            datagram.extend_from_slice(&record);
        } else {
            let flags = 0x20 | below(rng, 16) as u8 | if left > 0 { 0x04 } else { 0 };
            let number = number(rng) as u16;
            datagram.extend_from_slice(&sealed(flags, number, body.len(), &body));
        }
    }
    datagram
}

pub fn record_random(rng: &mut SeededRng, most: usize) -> Vec<u8> {
    let mut input = datagram(rng, 2, most);
    damage(rng, &mut input);
    input
}

pub fn datagram_limits(emit: Emit) {
    // Fifteen to eighteen records of each kind and mixed.
    let kinds = [
        plain(22, 0xFEFD, 0, 1, 1, &[1]),
        plain(99, 0xFEFD, 0, 1, 1, &[1]),
        sealed(0x2E, 1, 17, &[1; 17]),
        sealed(0x25, 1, 0, &[]),
    ];
    for count in 15..=18 {
        for kind in &kinds {
            emit(&kind.repeat(count));
        }
        let mixed: Vec<Vec<u8>> = (0..2 * count).map(|i| kinds[i % 4].clone()).collect();
        emit(&mixed.concat());
        let end = [kinds[0].repeat(count), vec![0x30]].concat();
        emit(&end);
        emit(&end[..end.len() - 2]);
    }
}

pub fn datagram_short(emit: Emit) {
    // Every row of up to five small records and ends.
    let parts = [
        plain(26, 0xFEFF, 0, 7, 0, &[]),
        plain(22, 0xFEFD, 0, 7, 1, &[1]),
        plain(22, 0xFEFD, 1, 7, 1, &[1]),
        sealed(0x24, 7, 1, &[1]),
        sealed(0x2F, 7, 2, &[1, 2]),
        sealed(0x2A, 7, 0, &[1, 2]),
        vec![0x34],
        vec![0x16],
        vec![0x20],
    ];
    let alphabet: Vec<u8> = (0..parts.len() as u8).collect();
    for length in 0..=5 {
        slices(&alphabet, length, &mut |row| {
            let row: Vec<&[u8]> = row.iter().map(|i| &parts[*i as usize][..]).collect();
            emit(&row.concat());
        });
    }
}

pub fn datagram_random(rng: &mut SeededRng, most: usize) -> Vec<u8> {
    let records = pick(rng, &[3, 8, 40]);
    let mut input = datagram(rng, records, most);
    damage(rng, &mut input);
    input
}

// Headers written.

const LENGTHS: [u16; 11] = [0, 1, 2, 17, 255, 256, 257, 32_767, 32_768, 65_534, 65_535];

pub fn plaintext_limits(emit: Emit) {
    for (i, number) in around().into_iter().enumerate() {
        let t = [21, 22, 26, 0, 255][i % 5];
        emit(&plaintext(t, number, LENGTHS[i % 11]));
    }
    for (i, length) in LENGTHS.into_iter().enumerate() {
        emit(&plaintext([22, 26, 21][i % 3], i as u64, length));
    }
    for t in [0, 20, 21, 22, 23, 26, 127, 128, 255] {
        emit(&plaintext(t, 0x0102_0304_0506, 0x0708));
    }
}

fn plaintext(t: u8, number: u64, length: u16) -> Vec<u8> {
    [&[t][..], &number.to_be_bytes(), &length.to_be_bytes()].concat()
}

pub fn plaintext_short(emit: Emit) {
    for t in 0..=255 {
        for number in around() {
            for length in LENGTHS {
                emit(&plaintext(t, number, length));
            }
        }
    }
    for value in 0..=65_535 {
        emit(&plaintext(22, value as u64, value));
        emit(&plaintext(26, 0x0102_0304_0506_0708, value));
    }
    for base in [[0; 11], [255; 11]] {
        each_byte(&base, emit);
        each_pair(&base, emit);
    }
}

pub fn plaintext_random(rng: &mut SeededRng, _: usize) -> Vec<u8> {
    let any = rng_byte(rng);
    let t = pick(rng, &[21, 22, 26, any]);
    let (number, length) = (number(rng), number(rng) as u16);
    plaintext(t, number, length)
}

fn rng_byte(rng: &mut SeededRng) -> u8 {
    rng.random::<u64>() as u8
}

fn unified(epoch: u16, number: u64, length: u16) -> Vec<u8> {
    [
        &epoch.to_be_bytes()[..],
        &number.to_be_bytes(),
        &length.to_be_bytes(),
    ]
    .concat()
}

pub fn unified_limits(emit: Emit) {
    for (i, number) in around().into_iter().enumerate() {
        emit(&unified([2, 3, 4, 5, 7][i % 5], number, LENGTHS[i % 11]));
    }
    for (i, length) in LENGTHS.into_iter().enumerate() {
        emit(&unified([3, 2][i % 2], i as u64, length));
    }
    for epoch in [
        1, 2, 3, 4, 5, 6, 7, 255, 256, 257, 65_532, 65_533, 65_534, 65_535,
    ] {
        emit(&unified(epoch, 0x0102_0304_0506, 0x0708));
    }
}

pub fn unified_short(emit: Emit) {
    for epoch in (1..=260).chain(65_530..=65_535) {
        for number in around() {
            for length in LENGTHS {
                emit(&unified(epoch, number, length));
            }
        }
    }
    for value in 0..=65_535 {
        if value > 0 {
            emit(&unified(value, 0x0102, 0x0304));
        }
        emit(&unified(2, value as u64, 17));
        emit(&unified(3, 0x0102_0304_0506_0708, value));
    }
    each_byte(&unified(1, 0, 0), &mut |input| {
        if input[..2] != [0, 0] {
            emit(input);
        }
    });
    each_byte(&[255; 12], emit);
    each_pair(&[255; 12], &mut |input| {
        if input[..2] != [0, 0] {
            emit(input);
        }
    });
}

pub fn unified_random(rng: &mut SeededRng, _: usize) -> Vec<u8> {
    let any = 1 + below(rng, 65_535) as u16;
    let epoch = pick(rng, &[2, 3, 7, any]);
    let (number, length) = (number(rng), number(rng) as u16);
    unified(epoch, number, length)
}

fn handshake(t: u8, length: u32, seq: u16, offset: u32, piece: u32) -> Vec<u8> {
    [
        &[t][..],
        &length.to_be_bytes(),
        &seq.to_be_bytes(),
        &offset.to_be_bytes(),
        &piece.to_be_bytes(),
    ]
    .concat()
}

const SIZES: [u32; 16] = [
    0,
    1,
    255,
    256,
    257,
    542,
    16_383,
    16_384,
    16_385,
    65_535,
    65_536,
    65_537,
    (1 << 24) - 1,
    1 << 24,
    (1 << 24) + 1,
    u32::MAX,
];

pub fn handshake_limits(emit: Emit) {
    for (i, size) in SIZES.into_iter().enumerate() {
        let t = [1, 2, 8, 11, 20, 24][i % 6];
        emit(&handshake(t, size, i as u16, 0, size));
        emit(&handshake(t, SIZES[15 - i], 0, size, 0));
        emit(&handshake(t, 1_000, 65_535 - i as u16, 542, size));
    }
    for t in [0, 1, 2, 4, 8, 11, 13, 15, 20, 24, 127, 128, 254, 255] {
        emit(&handshake(t, 0x01_02_03, 0x0405, 0x06_07_08, 0x09_0A_0B));
    }
    for seq in [0, 1, 255, 256, 257, 32_767, 32_768, 65_534, 65_535] {
        emit(&handshake(20, 32, seq, 0, 32));
    }
}

pub fn handshake_short(emit: Emit) {
    for t in [0, 1, 20, 255] {
        for length in SIZES {
            for seq in [0, 1, 255, 256, 65_535] {
                for offset in SIZES {
                    for piece in SIZES {
                        emit(&handshake(t, length, seq, offset, piece));
                    }
                }
            }
        }
    }
    for value in 0..=65_535 {
        emit(&handshake(11, 1, value, 2, 3));
        let size = value as u32;
        emit(&handshake(11, size, 1, size * 256, size * 65_537));
    }
    for base in [[0; 15], [255; 15]] {
        each_byte(&base, emit);
        each_pair(&base, emit);
    }
}

pub fn handshake_random(rng: &mut SeededRng, _: usize) -> Vec<u8> {
    let t = rng_byte(rng);
    let mut size = || number(rng) as u32;
    let (length, offset, piece) = (size(), size(), size());
    handshake(t, length, number(rng) as u16, offset, piece)
}

// The handshake header read.

fn good_header(t: u8, length: u32, seq: u16, offset: u32, piece: u32, body: usize) -> Vec<u8> {
    let mut header = vec![t];
    header.extend_from_slice(&length.to_be_bytes()[1..]);
    header.extend_from_slice(&seq.to_be_bytes());
    header.extend_from_slice(&offset.to_be_bytes()[1..]);
    header.extend_from_slice(&piece.to_be_bytes()[1..]);
    header.resize(12 + body, 0x5A);
    header
}

pub fn parse_handshake_limits(emit: Emit) {
    let header = good_header(1, 0x01_02_03, 0x0405, 0x06_07_08, 0x09_0A_0B, 3);
    for length in 0..=15 {
        emit(&header[..length]);
    }
    for fill in [0, 255] {
        for length in [11, 12, 13] {
            emit(&[fill; 13][..length]);
        }
    }
    for (i, size) in SIZES.into_iter().enumerate() {
        let t = [1, 2, 8, 11, 20, 24][i % 6];
        emit(&good_header(t, size, i as u16, SIZES[15 - i], 5, i % 3));
        emit(&good_header(t, 1_000, 65_535 - i as u16, 5, size, 0));
    }
}

pub fn parse_handshake_short(emit: Emit) {
    for length in 0..=14 {
        for fill in [0, 1, 255] {
            emit(&vec![fill; length]);
            each_byte(&vec![fill; length], emit);
            each_pair(&vec![fill; length], emit);
        }
    }
    slices(&[0, 1, 255], 10, &mut |s| {
        emit(s);
        emit(&[s, &[7]].concat());
        emit(&[s, &[7, 9]].concat());
    });
    for limit in [64, 128, 256, 16_384, 65_534] {
        for length in limit - 1..=limit + 1 {
            emit(&good_header(
                11,
                length as u32,
                3,
                0,
                length as u32,
                length - 12,
            ));
        }
    }
}

pub fn parse_handshake_random(rng: &mut SeededRng, most: usize) -> Vec<u8> {
    let t = rng_byte(rng);
    let mut size = || number(rng) as u32;
    let (length, offset, piece) = (size(), size(), size());
    let body = below(rng, 40.min(most as u64 - 12)) as usize;
    let mut input = good_header(t, length, number(rng) as u16, offset, piece, body);
    damage(rng, &mut input);
    input
}

// The inner content type.

fn inner(content: &[u8], content_type: u8, zeros: usize) -> Vec<u8> {
    let mut inner = content.to_vec();
    inner.push(content_type);
    inner.resize(inner.len() + zeros, 0);
    inner
}

pub fn inner_limits(emit: Emit) {
    for zeros in [0, 1, 2, 3, 63, 64, 65, 100] {
        emit(&vec![0; zeros]);
    }
    for t in [1, 20, 21, 22, 23, 26, 127, 128, 255] {
        emit(&inner(&[], t, 0));
        emit(&inner(&[1, 2, 3], t, 2));
    }
    for length in [1, 15, 16, 17, 63, 64, 65] {
        for zeros in [0, 1, 16] {
            emit(&inner(&vec![0xC3; length], 23, zeros));
        }
    }
    // Zeros inside the content.
    emit(&inner(&[0], 22, 0));
    emit(&inner(&[0, 0], 22, 1));
    emit(&inner(&[5, 0, 0], 22, 3));
    emit(&inner(&[0, 23, 0, 0], 26, 1));
    emit(&inner(&[7; 256], 23, 44));
}

pub fn inner_short(emit: Emit) {
    let all = every_byte();
    for length in 0..=2 {
        slices(&all, length, emit);
    }
    for length in 0..=8 {
        slices(&[0, 1, 23, 255], length, emit);
    }
    slices(&[0, 1], 16, emit);
    for limit in [64, 128, 256, 16_384, 32_768, 65_534] {
        for length in limit - 1..=limit + 1 {
            let mut input = vec![0; length];
            emit(&input);
            for at in [0, 1, length / 2, length - 2, length - 1] {
                input[at] = 23;
                emit(&input);
                input[at] = 0;
            }
            emit(&vec![1; length]);
        }
    }
}

pub fn inner_random(rng: &mut SeededRng, most: usize) -> Vec<u8> {
    let length = match below(rng, 40) {
        0 => number(rng) % 16_500,
        1..=4 => below(rng, 300),
        _ => below(rng, 40),
    };
    let content = bytes(rng, (length as usize).min(most - 40));
    let (few, any) = (below(rng, 30) as usize, rng_byte(rng));
    let zeros = pick(rng, &[0, 0, 1, 2, few]);
    let t = pick(rng, &[21, 22, 23, 26, any]);
    let mut input = inner(&content, t, zeros);
    damage(rng, &mut input);
    input
}
