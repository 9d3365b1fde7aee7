//! Histories at the limits: each kind of reading, each reason to drop, each edge of resolution,
//! rebuilding and window.

use super::generate::Packet;
use super::*;

const LAST: u64 = (1 << 48) - 1;

fn key(epoch: u16) -> Step {
    Step::Key {
        epoch,
        iv: std::array::from_fn(|i| (epoch as u8).wrapping_mul(17) ^ i as u8),
    }
}

fn mark(epoch: u16, number: u64) -> Step {
    Step::Mark { epoch, number }
}

fn packet(make: impl FnOnce(&mut Packet)) -> Step {
    let mut packet = Packet::default();
    make(&mut packet);
    packet.step()
}

fn raw(bytes: &[u8]) -> Step {
    packet(|p| p.bytes.extend_from_slice(bytes))
}

fn alert(p: &mut Packet) {
    p.plaintext(21, 0xFEFD, 0, 7, &[1, 0]);
}

/// A sealed record with a number of 16 bits, and what it opens to; none: the cipher says no.
fn seal(p: &mut Packet, bits: u8, number: u64, text: Option<&[u8]>) {
    let mask = [0x3C, 0xC3];
    let part: Vec<u8> = (0..text.map_or(17, |text| text.len() + 16))
        .map(|i| i as u8 ^ number as u8)
        .collect();
    p.sealed(bits, true, true, number, mask, &part);
    p.reply(mask, text.map(<[u8]>::to_vec));
}

/// The same with a number of 8 bits and no length: it is the last of its datagram.
fn seal_short(p: &mut Packet, bits: u8, number: u64, text: Option<&[u8]>) {
    let mask = [0x5A, 0xFF];
    let part = vec![number as u8; text.map_or(17, |text| text.len() + 16)];
    p.sealed(bits, false, false, number, mask, &part);
    p.reply(mask, text.map(<[u8]>::to_vec));
}

/// One record a datagram, each with the number given.
fn numbers(bits: u8, numbers: &[u64]) -> Vec<Step> {
    numbers
        .iter()
        .map(|n| packet(|p| seal(p, bits, *n, Some(&[n.to_be_bytes()[7], 23]))))
        .collect()
}

fn short_numbers(bits: u8, numbers: &[u64]) -> Vec<Step> {
    numbers
        .iter()
        .map(|n| packet(|p| seal_short(p, bits, *n, Some(&[n.to_be_bytes()[7], 23]))))
        .collect()
}

/// The verdict on each number: a record that the cipher says no to.
fn verdicts(bits: u8, numbers: &[u64]) -> Step {
    packet(|p| numbers.iter().for_each(|n| seal(p, bits, *n, None)))
}

pub fn all() -> Vec<History> {
    let mut all = Vec::new();
    let mut add = |min: u8, steps: Vec<Step>| {
        all.push(History {
            min_protected: min,
            between: 0,
            steps,
        })
    };
    let on = |mut steps: Vec<Step>, rest: Vec<Step>| {
        steps.push(Step::Encrypt);
        steps.extend(rest);
        steps
    };

    // The cut.
    add(16, vec![]);
    add(
        16,
        vec![
            raw(&[]),
            raw(&[0x30]),
            raw(&[0x3F]),
            raw(&[0x2E]),
            raw(&[21]),
        ],
    );
    add(
        16,
        vec![packet(|p| {
            alert(p);
            p.bytes.push(0x3F);
        })],
    );
    add(
        16,
        vec![packet(|p| {
            alert(p);
            p.bytes.push(21);
        })],
    );
    add(
        16,
        vec![packet(|p| {
            p.plaintext(23, 0xFEFD, 0, 0, b"no");
            p.plaintext(21, 0xFEFF, 0, LAST, &[]);
        })],
    );
    add(
        16,
        vec![packet(|p| {
            p.plaintext(22, 0xFEFC, 0, 0, &[1]);
            p.plaintext(22, 0xFEFD, 1, 0, &[2]);
            p.plaintext(26, 0xFEFD, 0, 1, &[3]);
            p.plaintext(64, 0xFEFD, 0, 1, &[4]);
            p.plaintext(22, 0xFEFD, 0, 2, &[5, 6]);
        })],
    );
    // A header, then a length, one byte beyond the end.
    add(
        16,
        vec![
            raw(&[22, 0xFE, 0xFD, 0, 0, 0, 0, 0, 0, 0, 9, 0]),
            raw(&[22, 0xFE, 0xFD, 0, 0, 0, 0, 0, 0, 0, 9, 0, 1]),
            raw(&[22, 0xFE, 0xFD, 0, 0, 0, 0, 0, 0, 0, 9, 0, 0]),
            raw(&[0x2E, 0, 0, 0]),
            raw(&[0x2E, 0, 0, 0, 1]),
            raw(&[0x26, 0, 0]),
            raw(&[0x2A, 0]),
            raw(&[0x2A, 0, 0]),
        ],
    );
    // A bad type with a cut length is a fault, not a drop.
    add(
        16,
        vec![raw(&[23, 0xFE, 0xFD, 0, 0, 0, 0, 0, 0, 0, 9, 0, 1])],
    );

    // The peer's encryption off.
    add(
        16,
        vec![
            raw(&[0x2E, 0, 0, 0, 0]),
            raw(&[0x22, 0]),
            raw(&[0x2C, 0, 0, 0, 0, 0x2F, 0, 0, 0, 1, 0xAA]),
            raw(&[0x2E, 0x12, 0x34, 0, 4, 0x11, 0x22, 0x33, 0x44]),
            raw(&[0x2D, 1, 2, 0, 0, 0x23, 9, 8, 7]),
        ],
    );
    add(
        16,
        vec![key(2), key(3), packet(|p| seal(p, 3, 0, Some(&[1, 23])))],
    );
    // Turned on.
    add(
        16,
        vec![
            raw(&[0x2F, 0, 0, 0, 0]),
            Step::Encrypt,
            raw(&[0x2F, 0, 0, 0, 0]),
            key(3),
            raw(&[0x2F, 0, 0, 0, 0]),
            Step::Encrypt,
            packet(|p| seal(p, 3, 0, Some(&[1, 23]))),
        ],
    );

    // Lengths of the protected part.
    for min in [0, 15, 16, 17] {
        let part = |n: usize| {
            packet(|p| {
                p.sealed(3, true, true, 0, [1, 2], &vec![5; n]);
                p.reply([1, 2], Some(vec![23; n.saturating_sub(16)]));
                p.sealed(3, true, true, 1, [1, 2], &vec![6; 18]);
                p.reply([1, 2], Some(vec![65, 23]));
            })
        };
        add(min, on(vec![key(3)], vec![part(0), part(15)]));
        add(min, on(vec![key(3)], vec![part(16)]));
        add(min, on(vec![key(3)], vec![part(17)]));
    }

    // Resolution.
    add(
        16,
        on(
            vec![key(3), key(7)],
            vec![
                packet(|p| seal(p, 3, 0, Some(&[1, 23]))),
                Step::Remove(7),
                packet(|p| seal(p, 3, 0, Some(&[2, 23]))),
                Step::Remove(3),
                packet(|p| seal(p, 3, 0, Some(&[3, 23]))),
            ],
        ),
    );
    add(
        16,
        on(
            vec![key(2), key(6)],
            vec![
                packet(|p| seal(p, 2, 0, Some(&[1, 22]))),
                Step::Release,
                packet(|p| seal(p, 2, 0, Some(&[2, 23]))),
                Step::Remove(6),
                packet(|p| seal(p, 2, 1, Some(&[3, 22]))),
                Step::Remove(2),
                packet(|p| seal(p, 2, 2, Some(&[4, 22]))),
            ],
        ),
    );
    add(
        16,
        on(
            vec![key(2), key(3), key(4), key(5), key(6)],
            vec![packet(|p| {
                for bits in 0..4 {
                    seal(p, bits, 0, Some(&[bits, 23]));
                }
            })],
        ),
    );
    add(
        16,
        on(
            vec![key(3), key(4), key(5), key(6)],
            vec![
                Step::Remove(4),
                key(8),
                verdicts(0, &[0]),
                Step::Remove(3),
                key(65_535),
                verdicts(3, &[0]),
            ],
        ),
    );
    add(
        16,
        on(
            vec![key(3)],
            vec![verdicts(0, &[0]), verdicts(1, &[0]), verdicts(2, &[0])],
        ),
    );

    // Rebuilding: 01's rows, by way of the highest number used.
    for (e, bits) in [(65_540, 65_535), (65_530, 3)] {
        add(
            16,
            on(vec![key(3), mark(3, e - 1)], vec![verdicts(3, &[bits])]),
        );
    }
    for (e, bits) in [
        (266, 138),
        (200, 72),
        (0, 128),
        (0, 200),
        (0, 127),
        (256, 128),
        (384, 0),
    ] {
        let mut steps = vec![key(3)];
        if e > 0 {
            steps.push(mark(3, e - 1));
        }
        add(
            16,
            on(steps, vec![packet(|p| seal_short(p, 3, bits, None))]),
        );
    }
    // A half block above and below, for 16 bits.
    add(
        16,
        on(
            vec![key(3), mark(3, 99_999)],
            vec![verdicts(
                3,
                &[132_767, 132_768, 132_769, 67_231, 67_232, 67_233],
            )],
        ),
    );
    add(
        16,
        on(
            vec![key(3)],
            vec![verdicts(3, &[32_767, 32_768, 32_769, 65_535])],
        ),
    );
    // No answer is negative: the record has the number 65,535, and 0 is then the number behind it.
    add(16, on(vec![key(3)], numbers(3, &[65_535, 0])));

    // The window.
    add(16, on(vec![key(3)], numbers(3, &[0, 0, 1, 1, 0])));
    add(
        16,
        on(
            vec![key(3)],
            [
                numbers(3, &[100]),
                vec![verdicts(3, &[36, 37, 99, 100, 101])],
            ]
            .concat(),
        ),
    );
    add(
        16,
        on(
            vec![key(3)],
            [
                numbers(3, &[5, 68]),
                vec![verdicts(3, &[4, 5, 6, 67, 68, 69])],
            ]
            .concat(),
        ),
    );
    add(
        16,
        on(
            vec![key(3)],
            [numbers(3, &[5, 69]), vec![verdicts(3, &[5, 6, 69])]].concat(),
        ),
    );
    add(
        16,
        on(
            vec![key(2)],
            [
                numbers(2, &[70, 7, 6, 7, 71, 7]),
                vec![verdicts(2, &[7, 8, 70, 71])],
            ]
            .concat(),
        ),
    );
    add(
        16,
        on(
            vec![key(3)],
            short_numbers(3, &[0, 1, 2, 255, 256, 200, 192, 193]),
        ),
    );
    add(
        16,
        on(
            vec![key(2), key(3)],
            [
                numbers(2, &[0, 1]),
                numbers(3, &[0, 1, 1]),
                numbers(2, &[1, 2]),
            ]
            .concat(),
        ),
    );
    // Removing an epoch takes its window with it; a later one begins anew.
    add(
        16,
        on(
            vec![key(3)],
            [
                numbers(3, &[9]),
                vec![Step::Remove(3), key(7)],
                numbers(3, &[9, 9]),
            ]
            .concat(),
        ),
    );

    // The ends of the number line: 2^48 - 1 is opened, 2^48 is dropped by 8.
    add(
        16,
        on(vec![key(3), mark(3, LAST - 1)], numbers(3, &[LAST, LAST])),
    );
    add(
        16,
        on(
            vec![key(3), mark(3, LAST)],
            vec![verdicts(3, &[0, 32_767, 32_768, LAST - 63, LAST - 62])],
        ),
    );
    add(
        16,
        on(
            vec![key(3), mark(3, LAST - 32_768)],
            vec![verdicts(3, &[LAST, 0, 1])],
        ),
    );
    add(
        16,
        on(
            vec![key(3), mark(3, LAST)],
            vec![packet(|p| seal_short(p, 3, 0, None))],
        ),
    );

    // What a record holds.
    let texts: [&[u8]; 7] = [
        &[23],
        &[23, 0],
        &[99],
        &[0, 0],
        &[],
        &[1, 2, 0, 0, 22, 0, 0],
        &[0, 0, 0, 21],
    ];
    for (i, text) in texts.into_iter().enumerate() {
        add(
            16,
            on(
                vec![key(3)],
                vec![
                    packet(|p| seal(p, 3, i as u64, Some(text))),
                    verdicts(3, &[i as u64, i as u64 + 1]),
                ],
            ),
        );
    }
    // Types 21, 22 and 26 are handed over as they are.
    add(
        16,
        on(
            vec![key(3)],
            vec![packet(|p| {
                for (n, t) in [20, 21, 22, 23, 24, 26, 255].into_iter().enumerate() {
                    seal(p, 3, n as u64, Some(&[9, 0, t]));
                }
            })],
        ),
    );
    // One byte of the number, no length, then two bytes.
    add(
        16,
        on(
            vec![key(3)],
            vec![
                packet(|p| {
                    p.bytes.extend_from_slice(&[0x23, 0]);
                    p.bytes.extend(0..19);
                    p.reply([5, 3], Some(b"hi\x17".to_vec()));
                }),
                packet(|p| {
                    p.bytes.extend_from_slice(&[0x2B, 1, 4]);
                    p.bytes.extend(0..18);
                    p.reply([1, 2], Some(vec![1, 23]));
                }),
            ],
        ),
    );

    // Several records of one datagram.
    add(
        16,
        on(
            vec![key(3)],
            vec![packet(|p| {
                seal(p, 3, 4, Some(&[1, 23]));
                seal(p, 3, 4, Some(&[1, 23]));
            })],
        ),
    );
    add(
        16,
        on(
            vec![key(3)],
            vec![packet(|p| {
                seal(p, 3, 4, None);
                seal(p, 3, 4, Some(&[1, 23]));
            })],
        ),
    );
    add(
        16,
        on(
            vec![key(2), key(3)],
            vec![packet(|p| {
                alert(p);
                seal(p, 2, 0, Some(&[1, 2, 3, 22]));
                p.plaintext(20, 0xFEFD, 0, 0, &[1]);
                seal(p, 1, 0, Some(&[1, 23]));
                seal(p, 3, 0, Some(&[4, 23, 0]));
                seal_short(p, 3, 1, Some(&[5, 23]));
            })],
        ),
    );
    // The seventeenth.
    let many = |n: usize, rest: fn(&mut Packet)| {
        packet(move |p| {
            (0..n).for_each(|_| alert(p));
            rest(p);
        })
    };
    add(
        16,
        vec![
            many(16, |_| ()),
            many(17, |_| ()),
            many(16, |p| p.plaintext(23, 0xFEFD, 0, 0, &[])),
        ],
    );
    add(
        16,
        vec![many(16, |p| p.bytes.extend_from_slice(&[0x2E, 0, 0, 0, 0]))],
    );
    add(
        16,
        vec![many(16, |p| p.bytes.extend_from_slice(&[0x2F, 0]))],
    );
    add(16, vec![many(16, |p| p.bytes.push(0x30))]);
    // Its number is marked, unless the cipher says no or it is no reading.
    for text in [Some(&[1, 23][..]), Some(&[0, 0]), None] {
        add(
            16,
            on(
                vec![key(3)],
                vec![
                    packet(|p| {
                        (0..16).for_each(|_| alert(p));
                        seal(p, 3, 0, text);
                        seal(p, 3, 1, Some(&[1, 23]));
                    }),
                    verdicts(3, &[0, 1, 2]),
                ],
            ),
        );
    }
    add(
        16,
        on(
            vec![key(3)],
            vec![
                packet(|p| {
                    (0..17).for_each(|n| seal(p, 3, n, Some(&[n as u8, 23])));
                    seal(p, 3, 17, Some(&[1, 23]));
                }),
                verdicts(3, &[15, 16, 17]),
            ],
        ),
    );
    all.extend(first_block());
    all.extend(first_block_used());
    all.extend(first_block_short());
    all
}

/// Peer encryption on, epochs keyed, and the number expected in the first of them.
fn expecting(epochs: &[u16], e: u64, steps: &[Vec<Step>]) -> History {
    let mut all: Vec<Step> = epochs.iter().map(|epoch| key(*epoch)).collect();
    all.push(Step::Encrypt);
    if e > 0 {
        all.push(mark(epochs[0], e - 1));
    }
    all.extend(steps.concat());
    History {
        min_protected: 16,
        between: 0,
        steps: all,
    }
}

/// Numbers of 16 bits in the first block, where nearer to the expected one there may be a negative number: none is taken.
fn first_block() -> Vec<History> {
    let edges = [32_767, 32_768, 32_769, 65_534, 65_535, 65_536, 65_537];
    // Each the first to arrive, then once more. The number a block below 65,536 is 0, and this is what it is rebuilt as.
    let first = edges.map(|n| expecting(&[3], 0, &[numbers(3, &[n, n])]));
    // A half block above the one expected; from 32,767 on that is the end of the block.
    let verdicts_at = |e: u64| {
        let half = [32_767, 32_768, 32_769].map(|n| e + n);
        let all = [&half[..], &[65_535, 65_536]].concat();
        expecting(&[3], e, &[vec![verdicts(3, &all)]])
    };
    let expected = [1, 2, 100, 32_766, 32_767, 65_535, 65_536].map(verdicts_at);
    [first, expected].concat()
}

/// What such a number leaves behind.
fn first_block_used() -> Vec<History> {
    vec![
        // Those about it are in the window, those far below are not.
        expecting(
            &[3],
            0,
            &[
                numbers(3, &[40_000, 39_999, 40_000, 40_001]),
                vec![verdicts(3, &[39_937, 39_938, 7_233, 7_234, 72_769, 72_770])],
            ],
        ),
        // Each epoch for itself, epoch 2 too.
        expecting(
            &[2, 3],
            0,
            &[
                numbers(2, &[40_000]),
                numbers(3, &[65_535, 0]),
                numbers(2, &[40_001, 0]),
            ],
        ),
        // A number that the cipher says no to, and one with no content type.
        expecting(
            &[3],
            0,
            &[vec![verdicts(3, &[40_000])], numbers(3, &[0, 40_000])],
        ),
        expecting(
            &[3],
            3,
            &[
                vec![packet(|p| seal(p, 3, 50_000, Some(&[0, 0])))],
                numbers(3, &[3, 50_000, 50_001]),
            ],
        ),
    ]
}

/// The same with 8 bits.
fn first_block_short() -> Vec<History> {
    let first = [127, 128, 129, 200, 254, 255, 256]
        .map(|n| expecting(&[3], 0, &[short_numbers(3, &[n, n])]));
    let expected = [
        (1, 129),
        (1, 130),
        (2, 131),
        (126, 255),
        (127, 255),
        (128, 0),
        (255, 127),
        (256, 128),
    ]
    .map(|(e, n)| expecting(&[3], e, &[short_numbers(3, &[n])]));
    let after = expecting(
        &[2],
        0,
        &[short_numbers(2, &[200, 0, 72, 255]), numbers(2, &[40_000])],
    );
    [&first[..], &expected, &[after]].concat()
}

/// The longest datagram: its script is too long for a fixed list.
pub fn longest() -> Vec<History> {
    let text = |n: usize| -> Vec<u8> { (0..n).map(|i| (i * 7) as u8).collect() };
    let history = |steps| History {
        min_protected: 16,
        between: 0,
        steps,
    };
    vec![
        history(vec![packet(|p| {
            p.plaintext(22, 0xFEFD, 0, 1, &text(16_384 - 13))
        })]),
        history(vec![
            key(3),
            Step::Encrypt,
            packet(|p| {
                p.sealed(3, true, true, 0, [7, 9], &text(16_384 - 5));
                p.reply([7, 9], Some(vec![1, 2, 3]));
            }),
        ]),
        history(vec![
            key(2),
            Step::Encrypt,
            packet(|p| {
                p.sealed(2, false, false, 5, [7, 9], &text(16_384 - 2));
                p.reply([7, 9], Some(text(9_000)));
            }),
        ]),
    ]
}

/// Numbers at the end of the window, used and unused, and the highest again: of two bytes and of one, in epochs 2 and 3, early, with the
/// edge of a block of 8 and of 16 bits at the end of the window, and at the end of the number line.
pub fn late() -> Vec<History> {
    let made = [numbers, short_numbers];
    let highest = [100, 319, 65_599, LAST];
    let each = highest
        .into_iter()
        .flat_map(|high| [2, 3].map(|epoch| (high, epoch)));
    each.flat_map(|(high, epoch)| made.map(|make| late_by(make, epoch, high)))
        .flatten()
        .collect()
}

/// Records of these numbers, under the bits of an epoch, one a datagram.
type Made = fn(u8, &[u64]) -> Vec<Step>;

fn late_by(make: Made, epoch: u16, high: u64) -> [History; 4] {
    let after = |before: u64, asked: &[u64]| {
        let marks = vec![mark(epoch, before), mark(epoch, high)];
        expecting(&[epoch], 0, &[marks, make(epoch as u8, asked)])
    };
    [
        // Used and 63 below is seen, used and 64 below is too old.
        after(high - 63, &[high - 63, high]),
        after(high - 64, &[high - 64, high]),
        // Unused and 63 below is opened, and seen when it comes again; unused and 64 below is too old.
        after(high - 64, &[high - 63, high - 63]),
        after(high - 63, &[high - 64, high - 64]),
    ]
}

/// A record that opens to a content, its type and zeros; or to zeros alone, where there is no type.
fn padded_by(zeros: usize, content_type: Option<u8>) -> Vec<u8> {
    let mut text: Vec<u8> = content_type.into_iter().flat_map(|t| [5, 0, t]).collect();
    text.resize(text.len() + zeros, 0);
    text
}

/// Padding: of 0 to 25 and 62 to 66 zeros, to a datagram of 1,500 bytes, and the longest in one of 16,384. Behind each but the longest comes
/// a second record of its number, which must be dropped, with a type and without.
pub fn padded() -> Vec<History> {
    let lengths = || (0..26).chain([62, 63, 64, 65, 66, 1_476]);
    let each = |content_type| {
        let twice = |(n, zeros)| {
            let text = padded_by(zeros, content_type);
            let record = packet(|p| seal(p, 3, n as u64, Some(&text)));
            [record, verdicts(3, &[n as u64])]
        };
        expecting(&[3], 0, &[lengths().enumerate().flat_map(twice).collect()])
    };
    // What follows the bytes of the reply stays as it lies: zeros.
    let longest = |content_type: u8| {
        let mask = [0x5A, 0xFF];
        let record = packet(|p| {
            p.sealed(3, false, false, 0, mask, &[0; 16_384 - 2]);
            p.reply(mask, Some(vec![content_type]));
        });
        expecting(&[3], 0, &[vec![record]])
    };
    vec![each(Some(23)), each(None), longest(23), longest(0)]
}
