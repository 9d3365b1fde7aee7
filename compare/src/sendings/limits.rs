//! Histories at the limits: 01's rows for sending, and cases worked by hand.

use super::rules::{LAST_NUMBER, LONGEST};
use super::*;

/// A history whose last step is what it is about.
pub fn history(mtu: usize, limit: usize, steps: Vec<Step>) -> History {
    History {
        settings: Settings::new(mtu, limit),
        steps,
    }
}

pub fn key(epoch: u16) -> Step {
    Step::Key {
        epoch,
        iv: std::array::from_fn(|i| i as u8),
    }
}

fn bytes(length: usize) -> Bytes {
    Bytes {
        length,
        pattern: (0x41..0x4E).collect(),
    }
}

pub fn send(epoch: u16, content_type: u8, length: usize) -> Step {
    Step::Send {
        epoch,
        content_type,
        save: false,
        content: bytes(length),
    }
}

pub fn saved(epoch: u16, content_type: u8, length: usize) -> Step {
    Step::Send {
        epoch,
        content_type,
        save: true,
        content: bytes(length),
    }
}

pub fn message(kind: u8, length: usize) -> Step {
    Step::Message {
        kind,
        body: bytes(length),
    }
}

pub fn number(epoch: u16, number: u64) -> Step {
    Step::Number { epoch, number }
}

/// The oldest sealing asked for and made.
fn seal() -> [Step; 2] {
    [Step::Ask, Step::Reply(0)]
}

fn times(n: usize, step: Step) -> Vec<Step> {
    vec![step; n]
}

/// Settings at their ends and beyond: every call is then 12.
fn settings(all: &mut Vec<History>) {
    let calls = || {
        vec![
            key(2),
            send(0, 21, 2),
            saved(0, 21, 2),
            message(1, 0),
            Step::BeginFlight,
            Step::Ask,
            Step::Reply(0),
            Step::Take(0),
        ]
    };
    for (mtu, limit) in [
        (575, 1),
        (576, 1),
        (1500, 16),
        (1501, 16),
        (576, 0),
        (576, 17),
        (0, 0),
        (65_535, 255),
    ] {
        all.push(history(mtu, limit, calls()));
    }
    // Lent memory of exactly the limit, and one byte less.
    for (room, kept) in [(1152, 6912), (1151, 6912), (1152, 6911), (0, 0)] {
        let settings = Settings {
            mtu: 576,
            limit: 2,
            room,
            kept,
        };
        all.push(History {
            settings,
            steps: calls(),
        });
    }
}

/// 01's rows.
fn rows(all: &mut Vec<History>) {
    // An empty body in epoch 0: 25 bytes.
    all.push(history(576, 1, vec![message(1, 0), Step::Take(0)]));
    // Pieces of 542 and 458; then, with a body of 100, of 50 and 50.
    all.push(history(
        576,
        4,
        vec![key(2), message(11, 1000), message(11, 100)],
    ));
    // Number 2^48 - 2 is sent, the next gives 20.
    for epoch in [0, 2, 3] {
        all.push(history(
            576,
            4,
            vec![
                key(2),
                key(3),
                number(epoch, LAST_NUMBER - 1),
                send(epoch, 22, 4),
                send(epoch, 22, 4),
                saved(epoch, 22, 4),
                message(if epoch == 0 { 1 } else { 11 }, 4),
            ],
        ));
    }
    // Message number 65,534 is sent, the next gives 21.
    all.push(history(
        576,
        4,
        vec![
            key(2),
            Step::MessageNumber(65_534),
            message(11, 3),
            message(11, 3),
            message(1, 3),
            send(2, 22, 3),
        ],
    ));
}

/// Packing: what joins, what opens a datagram, how a message is cut.
fn packing(all: &mut Vec<History>) {
    // A datagram closed by a resend: pieces of 42 and 58, the first cut for what it has left.
    all.push(history(
        576,
        4,
        vec![
            key(2),
            send(2, 23, 478),
            Step::Resend,
            Step::View,
            message(11, 100),
        ],
    ));
    // No room, and room for one byte.
    for length in [520, 519] {
        all.push(history(
            576,
            4,
            vec![key(2), send(2, 23, length), message(11, 100)],
        ));
    }
    // Closed over an empty queue; closed when a take empties it.
    all.push(history(
        576,
        4,
        vec![
            Step::Resend,
            send(0, 21, 2),
            send(0, 21, 2),
            Step::Resend,
            Step::Take(0),
            Step::View,
            message(1, 600),
            Step::View,
        ],
    ));
    // Plaintext and sealed in one datagram; taking it with buffers of 73 and 74 bytes.
    all.push(history(
        576,
        4,
        vec![
            key(2),
            message(2, 10),
            message(8, 5),
            Step::Take(-1),
            Step::Take(0),
            Step::Ask,
            Step::Reply(0),
            Step::Take(-1),
            Step::Take(-74),
            Step::Take(0),
        ],
    ));
    // An empty body in epoch 2.
    all.push(history(576, 1, vec![key(2), message(20, 0)]));
    // Exactly the MTU, and one byte more: 14.
    all.push(history(
        576,
        8,
        vec![
            key(2),
            key(3),
            send(3, 23, 554),
            send(0, 22, 563),
            send(3, 23, 555),
            send(0, 22, 564),
            saved(2, 22, 554),
            saved(2, 22, 555),
            send(3, 23, LONGEST),
            send(3, 23, LONGEST + 1),
        ],
    ));
    // A full queue still takes what joins.
    all.push(history(
        576,
        1,
        vec![
            send(0, 21, 2),
            send(0, 21, 2),
            send(0, 21, 563),
            send(0, 21, 533),
            send(0, 21, 0),
            message(1, 0),
        ],
    ));
    // As many empty records as a datagram holds.
    let mut steps = vec![key(3)];
    steps.extend(times(27, send(3, 23, 0)));
    all.push(history(576, 1, steps));
    // A message that opens datagrams up to the limit, and one byte more: 19.
    for length in [2 * 542, 2 * 542 + 1] {
        all.push(history(576, 2, vec![key(2), message(11, length)]));
    }
}

/// Epochs: which are keyed, which are sent in.
fn epochs(all: &mut Vec<History>) {
    // The same bits in two epochs.
    all.push(history(
        576,
        2,
        vec![key(2), key(6), send(2, 22, 1), send(6, 23, 1)],
    ));
    // Keying in rising order only.
    all.push(history(
        576,
        2,
        [0, 1, 2, 2, 1, 3, 2, 3, 7, 5, 7, 65_535, 65_535]
            .map(key)
            .to_vec(),
    ));
    all.push(history(576, 2, vec![key(3), key(2), send(2, 21, 2)]));
    // Keys absent, and epochs that are not usable.
    let mut steps = Vec::new();
    for epoch in [2, 1, 3, 65_535] {
        steps.extend([send(epoch, 21, 2), saved(epoch, 21, 2)]);
    }
    steps.extend([message(8, 0), message(1, 0)]);
    all.push(history(576, 2, steps));
    // The application epoch is the last keyed; its numbers begin at 0.
    all.push(history(
        576,
        4,
        vec![
            key(3),
            send(3, 23, 1),
            Step::Ask,
            Step::Reply(0),
            key(4),
            send(3, 23, 1),
            send(4, 23, 1),
            send(5, 23, 1),
        ],
    ));
    // A sealing under it waits: 23. One under epoch 2 does not matter.
    all.push(history(
        576,
        4,
        vec![
            key(2),
            key(3),
            send(2, 22, 1),
            send(3, 23, 1),
            key(4),
            Step::Reply(0),
            key(4),
            send(2, 22, 1),
            Step::Reply(0),
            key(4),
            send(4, 23, 1),
        ],
    ));
    // Content types.
    let mut steps = vec![key(2), key(3)];
    for content_type in [0, 20, 21, 22, 23, 24, 25, 26, 27, 255] {
        for epoch in [0, 2, 3] {
            steps.push(send(epoch, content_type, 0));
        }
    }
    all.push(history(576, 4, steps));
}

/// Sealings asked for and replied to.
fn sealings(all: &mut Vec<History>) {
    // No question, wrong lengths, the right one, no question any more.
    all.push(history(
        576,
        2,
        vec![
            Step::Ask,
            Step::Reply(0),
            key(3),
            send(3, 23, 5),
            Step::Reply(-1),
            Step::Ask,
            Step::Reply(1),
            Step::Reply(-22),
            Step::Ask,
            Step::Reply(0),
            Step::Ask,
            Step::Reply(0),
        ],
    ));
    // Ready no longer: a record joins the front datagram.
    all.push(history(
        576,
        2,
        vec![
            key(3),
            send(3, 23, 5),
            Step::Take(0),
            Step::Reply(0),
            send(3, 23, 6),
            Step::Take(0),
            Step::Reply(0),
            Step::Take(0),
            Step::Take(0),
        ],
    ));
    // Oldest first, through plaintext records and over datagrams.
    let mut steps = vec![key(2), key(3)];
    steps.extend([
        send(0, 22, 3),
        send(2, 22, 500),
        send(0, 22, 30),
        send(3, 23, 60),
        send(0, 21, 2),
        send(3, 23, 480),
        send(2, 21, 2),
        Step::Take(0),
    ]);
    steps.extend(seal());
    steps.extend([Step::Take(0), Step::Take(0)]);
    steps.extend(seal());
    steps.push(send(2, 26, 2));
    steps.extend(seal());
    steps.extend(seal());
    steps.push(Step::Take(0));
    all.push(history(576, 3, steps));
}

/// Datagrams taken.
fn takes(all: &mut Vec<History>) {
    // The ring goes round, with sealings on both sides of its end.
    let mut steps = vec![key(3)];
    for length in [500, 501, 502, 503, 504, 505] {
        steps.extend([send(3, 23, length), send(0, 21, 20)]);
        if length > 501 {
            steps.extend(seal());
            steps.extend([Step::Take(0), send(3, 23, length)]);
        }
    }
    all.push(history(576, 3, steps));
    // An empty queue, and buffers too small.
    all.push(history(
        576,
        1,
        vec![
            Step::Take(0),
            Step::Take(9),
            send(0, 21, 2),
            Step::Take(-1),
            Step::Take(-15),
            Step::Take(9),
            Step::Take(9),
        ],
    ));
}

/// Saved records, and refusals in 01's order.
fn flights(all: &mut Vec<History>) {
    // A thirteenth to save is 18; beginning a flight makes room.
    let mut steps = vec![key(2)];
    steps.extend(times(13, saved(2, 22, 1)));
    steps.extend([
        send(2, 22, 1),
        message(11, 1),
        Step::View,
        Step::BeginFlight,
        saved(0, 26, 3),
        message(11, 1),
    ]);
    all.push(history(576, 2, steps));
    // Eleven saved, a message of two pieces.
    let mut steps = vec![key(2)];
    steps.extend(times(11, saved(0, 21, 1)));
    steps.extend([message(11, 543), message(11, 100)]);
    all.push(history(576, 3, steps));
    // 20; with the queue full 19; with twelve saved 18; with message number 65,535 besides 21;
    // with epoch 2 not keyed 17; with a body over 16,384 14.
    let spent = number(2, LAST_NUMBER - 1);
    let body = message(11, 600);
    all.push(history(
        576,
        2,
        vec![key(2), spent.clone(), body.clone(), message(11, 5)],
    ));
    let full = vec![key(2), send(0, 22, 563), spent, body.clone()];
    all.push(history(576, 1, full.clone()));
    let mut saving = vec![key(2)];
    saving.extend(times(12, saved(0, 21, 1)));
    saving.extend(full[1..].to_vec());
    all.push(history(576, 1, saving.clone()));
    let last = saving.len() - 1;
    saving.insert(last, Step::MessageNumber(u16::MAX));
    all.push(history(576, 1, saving.clone()));
    saving.remove(0);
    saving.push(message(11, LONGEST + 1));
    all.push(history(576, 1, saving));
}

fn ack(pairs: &[(u64, u64)]) -> Step {
    let mut content = (16 * pairs.len() as u16).to_be_bytes().to_vec();
    for (epoch, number) in pairs {
        content.extend_from_slice(&epoch.to_be_bytes());
        content.extend_from_slice(&number.to_be_bytes());
    }
    Step::Ack(content)
}

fn note(epoch: u64, number: u64) -> Step {
    Step::Note { epoch, number }
}

/// The oldest sealing made and the front datagram taken, so that the queue does not fill.
fn passed(steps: &mut Vec<Step>, sealings: usize) {
    steps.extend(times(sealings, Step::Reply(0)));
    steps.push(Step::Take(0));
}

/// Flights sent again.
fn resends(all: &mut Vec<History>) {
    // Nothing saved: only the datagram is closed.
    all.push(history(576, 2, vec![Step::Resend, Step::View]));
    // A record remembers its numbers; an ACK that names an old one marks it, and the flight empties.
    all.push(history(
        576,
        4,
        vec![
            key(2),
            message(20, 4),
            Step::Resend,
            Step::View,
            Step::Resend,
            Step::View,
            ack(&[(2, 0)]),
            Step::View,
            Step::Resend,
        ],
    ));
    // An alert remembers nothing.
    all.push(history(
        576,
        4,
        vec![
            key(2),
            saved(2, 21, 2),
            Step::Resend,
            ack(&[(2, 0)]),
            Step::View,
            ack(&[(2, 1)]),
        ],
    ));
    // Records are packed anew, in the order in which they were saved.
    all.push(history(
        576,
        4,
        vec![
            key(2),
            message(2, 10),
            message(8, 5),
            message(20, 600),
            Step::Resend,
        ],
    ));
}

/// Flights that cannot be sent again.
fn resends_refused(all: &mut Vec<History>) {
    // 32 resends pass, the next is 22 until the message is acknowledged.
    let mut steps = vec![key(2), message(20, 1), saved(2, 21, 1)];
    passed(&mut steps, 2);
    for _ in 0..33 {
        steps.push(Step::Resend);
        passed(&mut steps, 2);
    }
    steps.extend([Step::View, ack(&[(2, 0)]), Step::Resend]);
    all.push(history(576, 1, steps));
    // In epoch 0 there is no such limit.
    let mut steps = vec![message(1, 1)];
    for _ in 0..35 {
        passed(&mut steps, 0);
        steps.push(Step::Resend);
    }
    all.push(history(576, 1, steps));
    // A replaced application epoch: 13 while its record is not marked.
    all.push(history(
        576,
        4,
        vec![
            key(2),
            key(3),
            saved(3, 22, 1),
            saved(2, 22, 1),
            Step::Reply(0),
            Step::Reply(0),
            key(4),
            Step::Resend,
            ack(&[(3, 0)]),
            Step::Resend,
        ],
    ));
    // The queue is full, or the numbers are spent, for one of two records.
    all.push(history(
        576,
        3,
        vec![
            saved(0, 22, 500),
            saved(0, 22, 500),
            Step::Resend,
            Step::Take(0),
            Step::Resend,
        ],
    ));
    all.push(history(
        576,
        8,
        vec![
            key(2),
            saved(2, 22, 1),
            saved(0, 22, 1),
            saved(2, 22, 1),
            Step::Reply(0),
            Step::Reply(0),
            number(2, LAST_NUMBER - 1),
            Step::Resend,
            number(2, LAST_NUMBER - 2),
            Step::Resend,
            number(0, LAST_NUMBER),
            Step::Resend,
        ],
    ));
    // Lent memory of the flight too short.
    all.push(History {
        settings: Settings {
            mtu: 576,
            limit: 1,
            room: 576,
            kept: 6911,
        },
        steps: vec![Step::Resend, note(2, 0), Step::SendAck, ack(&[(2, 0)])],
    });
}

/// ACKs acted on, noted and sent.
fn acks(all: &mut Vec<History>) {
    let flight = || vec![key(2), message(2, 1), message(8, 1), message(20, 1)];
    // Malformed ones change nothing; one that names nothing is well formed.
    let mut steps = flight();
    let Step::Ack(whole) = ack(&[(2, 0)]) else {
        unreachable!()
    };
    let mut longer = whole.clone();
    longer.push(0);
    for content in [
        &[][..],
        &[0],
        &[0, 0],
        &[0, 8, 0, 0, 0, 0, 0, 0, 0, 2],
        &longer,
    ] {
        steps.push(Step::Ack(content.to_vec()));
    }
    steps.push(Step::Ack(whole[..17].to_vec()));
    steps.push(Step::View);
    all.push(history(576, 2, steps));
    // Records of epoch 0 and 2; the third goes again, its old number is named.
    let mut steps = flight();
    steps.extend([
        ack(&[(0, 0)]),
        Step::View,
        ack(&[(2, 0)]),
        Step::Resend,
        Step::View,
        ack(&[(65_538, 1), (3, 1)]),
        Step::View,
        ack(&[(2, 1)]),
        Step::View,
    ]);
    all.push(history(576, 2, steps));
    // All of epoch 2 marked: the flight empties, whatever else is in it.
    all.push(history(
        576,
        2,
        vec![
            key(2),
            key(3),
            saved(0, 22, 1),
            saved(3, 22, 1),
            saved(2, 22, 1),
            ack(&[(2, 0)]),
            Step::View,
            saved(3, 22, 1),
            ack(&[(3, 1)]),
            Step::View,
            Step::Resend,
        ],
    ));
    // Noted in order, twice too; sent in epoch 2, then in the application epoch; forgotten.
    all.push(history(
        576,
        2,
        vec![
            Step::SendAck,
            note(2, 7),
            Step::SendAck,
            key(2),
            note(2, 5),
            note(2, 7),
            Step::SendAck,
            Step::SendAck,
            key(3),
            note(u64::MAX, u64::MAX),
            Step::SendAck,
        ],
    ));
    // The 33rd is not noted.
    let mut steps = vec![key(3)];
    steps.extend((0..33).map(|n| note(3, n)));
    steps.extend([Step::View, Step::SendAck, Step::View]);
    all.push(history(576, 1, steps));
    // Refused, they stay noted: keys absent, queue full, numbers spent.
    all.push(history(
        576,
        1,
        vec![
            note(2, 1),
            Step::SendAck,
            key(2),
            send(0, 22, 563),
            Step::SendAck,
            Step::Take(0),
            number(2, LAST_NUMBER),
            Step::SendAck,
            number(2, LAST_NUMBER - 1),
            Step::SendAck,
        ],
    ));
}

pub fn all() -> Vec<History> {
    let mut all = Vec::new();
    settings(&mut all);
    rows(&mut all);
    packing(&mut all);
    epochs(&mut all);
    sealings(&mut all);
    takes(&mut all);
    flights(&mut all);
    resends(&mut all);
    resends_refused(&mut all);
    acks(&mut all);
    all
}

/// Those whose answers are long.
pub fn longest() -> Vec<History> {
    let mut waiting = vec![key(3)];
    waiting.extend(times(1089, send(3, 23, 0)));
    vec![
        // 1,088 sealings wait.
        history(1500, 16, waiting),
        // The longest bodies.
        history(1500, 16, vec![key(2), message(11, LONGEST)]),
        history(1500, 16, vec![message(1, LONGEST)]),
        history(1400, 12, vec![key(2), message(11, LONGEST)]),
        history(1399, 16, vec![key(2), message(11, LONGEST)]),
        history(1500, 16, vec![key(2), message(11, LONGEST + 1)]),
        history(576, 16, vec![key(2), message(11, 6504)]),
        history(576, 16, vec![key(2), message(11, 6505)]),
        history(576, 12, vec![message(2, 12 * 551)]),
        history(576, 11, vec![message(2, 12 * 551)]),
    ]
}
