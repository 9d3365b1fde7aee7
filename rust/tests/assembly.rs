//! Handshake messages put together from pieces: their order, overlaps, pieces that disagree, limits, and records that end early.

#[cfg(feature = "alloc")]
mod toy;

use huskelapse::{Assembly, Piece, Refusal};

/// What a piece came to, with the body copied out of the buffer.
#[derive(Clone, Debug, PartialEq)]
enum Came {
    Message(u8, u16, Vec<u8>),
    Held,
    Same,
    Other(u16),
    Refused(Refusal),
}

use Came::{Held, Message, Other, Refused, Same};

const BAD: Came = Refused(Refusal::BadPiece);
const DISAGREE: Came = Refused(Refusal::PiecesDisagree);
const TOO_MANY: Came = Refused(Refusal::TooManyPieces);

fn came(answer: Result<Piece<'_>, Refusal>) -> Came {
    match answer {
        Ok(Piece::Message { msg_type, number, body }) => Message(msg_type, number, body.to_vec()),
        Ok(Piece::Held) => Held,
        Ok(Piece::Same) => Same,
        Ok(Piece::Other { number }) => Other(number),
        Ok(piece) => panic!("a piece that this test does not know: {piece:?}"),
        Err(why) => Refused(why),
    }
}

/// An assembly and the buffer that it is lent.
struct Bench {
    assembly: Assembly,
    buffer: Vec<u8>,
}

impl Bench {
    fn new() -> Bench {
        Bench { assembly: Assembly::new(), buffer: vec![0xEE; Assembly::MESSAGE_ROOM] }
    }

    /// What the pieces of a record come to, one after the other, until none is left.
    fn give(&mut self, record: &[u8]) -> Vec<Came> {
        let mut all = Vec::new();
        let mut pieces = self.assembly.pieces(record);
        while let Some(answer) = pieces.next(&mut self.buffer).transpose() {
            all.push(came(answer));
            assert!(all.len() <= record.len(), "the record has no end");
        }
        all
    }
}

/// A header (RFC 9147, section 5.2) that says these numbers.
fn header(msg_type: u8, total: usize, number: u16, offset: usize, length: usize) -> Vec<u8> {
    let three = |n: usize| [(n >> 16) as u8, (n >> 8) as u8, n as u8];
    [&[msg_type][..], &three(total), &number.to_be_bytes(), &three(offset), &three(length)].concat()
}

fn piece(msg_type: u8, total: usize, number: u16, offset: usize, part: &[u8]) -> Vec<u8> {
    [header(msg_type, total, number, offset, part.len()), part.to_vec()].concat()
}

/// A piece of message 0, of type 11, with 10 bytes.
fn of_ten(offset: usize, part: &[u8]) -> Vec<u8> {
    piece(11, 10, 0, offset, part)
}

fn ten(body: &[u8]) -> Came {
    Message(11, 0, body.to_vec())
}

#[test]
fn in_order_and_in_one_record() {
    let pieces = [of_ten(0, b"0123"), of_ten(4, b"456"), of_ten(7, b"789")];
    let mut bench = Bench::new();
    assert_eq!(bench.give(&pieces[0]), [Held]);
    assert_eq!(bench.give(&pieces[1]), [Held]);
    assert_eq!(bench.give(&pieces[2]), [ten(b"0123456789")]);
    assert_eq!(Bench::new().give(&pieces.concat()), [Held, Held, ten(b"0123456789")]);
}

#[test]
fn in_every_order() {
    let pieces = [of_ten(0, b"012"), of_ten(3, b"3"), of_ten(4, b"4567"), of_ten(8, b"89")];
    for order in 0..4_usize.pow(4) {
        let places: Vec<usize> = (0..4).map(|i| order / 4_usize.pow(i) % 4).collect();
        if (0..4).all(|place| places.contains(&place)) {
            let record: Vec<u8> = places.iter().flat_map(|place| pieces[*place].clone()).collect();
            assert_eq!(Bench::new().give(&record), [Held, Held, Held, ten(b"0123456789")], "{places:?}");
        }
    }
}

#[test]
fn one_message_after_the_other() {
    let mut bench = Bench::new();
    let record =
        [piece(1, 3, 0, 0, b"one"), piece(2, 3, 1, 0, b"two"), piece(3, 5, 2, 0, b"th"), piece(3, 5, 2, 2, b"ree")].concat();
    let messages = [Message(1, 0, b"one".to_vec()), Message(2, 1, b"two".to_vec()), Held, Message(3, 2, b"three".to_vec())];
    assert_eq!(bench.give(&record), messages);
    // Each once: the next is 3.
    assert_eq!(bench.give(&record), [Other(0), Other(1), Other(2), Other(2)]);
    assert_eq!(bench.give(&piece(4, 4, 3, 0, b"four")), [Message(4, 3, b"four".to_vec())]);
}

#[test]
fn pieces_overlap_where_their_bytes_are_equal() {
    let (low, high) = (of_ten(0, b"0123456"), of_ten(3, b"3456789"));
    assert_eq!(Bench::new().give(&[&low[..], &high].concat()), [Held, ten(b"0123456789")]);
    assert_eq!(Bench::new().give(&[&high[..], &low].concat()), [Held, ten(b"0123456789")]);
    // One over two that leave a gap, and one inside another.
    let wide = of_ten(0, b"0123456789");
    let record = [of_ten(1, b"12"), of_ten(6, b"67"), wide.clone()].concat();
    assert_eq!(Bench::new().give(&record), [Held, Held, ten(b"0123456789")]);
    let record = [of_ten(1, b"123456"), of_ten(2, b"23"), wide].concat();
    assert_eq!(Bench::new().give(&record), [Held, Held, ten(b"0123456789")]);
}

#[test]
fn a_doubled_piece_changes_nothing() {
    let mut bench = Bench::new();
    assert_eq!(bench.give(&of_ten(4, b"456789")), [Held]);
    let before = bench.buffer.clone();
    assert_eq!(bench.give(&of_ten(4, b"456789").repeat(3)), [Same, Same, Same]);
    // But 24 comes before: past its own total, and a total over 16,384.
    assert_eq!(bench.give(&piece(11, 9, 0, 4, b"456789")), [BAD]);
    assert_eq!(bench.give(&piece(11, 16_385, 0, 4, b"456789")), [BAD]);
    assert_eq!(bench.buffer, before);
    // Another length is another piece.
    assert_eq!(bench.give(&of_ten(4, b"45")), [Held]);
    assert_eq!(bench.give(&of_ten(0, b"0123")), [ten(b"0123456789")]);
}

#[test]
fn another_byte_in_the_same_place_disagrees() {
    let body = *b"0123456789";
    for (start, end) in [(3, 7), (2, 8), (0, 4), (6, 10), (4, 6), (3, 4)] {
        for at in start..end {
            let mut bench = Bench::new();
            assert_eq!(bench.give(&of_ten(3, &body[3..7])), [Held]);
            let before = bench.buffer.clone();
            let mut other = body;
            other[at] ^= 1;
            let (given, is_shared) = (of_ten(start, &other[start..end]), (3..7).contains(&at));
            assert_eq!(bench.give(&given), [if is_shared { DISAGREE } else { Held }], "{start} {end} {at}");
            assert_eq!(bench.buffer == before, is_shared);
        }
    }
    // Of several pieces held, each has its bytes.
    let held = [of_ten(0, b"01"), of_ten(4, b"45"), of_ten(8, b"8")].concat();
    for wrong in [b"x1234567", b"0x234567", b"0123x567", b"01234x67"] {
        assert_eq!(Bench::new().give(&[&held[..], &of_ten(0, wrong)].concat()), [Held, Held, Held, DISAGREE]);
    }
    assert_eq!(Bench::new().give(&[&held[..], &of_ten(0, b"01xx45xx")].concat()), [Held, Held, Held, Held]);
}

#[test]
fn another_type_or_total_disagrees() {
    let mut bench = Bench::new();
    assert_eq!(bench.give(&of_ten(0, b"01234")), [Held]);
    // Whether it is the same otherwise, overlaps, touches, or is empty.
    for (offset, part) in [(0, &b"01234"[..]), (3, b"34567"), (5, b"56789"), (8, b"8"), (0, b""), (5, b""), (10, b"")] {
        assert_eq!(bench.give(&piece(12, 10, 0, offset, part)), [DISAGREE]);
        assert_eq!(bench.give(&piece(11, 11, 0, offset, part)), [DISAGREE]);
        assert_eq!(bench.give(&piece(11, 16_384, 0, offset, part)), [DISAGREE]);
    }
    assert_eq!(bench.give(&piece(11, 9, 0, 5, b"5678")), [DISAGREE]);
    // 24 comes before: past the total held, though not past its own, and past its own, though not past the one held.
    assert_eq!(bench.give(&piece(11, 20, 0, 5, b"567890")), [BAD]);
    assert_eq!(bench.give(&piece(11, 9, 0, 9, b"9")), [BAD]);
    assert_eq!(bench.give(&of_ten(5, b"56789")), [ten(b"0123456789")]);
    // The first piece of the next message has any type and total.
    assert_eq!(bench.give(&piece(12, 3, 1, 0, b"")), [Held]);
    assert_eq!(bench.give(&piece(11, 3, 1, 0, b"")), [DISAGREE]);
    assert_eq!(bench.give(&piece(12, 2, 1, 0, b"")), [DISAGREE]);
    assert_eq!(bench.give(&piece(12, 3, 1, 0, b"abc")), [Message(12, 1, b"abc".to_vec())]);
}

#[test]
fn a_piece_that_touches_another_shares_no_byte() {
    let record = [of_ten(3, b"345"), of_ten(0, b"abc"), of_ten(6, b"6789")].concat();
    assert_eq!(Bench::new().give(&record), [Held, Held, ten(b"abc3456789")]);
    // An empty piece shares none either, wherever it stands.
    let record = [of_ten(3, b"345"), of_ten(4, b""), of_ten(3, b""), of_ten(6, b"")].concat();
    assert_eq!(Bench::new().give(&record), vec![Held; 4]);
}

#[test]
fn a_piece_that_is_made_of_others_is_held() {
    let mut bench = Bench::new();
    assert_eq!(bench.give(&[of_ten(0, b"012"), of_ten(3, b"345"), of_ten(0, b"012345")].concat()), [Held, Held, Held]);
    assert_eq!(bench.give(&[of_ten(0, b"012345"), of_ten(0, b"01234x")].concat()), [Same, DISAGREE]);
    assert_eq!(bench.give(&of_ten(6, b"6789")), [ten(b"0123456789")]);
}

#[test]
fn a_disagreement_ends_the_record_and_keeps_the_message_so_far() {
    let mut bench = Bench::new();
    assert_eq!(bench.give(&of_ten(0, b"0123")), [Held]);
    let before = bench.buffer.clone();
    let record = [of_ten(0, b"0123"), of_ten(2, b"2x45"), of_ten(4, b"456789")].concat();
    assert_eq!(bench.give(&record), [Same, DISAGREE]);
    assert_eq!(bench.buffer, before);
    // What stood behind it is not held, and the message can be completed by pieces that agree.
    assert_eq!(bench.give(&of_ten(4, b"abcd")), [Held]);
    assert_eq!(bench.give(&of_ten(0, b"0123")), [Same]);
    assert_eq!(bench.give(&[of_ten(2, b"23ab"), of_ten(8, b"89")].concat()), [Held, ten(b"0123abcd89")]);
}

#[test]
fn an_empty_body_comes_out_by_its_one_piece() {
    let mut bench = Bench::new();
    let record = [piece(14, 0, 0, 0, b""), piece(20, 0, 1, 0, b"")].concat();
    assert_eq!(bench.give(&record), [Message(14, 0, vec![]), Message(20, 1, vec![])]);
    // An empty piece of a message that has a body is held like any other, and an empty record has no piece.
    assert_eq!(bench.give(&[piece(8, 2, 2, 1, b""), piece(8, 2, 2, 1, b"")].concat()), [Held, Same]);
    assert_eq!(bench.give(b""), []);
    assert_eq!(bench.give(&piece(8, 2, 2, 0, b"ab")), [Message(8, 2, b"ab".to_vec())]);
    assert!(bench.buffer[2..].iter().all(|byte| *byte == 0xEE));
}

#[test]
fn fifty_pieces_and_a_fifty_first() {
    let body: Vec<u8> = (0..50).collect();
    let record: Vec<u8> = body.iter().flat_map(|i| piece(11, 50, 0, usize::from(*i), &[*i])).collect();
    let mut all = vec![Held; 49];
    all.push(Message(11, 0, body.clone()));
    assert_eq!(Bench::new().give(&record), all);

    let mut bench = Bench::new();
    let record: Vec<u8> = body.iter().flat_map(|i| piece(11, 51, 0, usize::from(*i), &[*i])).collect();
    assert_eq!(bench.give(&record), vec![Held; 50]);
    let before = bench.buffer.clone();
    // A different one is refused, though it would make the message whole, and what stands behind it is left out.
    assert_eq!(bench.give(&[piece(11, 51, 0, 50, b"!"), piece(11, 51, 0, 0, &[0])].concat()), [TOO_MANY]);
    // So is one that is made of others, with all their bytes.
    assert_eq!(bench.give(&piece(11, 51, 0, 0, &[0, 1])), [TOO_MANY]);
    // The same as one held is none more, and 24 and 28 come before 25.
    assert_eq!(bench.give(&[piece(11, 51, 0, 0, &[0]), piece(11, 51, 0, 51, b"!")].concat()), [Same, BAD]);
    assert_eq!(bench.give(&[piece(11, 51, 0, 0, &[0]), piece(11, 51, 0, 0, &[0, 2])].concat()), [Same, DISAGREE]);
    assert_eq!(bench.give(&piece(11, 51, 0, 0, &[1])), [DISAGREE]);
    assert_eq!(bench.give(&piece(12, 51, 0, 50, b"!")), [DISAGREE]);
    assert_eq!(bench.give(&piece(11, 52, 0, 50, b"!")), [DISAGREE]);
    assert_eq!(bench.buffer, before);
}

#[test]
fn a_body_of_16384_bytes_and_not_one_more() {
    let body: Vec<u8> = (0..16_384).map(|i| (i * 7 % 251) as u8).collect();
    let mut bench = Bench::new();
    for (i, part) in body.chunks(1000).enumerate().skip(1) {
        assert_eq!(bench.give(&piece(11, 16_384, 0, 1000 * i, part)), [Held]);
    }
    assert_eq!(bench.give(&piece(11, 16_384, 0, 0, &body[..1000])), [Message(11, 0, body.clone())]);
    assert_eq!(bench.give(&piece(11, 16_384, 1, 0, &body)), [Message(11, 1, body.clone())]);
    assert_eq!(bench.give(&piece(11, 16_385, 2, 0, &body)), [BAD]);
    assert_eq!(bench.give(&piece(11, 16_385, 2, 0, b"")), [BAD]);
}

#[test]
fn a_piece_past_its_total() {
    let mut bench = Bench::new();
    assert_eq!(bench.give(&of_ten(4, b"4567890")), [BAD]);
    assert_eq!(bench.give(&of_ten(11, b"")), [BAD]);
    assert_eq!(bench.buffer, [0xEE; Assembly::MESSAGE_ROOM]);
    // None of them was the first piece held.
    assert_eq!(bench.give(&piece(1, 2, 0, 0, b"ok")), [Message(1, 0, b"ok".to_vec())]);
}

#[test]
fn a_piece_past_its_record() {
    let whole = of_ten(0, b"0123456789");
    for length in 1..whole.len() {
        let mut bench = Bench::new();
        assert_eq!(bench.give(&whole[..length]), [BAD], "{length}");
        assert_eq!(bench.give(&whole), [ten(b"0123456789")]);
    }
    // A length up to the record's end takes in what stands there.
    assert_eq!(Bench::new().give(&[&header(1, 4, 0, 0, 4)[..], b"abcd"].concat()), [Message(1, 0, b"abcd".to_vec())]);
}

#[test]
fn another_number_is_passed_over() {
    let mut bench = Bench::new();
    assert_eq!(bench.give(&of_ten(0, b"01234")), [Held]);
    let before = bench.buffer.clone();
    // Whatever its header says, it is measured against the record alone.
    let others = [piece(11, 10, 1, 0, b"xxxxx"), piece(1, 0xFF_FFFF, 7, 0xFF_FFFF, b"yy"), piece(1, 0, 65_535, 0, b"zzz")];
    assert_eq!(bench.give(&others.concat()), [Other(1), Other(7), Other(65_535)]);
    assert_eq!(bench.give(&[header(11, 10, 1, 0, 6), b"xxxxx".to_vec()].concat()), [BAD]);
    assert_eq!(bench.buffer, before);
    // A later one is not kept.
    assert_eq!(bench.give(&[of_ten(5, b"56789"), piece(2, 10, 1, 5, b"xxxxx")].concat()), [ten(b"0123456789"), Held]);
}

#[test]
fn a_short_buffer_is_told_and_the_piece_asked_for_again() {
    let record = [of_ten(0, b"01234"), of_ten(5, b"56789")].concat();
    let mut buffer = [0; Assembly::MESSAGE_ROOM];
    let mut assembly = Assembly::new();
    let mut pieces = assembly.pieces(&record);
    let too_small = Refused(Refusal::BufferTooSmall { needed: 16_384 });
    let mut next = |length: usize| pieces.next(&mut buffer[..length]).transpose().map(came);
    assert_eq!([next(0), next(16_383), next(16_384)], [Some(too_small.clone()), Some(too_small.clone()), Some(Held)]);
    assert_eq!([next(16_383), next(16_384)], [Some(too_small.clone()), Some(ten(b"0123456789"))]);
    // It is told even where the record ends.
    assert_eq!([next(16_383), next(16_384)], [Some(too_small), None]);
    // Of a longer one only the start is used.
    let mut long = [0xEE; Assembly::MESSAGE_ROOM + 1];
    let answer = assembly.pieces(&piece(1, 1, 1, 0, b"1")).next(&mut long).transpose().map(came);
    assert_eq!(answer, Some(Message(1, 1, vec![b'1'])));
    assert!(long[1..].iter().all(|byte| *byte == 0xEE));
}

#[test]
fn a_refusal_ends_the_record_and_keeps_the_earlier_pieces() {
    let mut bench = Bench::new();
    let record = [of_ten(0, b"0123"), of_ten(8, b"89x"), of_ten(4, b"4567"), of_ten(8, b"89")].concat();
    assert_eq!(bench.give(&record), [Held, BAD]);
    // The record was over: what stood behind the bad piece is not held.
    assert_eq!(bench.give(&[of_ten(0, b"0123"), of_ten(8, b"89")].concat()), [Same, Held]);
    assert_eq!(bench.give(&of_ten(4, b"4567")), [ten(b"0123456789")]);
}

#[test]
fn pieces_that_are_not_taken_are_left_out() {
    let mut bench = Bench::new();
    let record = [of_ten(0, b"01234"), of_ten(5, b"56789")].concat();
    assert_eq!(bench.assembly.pieces(&record).next(&mut bench.buffer), Ok(Some(Piece::Held)));
    // The next record is taken from its start, and the second piece is not held.
    assert_eq!(bench.give(&of_ten(5, b"56")), [Held]);
    assert_eq!(bench.give(&record), [Same, ten(b"0123456789")]);
    // One that is only begun changes nothing.
    let one = piece(1, 1, 1, 0, b"1");
    let _ = bench.assembly.pieces(&one);
    assert_eq!(bench.give(&one), [Message(1, 1, vec![b'1'])]);
}

#[test]
fn message_numbers_are_spent_at_65535() {
    let mut bench = Bench::new();
    for number in 0..65_535 {
        assert_eq!(bench.give(&piece(1, 0, number, 0, b"")), [Message(1, number, vec![])]);
    }
    assert_eq!(bench.give(&piece(1, 0, 65_535, 0, b"")), [BAD]);
    assert_eq!(bench.give(&[piece(1, 0, 65_534, 0, b""), piece(1, 0, 0, 0, b"")].concat()), [Other(65_534), Other(0)]);
}

/// What a sender cut comes out whole at the far end, through records that are sealed, lost, sent again and read in another order.
#[cfg(feature = "alloc")]
#[test]
fn messages_of_a_sender() {
    use huskelapse::{Reading, Receiver, Sender};

    let (certificate, finished) = ([7; 2000], [8; 40]);
    let mut sender = Sender::new(600, 16).unwrap();
    sender.key(2, &[7; 12]).unwrap();
    sender.message(11, &certificate).unwrap();
    sender.message(20, &finished).unwrap();
    sender.resend().unwrap();
    sender.seal(&mut toy::Toy(5)).unwrap();
    let mut datagrams = Vec::new();
    while let Some(datagram) = sender.take_in_place().unwrap() {
        datagrams.push(datagram.to_vec());
    }
    let (mut receiver, mut other) = (Receiver::new(Receiver::MIN_PROTECTED).unwrap(), Sender::new(600, 1).unwrap());
    receiver.key(2, &[7; 12]).unwrap();
    receiver.enable_peer_encryption();
    let (mut bench, mut all) = (Bench::new(), Vec::new());
    // The first datagram is lost, the others come last first.
    for datagram in datagrams.iter_mut().skip(1).rev() {
        for reading in receiver.read(datagram, &mut toy::Toy(5), &mut other).unwrap() {
            let Reading::Handshake { content, .. } = reading else { panic!("{reading:?}") };
            all.extend(bench.give(content));
        }
    }
    let messages: Vec<_> = all.iter().filter(|came| matches!(came, Message(..))).collect();
    assert_eq!(messages, [&Message(11, 0, certificate.to_vec()), &Message(20, 1, finished.to_vec())]);
    assert!(all.contains(&Other(1)) && all.contains(&Held));
}
