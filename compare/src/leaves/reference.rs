//! The Rust's answers.

use std::cell::Cell;
use std::mem;
use std::sync::atomic::AtomicBool;

use arrayvec::ArrayVec;

use super::{BEYOND, Cut, END, PLAIN, REFUSED, SEALED, SEVENTEENTH, be, put};
use crate::buffer::{Buf, TmpBuf};
use crate::crypto::Nonce;
use crate::dtls13::engine;
use crate::dtls13::incoming::{self, Record, RecordHandler};
use crate::dtls13::message::{
    Body, ContentType, Dtls13Record, Handshake, Header, MessageType, Sequence,
};
use crate::requests::{self, REBUILDING};
use crate::verdict::{Marked, Verdict};
use crate::window::ReplayWindow;
use crate::{CryptoError, Error, InternalError};

/// The Rust says whether a number is fresh. Whether another is seen or too old (request 5) is worked out beside it.
pub fn window(input: &[u8], out: &mut Vec<u8>) {
    let mut window = ReplayWindow::new();
    let mut marked = Marked::default();
    for step in input.chunks(9) {
        let number = be(&step[1..]);
        if step[0] == 0 {
            let verdict = marked.verdict(number).beside(window.check(number));
            out.push(match verdict {
                Verdict::Fresh => 0,
                Verdict::Seen => 1,
                Verdict::TooOld => 2,
            });
        } else {
            window.update(number);
            marked.mark(number);
        }
    }
}

/// Partial and expected number, and how many bits of the partial one count.
fn rebuilding(input: &[u8]) -> (u64, u64, u32) {
    let bits = if input[0] == 1 { 16 } else { 8 };
    (be(&input[1..9]), be(&input[9..]), bits)
}

pub fn sequence(input: &[u8], out: &mut Vec<u8>) {
    let (partial, expected, bits) = rebuilding(input);
    put(
        out,
        8,
        engine::probe::reconstruct_sequence(partial, expected, bits),
    );
}

/// Difference 5: the Rust makes 0 of a negative number.
pub fn sequence_changed(input: &[u8], out: &mut Vec<u8>) -> Option<usize> {
    let (partial, expected, bits) = rebuilding(input);
    let (number, changed) = requests::rebuilt(partial, expected, bits, be(out));
    out.clear();
    put(out, 8, number);
    changed.then_some(REBUILDING)
}

pub fn nonce(input: &[u8], out: &mut Vec<u8>) {
    let iv = input[..12].try_into().unwrap();
    out.extend_from_slice(&Nonce::xor(iv, be(&input[12..])).0);
}

fn written(record: Dtls13Record, out: &mut Vec<u8>) {
    let mut header = Buf::new();
    record.serialize(&[], &mut header);
    out.extend_from_slice(&header);
}

pub fn plaintext_header(input: &[u8], out: &mut Vec<u8>) {
    let record = Dtls13Record {
        content_type: ContentType::from_u8(input[0]),
        sequence: Sequence {
            epoch: 0,
            sequence_number: be(&input[1..9]),
        },
        length: be(&input[9..]) as u16,
        fragment_range: 0..0,
    };
    written(record, out);
}

pub fn unified_header(input: &[u8], out: &mut Vec<u8>) {
    let record = Dtls13Record {
        content_type: ContentType::ApplicationData,
        sequence: Sequence {
            epoch: be(&input[..2]) as u16,
            sequence_number: be(&input[2..10]),
        },
        length: be(&input[10..]) as u16,
        fragment_range: 0..0,
    };
    written(record, out);
}

pub fn handshake_header(input: &[u8], out: &mut Vec<u8>) {
    let handshake = Handshake {
        header: Header {
            msg_type: MessageType::from_u8(input[0]),
            length: be(&input[1..5]) as u32,
            message_seq: be(&input[5..7]) as u16,
            fragment_offset: be(&input[7..11]) as u32,
            fragment_length: be(&input[11..]) as u32,
        },
        body: Body::Fragment(0..0),
        handled: AtomicBool::new(false),
    };
    let mut header = Buf::new();
    handshake.serialize(&[], &mut header);
    out.extend_from_slice(&header);
}

pub fn parse_handshake_header(input: &[u8], out: &mut Vec<u8>) {
    let Ok((_, header)) = Handshake::parse_header(input) else {
        out.extend_from_slice(&[0; 13]);
        return;
    };
    out.extend_from_slice(&[1, header.msg_type.as_u8()]);
    put(out, 3, header.length as u64);
    put(out, 2, header.message_seq as u64);
    put(out, 3, header.fragment_offset as u64);
    put(out, 3, header.fragment_length as u64);
}

pub fn inner_content_type(input: &[u8], out: &mut Vec<u8>) {
    match incoming::probe::recover_inner_content_type(input) {
        Ok((content_type, length)) => {
            out.extend_from_slice(&[1, content_type.as_u8()]);
            put(out, 2, length as u64);
        }
        Err(_) => out.extend_from_slice(&[0; 4]),
    }
}

pub fn first_record(input: &[u8], out: &mut Vec<u8>) {
    cuts(input)[0].put(out);
}

pub fn all_records(input: &[u8], out: &mut Vec<u8>) {
    for cut in cuts(input) {
        cut.put(out);
    }
}

/// What `Records::parse_records` makes of the datagram: its records, then its end.
///
/// It is run twice. With peer encryption on the handler is asked about each sealed record, up to
/// its opening, which it refuses. With peer encryption off a sealed record with epoch bits 2 or 3
/// is kept unopened. Both must give the same records.
fn cuts(datagram: &[u8]) -> Vec<Cut> {
    let on = Recorder::run(datagram, true);
    let off = Recorder::run(datagram, false);
    for (on, off) in on.iter().zip(&off) {
        let unseen = Cut {
            header_len: 0,
            sequence_number: 0,
            length: on.header_len + on.length,
            s_flag: 0,
            ..*on
        };
        let unflagged = Cut { s_flag: 0, ..*on };
        let agree = match (on.kind, off.kind) {
            // Epoch bits 0 and 1 drop before the header is read.
            (SEALED, SEALED) if on.epoch_bits < 2 => *off == unseen,
            (SEALED, SEALED) => *off == unflagged,
            // More records are kept.
            (_, SEVENTEENTH) => true,
            _ => on == off,
        };
        assert!(agree, "peer encryption on {on:?}, off {off:?}");
    }
    on
}

/// A handler that writes down what it is asked.
struct Recorder {
    encryption: bool,
    /// For each record cut: its bytes, if it was dropped.
    dropped: Vec<Option<Buf>>,
    /// Epoch bits, number and s_flag of the sealed record under way.
    asked: Cell<Option<(u16, u64, bool)>>,
    /// Header and protected part of each sealed record.
    opened: Vec<Option<Cut>>,
}

impl Recorder {
    fn run(datagram: &[u8], encryption: bool) -> Vec<Cut> {
        let mut recorder = Recorder {
            encryption,
            dropped: Vec::new(),
            asked: Cell::new(None),
            opened: Vec::new(),
        };
        let mut records = ArrayVec::new();
        let result = incoming::probe::parse_records(datagram, &mut recorder, &mut records);
        let end = match result {
            Ok(()) => END,
            Err(InternalError::ParseIncomplete) => BEYOND,
            Err(InternalError::TooManyRecords) => {
                // The seventeenth was cut, then handed back.
                recorder.dropped.pop();
                SEVENTEENTH
            }
            Err(error) => panic!("{error}"),
        };

        let mut kept = records.iter();
        let mut cuts = Vec::new();
        for (dropped, opened) in recorder.dropped.iter().zip(&recorder.opened) {
            cuts.push(match (dropped, opened) {
                (Some(bytes), Some(cut)) => {
                    assert_eq!(bytes.len(), cut.header_len + cut.length);
                    *cut
                }
                (Some(bytes), None) => recorder.dropped_unasked(bytes),
                (None, None) => kept_cut(kept.next().unwrap()),
                (None, Some(_)) => panic!("kept, though not opened"),
            });
        }
        assert!(kept.next().is_none());
        cuts.push(Cut::of(end));
        cuts
    }

    /// A record dropped with no question: a plaintext record refused, or a sealed one before peer
    /// encryption, of which only the length and the epoch bits were looked at.
    fn dropped_unasked(&self, bytes: &[u8]) -> Cut {
        if Dtls13Record::is_ciphertext_header(bytes[0]) {
            assert!(!self.encryption);
            return Cut {
                epoch_bits: bytes[0] & 3,
                length: bytes.len(),
                ..Cut::of(SEALED)
            };
        }
        let header_len = Dtls13Record::PLAINTEXT_HEADER_LEN;
        Cut {
            header_len,
            length: bytes.len() - header_len,
            ..Cut::of(REFUSED)
        }
    }
}

/// A record that was kept.
fn kept_cut(record: &Record) -> Cut {
    let Dtls13Record {
        content_type,
        sequence,
        length,
        fragment_range,
    } = record.record();
    assert_eq!(fragment_range.end, record.buffer().len());
    assert_eq!(fragment_range.len(), *length as usize);
    let sealed = Dtls13Record::is_ciphertext_header(record.buffer()[0]);
    Cut {
        kind: if sealed { SEALED } else { PLAIN },
        content_type: if sealed { 0 } else { content_type.as_u8() },
        epoch_bits: sequence.epoch as u8,
        s_flag: 0,
        sequence_number: sequence.sequence_number,
        header_len: fragment_range.start,
        length: *length as usize,
    }
}

impl RecordHandler for Recorder {
    fn pop_buffer(&mut self) -> Buf {
        self.dropped.push(None);
        self.opened.push(None);
        self.asked.set(None);
        Buf::new()
    }

    fn push_buffer(&mut self, buffer: Buf) {
        *self.dropped.last_mut().unwrap() = Some(buffer);
    }

    fn is_peer_encryption_enabled(&self) -> bool {
        self.encryption
    }

    fn resolve_epoch(&self, epoch_bits: u8) -> u16 {
        epoch_bits as u16
    }

    fn resolve_sequence(&self, epoch: u16, seq_bits: u64, s_flag: bool) -> u64 {
        self.asked.set(Some((epoch, seq_bits, s_flag)));
        seq_bits
    }

    fn replay_check(&self, _: Sequence) -> bool {
        true
    }

    fn min_protected_fragment_len(&self) -> usize {
        0
    }

    fn decrypt_sequence_number(&self, _: u16, _: &mut [u8], _: &[u8; 16]) {}

    fn decrypt_record(
        &mut self,
        header: &[u8],
        sequence: Sequence,
        ciphertext: &mut TmpBuf,
    ) -> Result<(), Error> {
        let (epoch, number, s_flag) = self.asked.take().expect("opening without a number");
        assert_eq!((sequence.epoch, sequence.sequence_number), (epoch, number));
        *self.opened.last_mut().unwrap() = Some(Cut {
            kind: SEALED,
            content_type: 0,
            epoch_bits: epoch as u8,
            s_flag: s_flag as u8,
            sequence_number: number,
            header_len: header.len(),
            length: ciphertext.len(),
        });
        Err(Error::CryptoError(CryptoError::NotOpened))
    }

    fn replay_update(&mut self, _: Sequence) {
        unreachable!("nothing is opened")
    }

    fn classify_record(&mut self, _: Record) -> Result<Option<Record>, Error> {
        unreachable!("records are not classified while they are cut")
    }
}
