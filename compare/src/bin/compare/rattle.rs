//! The Rattle library's answers, over its C interface.

use dimpl::leaves::{BEYOND, Cut, END, PLAIN, SEVENTEENTH, be, put};

// A bool of the interface is read as a byte.

#[repr(C)]
#[derive(Clone, Copy)]
struct LeavesWindow {
    max_seq: u64,
    window: u64,
}

#[repr(C)]
struct LeavesNonce {
    bytes: [u8; 12],
}

#[repr(C)]
struct LeavesParsed {
    kind: u8,
    content_type: u8,
    epoch_bits: u8,
    s_flag: u8,
    sequence_number: u64,
    header_len: usize,
    length: usize,
}

#[repr(C)]
struct LeavesPlain {
    bytes: [u8; 13],
}

#[repr(C)]
struct LeavesUnified {
    bytes: [u8; 5],
}

#[repr(C)]
struct LeavesHandshake {
    bytes: [u8; 12],
}

#[repr(C)]
struct LeavesHeader {
    found: u8,
    msg_type: u8,
    length: u32,
    message_seq: u16,
    fragment_offset: u32,
    fragment_length: u32,
}

#[repr(C)]
struct LeavesInner {
    found: u8,
    content_type: u8,
    length: usize,
}

unsafe extern "C" {
    safe fn leaves_window_new() -> LeavesWindow;
    safe fn leaves_window_check(w: LeavesWindow, seqno: u64) -> u8;
    safe fn leaves_window_update(w: LeavesWindow, seqno: u64) -> LeavesWindow;
    safe fn leaves_reconstruct_sequence(partial: u64, expected: u64, s_flag: bool) -> u64;
    safe fn leaves_nonce_xor(iv: LeavesNonce, seq: u64) -> LeavesNonce;
    fn leaves_parse(d: *const u8, n: usize) -> LeavesParsed;
    safe fn leaves_plaintext_header(
        content_type: u8,
        sequence_number: u64,
        length: u16,
    ) -> LeavesPlain;
    safe fn leaves_unified_header(epoch: u16, sequence_number: u64, length: u16) -> LeavesUnified;
    safe fn leaves_handshake_header(
        msg_type: u8,
        length: u32,
        message_seq: u16,
        fragment_offset: u32,
        fragment_length: u32,
    ) -> LeavesHandshake;
    fn leaves_parse_handshake_header(d: *const u8, n: usize) -> LeavesHeader;
    fn leaves_recover_inner_content_type(d: *const u8, n: usize) -> LeavesInner;
}

pub fn answer(letter: char, input: &[u8], out: &mut Vec<u8>) {
    match letter {
        'w' => window(input, out),
        's' => {
            let (partial, expected) = (be(&input[1..9]), be(&input[9..]));
            let number = leaves_reconstruct_sequence(partial, expected, input[0] == 1);
            put(out, 8, number);
        }
        'n' => {
            let bytes = input[..12].try_into().unwrap();
            let nonce = leaves_nonce_xor(LeavesNonce { bytes }, be(&input[12..]));
            out.extend_from_slice(&nonce.bytes);
        }
        'p' => parse(input).put(out),
        'd' => all_records(input, out),
        'q' => {
            let (number, length) = (be(&input[1..9]), be(&input[9..]) as u16);
            let header = leaves_plaintext_header(input[0], number, length);
            out.extend_from_slice(&header.bytes);
        }
        'u' => {
            let epoch = be(&input[..2]) as u16;
            let (number, length) = (be(&input[2..10]), be(&input[10..]) as u16);
            let header = leaves_unified_header(epoch, number, length);
            out.extend_from_slice(&header.bytes);
        }
        'h' => {
            let header = leaves_handshake_header(
                input[0],
                be(&input[1..5]) as u32,
                be(&input[5..7]) as u16,
                be(&input[7..11]) as u32,
                be(&input[11..]) as u32,
            );
            out.extend_from_slice(&header.bytes);
        }
        'g' => {
            let header = unsafe { leaves_parse_handshake_header(input.as_ptr(), input.len()) };
            out.extend_from_slice(&[header.found, header.msg_type]);
            put(out, 3, header.length as u64);
            put(out, 2, header.message_seq as u64);
            put(out, 3, header.fragment_offset as u64);
            put(out, 3, header.fragment_length as u64);
        }
        't' => {
            let inner = unsafe { leaves_recover_inner_content_type(input.as_ptr(), input.len()) };
            out.extend_from_slice(&[inner.found, inner.content_type]);
            put(out, 2, inner.length as u64);
        }
        _ => unreachable!("no such leaf: {letter}"),
    }
}

fn window(input: &[u8], out: &mut Vec<u8>) {
    let mut window = leaves_window_new();
    for step in input.chunks(9) {
        let number = be(&step[1..]);
        if step[0] == 0 {
            out.push(leaves_window_check(window, number));
        } else {
            window = leaves_window_update(window, number);
        }
    }
}

fn parse(rest: &[u8]) -> Cut {
    let parsed = unsafe { leaves_parse(rest.as_ptr(), rest.len()) };
    Cut {
        kind: parsed.kind,
        content_type: parsed.content_type,
        epoch_bits: parsed.epoch_bits,
        s_flag: parsed.s_flag,
        sequence_number: parsed.sequence_number,
        header_len: parsed.header_len,
        length: parsed.length,
    }
}

/// Parses record after record, as far as the Rust goes: up to a seventeenth that is kept.
fn all_records(datagram: &[u8], out: &mut Vec<u8>) {
    let mut rest = datagram;
    let mut kept = 0;
    loop {
        let cut = parse(rest);
        if cut.kind == PLAIN {
            kept += 1;
            if kept == 17 {
                Cut::of(SEVENTEENTH).put(out);
                return;
            }
        }
        cut.put(out);
        let end = cut.header_len.saturating_add(cut.length);
        if cut.kind == END || cut.kind == BEYOND || end == 0 || end > rest.len() {
            return;
        }
        rest = &rest[end..];
    }
}
