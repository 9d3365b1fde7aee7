//! The Rust's side of each row.

use std::hint::black_box;
use std::sync::Arc;

use arrayvec::ArrayVec;
use dimpl::crypto::null;
use dimpl::dtls13::engine::{self, Engine, probe};
use dimpl::dtls13::incoming::{self, Record, RecordHandler};
use dimpl::dtls13::message::MessageType;
use dimpl::types::{ContentType, Dtls13CipherSuite};
use dimpl::{Config, DtlsCertificate};

use crate::clock::{time, time_in_rows};
use crate::inputs::*;

pub fn engine() -> Engine {
    let config = Config {
        mtu: MTU,
        max_queue_tx: QUEUE,
        crypto_provider: null::provider(),
        ..Config::default()
    };
    let mut engine = Engine::new(Arc::new(config), DtlsCertificate::default());
    engine.set_cipher_suite(Dtls13CipherSuite::AES_128_GCM_SHA256);
    probe::key_null(&mut engine, IV);
    engine
}

pub fn send_record(engine: &mut Engine, content: &[u8]) {
    engine
        .create_ciphertext_record(ContentType::ApplicationData, 3, false, |fragment| {
            fragment.extend_from_slice(content)
        })
        .unwrap();
}

/// A message of type 11.
pub fn send_message(engine: &mut Engine, body: &[u8]) {
    engine
        .create_handshake(MessageType::Certificate, |buffer, _| {
            buffer.extend_from_slice(body);
            Ok(())
        })
        .unwrap();
}

/// Takes all that is queued; how many datagrams there were.
fn take_all(engine: &mut Engine) -> usize {
    let mut out = [0; MTU];
    let mut n = 0;
    while let probe::Taken::Datagram(len) = probe::take(engine, &mut out) {
        black_box(&out[..len]);
        n += 1;
    }
    n
}

/// A new flight, its records sent and saved in epoch 2.
pub fn send_flight(engine: &mut Engine, content: &[u8]) {
    engine.flight_begin(1);
    for _ in 0..FLIGHT {
        engine
            .create_ciphertext_record(ContentType::Handshake, 2, true, |fragment| {
                fragment.extend_from_slice(content)
            })
            .unwrap();
    }
}

/// The one record of a datagram, read.
#[inline(always)]
fn read_one(engine: &mut Engine, datagram: &[u8]) -> Record {
    let mut records: ArrayVec<Record, 16> = ArrayVec::new();
    incoming::probe::parse_records(datagram, engine, &mut records).unwrap();
    records.pop().unwrap()
}

/// What is read is used, and its buffer given back.
#[inline(always)]
fn use_one(engine: &mut Engine, record: Record, n: usize, i: u32) {
    assert!(record.record().length as usize == n);
    assert!(record.record().sequence.sequence_number == i as u64);
    black_box(record.record().fragment(record.buffer()));
    RecordHandler::push_buffer(engine, incoming::probe::into_buffer(record));
}

/// Reads a record with a content of n bytes, each time under the next number.
fn read_each(mut record: Vec<u8>, n: usize, count: u32, number: impl Fn(&mut [u8], u32)) -> f64 {
    let mut engine = engine();
    time(count, |i| {
        number(&mut record, i);
        let one = read_one(&mut engine, black_box(&record));
        use_one(&mut engine, one, n, i);
    })
}

pub fn read(n: usize, count: u32) -> f64 {
    read_each(sealed(n), n, count, number)
}

pub fn read_padded(n: usize, count: u32) -> f64 {
    read_each(padded(n), 0, count, short_number)
}

pub fn deal(n: usize, count: u32) -> f64 {
    let mut engine = engine();
    let mut record = sealed(n);
    time(count, |i| {
        number(&mut record, i);
        let one = read_one(&mut engine, black_box(&record));
        let kept = engine.classify_record(one).unwrap().unwrap();
        use_one(&mut engine, kept, n, i);
    })
}

pub fn send(n: usize, count: u32) -> f64 {
    let mut engine = engine();
    let content = vec![0x55; n];
    let mut out = [0; MTU];
    time(count, |_| {
        send_record(&mut engine, black_box(&content));
        let engine::probe::Taken::Datagram(len) = probe::take(&mut engine, &mut out) else {
            panic!("a datagram waits")
        };
        assert!(len == n + 22);
        black_box(&out[..len]);
    })
}

pub fn message(count: u32) -> f64 {
    let mut engine = engine();
    let body = vec![0x55; 16384];
    time(count, |_| {
        engine.flight_begin(1);
        probe::forget_transcript(&mut engine);
        send_message(&mut engine, black_box(&body));
        assert!(take_all(&mut engine) == 12);
    })
}

pub fn resend(count: u32) -> f64 {
    let mut engine = engine();
    let content = vec![0x55; SAVED];
    let prepare = |engine: &mut Engine| {
        send_flight(engine, &content);
        assert!(take_all(engine) == FLIGHT);
    };
    time_in_rows(&mut engine, count, RESENDS, prepare, |engine, _| {
        engine.flight_resend("").unwrap();
        assert!(take_all(engine) == FLIGHT);
    })
}

/// A flight sent, and resent twice.
fn resent_twice() -> Engine {
    let mut engine = engine();
    send_flight(&mut engine, &[0x55; SAVED]);
    take_all(&mut engine);
    for _ in 0..2 {
        engine.flight_resend("").unwrap();
        take_all(&mut engine);
    }
    engine
}

pub fn act_on_ack(count: u32) -> f64 {
    let mut engines: Vec<Engine> = (0..FLIGHTS).map(|_| resent_twice()).collect();
    let ack = ack_of_32();
    let prepare = |engines: &mut Vec<Engine>| engines.iter_mut().for_each(probe::unmark);
    let spent = time_in_rows(
        &mut engines,
        count,
        FLIGHTS as u32,
        prepare,
        |engines, i| {
            probe::process_ack(&mut engines[i as usize], black_box(&ack)).unwrap();
        },
    );
    for engine in &engines {
        let saved = probe::sending(engine).saved;
        assert!(
            saved.len() == FLIGHT
                && saved.iter().filter(|entry| entry.marked).count() == FLIGHT - 1
        );
    }
    spent
}
