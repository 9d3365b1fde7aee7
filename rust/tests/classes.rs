//! Each record comes as what it is: ACKs acted on, the close and what lies beyond it, alerts, and plaintext once peer encryption is on.
#![cfg(feature = "alloc")]

mod toy;

use huskelapse::content_type::{ACK, ALERT, APPLICATION_DATA, HANDSHAKE};
use huskelapse::{Cipher, Reading, Receiver, Sender};
use toy::Toy;

const CHANGE_CIPHER_SPEC: u8 = 20;
const CLOSE: [u8; 2] = [1, 0];
const FATAL: [u8; 2] = [2, 40];
const CANCELED: [u8; 2] = [1, 90];

/// A sealed record of any type and number.
fn sealed(epoch: u16, number: u64, content_type: u8, content: &[u8]) -> Vec<u8> {
    let mut nonce = [7; 12];
    nonce[4..].iter_mut().zip(number.to_be_bytes()).for_each(|(byte, of)| *byte ^= of);
    let [.., high, low] = number.to_be_bytes();
    let [length_high, length_low] = (content.len() as u16 + 17).to_be_bytes();
    let mut header = [0x2C | epoch as u8 & 3, high, low, length_high, length_low];
    let mut part = [content, &[content_type], &[0; 16]].concat();
    Toy(5).seal(epoch, number, &nonce, &header, &mut part).unwrap();
    let mask = Toy(5).mask(epoch, part.first_chunk().unwrap()).unwrap();
    (header[1], header[2]) = (high ^ mask[0], low ^ mask[1]);
    [&header[..], &part].concat()
}

fn plaintext(number: u8, content_type: u8, content: &[u8]) -> Vec<u8> {
    let header = [content_type, 0xFE, 0xFD, 0, 0, 0, 0, 0, 0, 0, number, 0, content.len() as u8];
    [&header[..], content].concat()
}

/// The content of an ACK that names this record.
fn ack_of(epoch: u64, number: u64) -> Vec<u8> {
    [&[0, 16][..], &epoch.to_be_bytes(), &number.to_be_bytes()].concat()
}

/// Both directions of an end.
struct End {
    receiver: Receiver,
    sender: Sender,
}

impl End {
    /// Nothing is keyed to receive. Records 0 and 1 of epoch 2 are saved.
    fn before_encryption() -> End {
        let (receiver, mut sender) = (Receiver::new(Receiver::MIN_PROTECTED).unwrap(), Sender::new(600, 4).unwrap());
        sender.key(2, &[8; 12]).unwrap();
        for _ in 0..2 {
            sender.send_saved(2, HANDSHAKE, b"piece").unwrap();
        }
        End { receiver, sender }
    }

    fn new() -> End {
        let mut end = End::before_encryption();
        end.encrypt();
        end
    }

    fn encrypt(&mut self) {
        for epoch in [2, 3] {
            self.receiver.key(epoch, &[7; 12]).unwrap();
        }
        self.receiver.enable_peer_encryption();
    }

    /// What the records of one datagram come to.
    fn read(&mut self, records: &[Vec<u8>]) -> Vec<String> {
        let (mut datagram, mut cipher) = (records.concat(), Toy(5));
        let readings = self.receiver.read(&mut datagram, &mut cipher, &mut self.sender).unwrap();
        readings.map(|reading| format!("{reading:?}")).collect()
    }

    fn unacknowledged(&self) -> usize {
        self.sender.status().unacknowledged
    }
}

fn told(readings: &[Reading]) -> Vec<String> {
    readings.iter().map(|reading| format!("{reading:?}")).collect()
}

fn data(number: u64) -> Reading<'static> {
    Reading::ApplicationData { epoch: 3, number, content: b"14.2 kWh" }
}

fn meter(number: u64) -> Vec<u8> {
    sealed(3, number, APPLICATION_DATA, b"14.2 kWh")
}

#[test]
fn sealed_records_come_as_what_they_are() {
    let mut end = End::new();
    let records = [
        sealed(2, 0, HANDSHAKE, b"piece"),
        meter(0),
        sealed(3, 1, 30, b"?"),
        sealed(3, 2, CHANGE_CIPHER_SPEC, &[1]),
        sealed(3, 3, ALERT, &CANCELED),
        sealed(3, 4, ALERT, &[2]),
    ];
    let expected = [
        Reading::Handshake { epoch: 2, number: 0, content: b"piece" },
        data(0),
        Reading::Other { epoch: 3, number: 1, content_type: 30, content: b"?" },
        Reading::Ignored { epoch: 3, number: 2, content_type: CHANGE_CIPHER_SPEC },
        Reading::Ignored { epoch: 3, number: 3, content_type: ALERT },
        Reading::Ignored { epoch: 3, number: 4, content_type: ALERT },
    ];
    assert_eq!(end.read(&records), told(&expected));
}

#[test]
fn an_ack_is_acted_on_once() {
    let mut end = End::new();
    let ack = sealed(2, 0, ACK, &ack_of(2, 0));
    let mut datagram = ack.clone();
    let first = end.receiver.read(&mut datagram, &mut Toy(5), &mut end.sender).unwrap().next();
    let Some(Reading::Ack { epoch: 2, number: 0, acked }) = first else { panic!("{first:?}") };
    assert_eq!((acked.marked, acked.unacknowledged, acked.saved), (1, 1, 2));
    assert_eq!((end.read(&[ack])[0].as_str(), end.unacknowledged()), ("Dropped(Seen)", 1));
    assert_eq!(end.sender.resend(), Ok(1));
}

#[test]
fn an_alert_ends_its_datagram() {
    let mut end = End::new();
    let records = [meter(0), sealed(3, 1, ALERT, &FATAL), meter(2), plaintext(9, ALERT, &CLOSE)];
    let alert = Reading::Alert { epoch: 3, number: 1, description: 40 };
    assert_eq!(end.read(&records), told(&[data(0), alert]));
    // What was behind it is not used, and the next datagram is read as ever.
    assert_eq!(end.read(&records[2..3]), told(&[data(2)]));
}

#[test]
fn what_lies_beyond_the_close_is_dropped() {
    let mut end = End::new();
    let close = sealed(3, 5, ALERT, &CLOSE);
    let beyond = |epoch, number| Reading::Beyond { epoch, number };
    let readings =
        end.read(&[meter(7), close, meter(6), meter(4), sealed(3, 8, ALERT, &FATAL), sealed(3, 9, ACK, &ack_of(2, 0))]);
    let expected = [data(7), Reading::Close { epoch: 3, number: 5 }, beyond(3, 6), data(4), beyond(3, 8), beyond(3, 9)];
    assert_eq!(readings, told(&expected));
    assert_eq!(end.unacknowledged(), 2);
    // A higher epoch is beyond it whatever the number, a lower one is not; and it stays so in later datagrams.
    end.receiver.key(4, &[7; 12]).unwrap();
    let readings = end.read(&[sealed(4, 0, APPLICATION_DATA, b""), sealed(2, 9, HANDSHAKE, b"piece"), meter(3)]);
    assert_eq!(readings, told(&[beyond(4, 0), Reading::Handshake { epoch: 2, number: 9, content: b"piece" }, data(3)]));
}

#[test]
fn a_second_close_is_ignored() {
    let mut end = End::new();
    let [late, first] = [2, 5].map(|number| sealed(3, number, ALERT, &CLOSE));
    let readings = end.read(&[first, late, meter(3), meter(6)]);
    let ignored = Reading::Ignored { epoch: 3, number: 2, content_type: ALERT };
    let beyond = Reading::Beyond { epoch: 3, number: 6 };
    assert_eq!(readings, told(&[Reading::Close { epoch: 3, number: 5 }, ignored, data(3), beyond]));
}

/// In plaintext several records can have one number: that of the close is not beyond it.
#[test]
fn a_record_at_the_close_is_handed_over() {
    let mut end = End::before_encryption();
    let readings = end.read(&[plaintext(4, ALERT, &CLOSE), plaintext(4, HANDSHAKE, b"hello"), plaintext(5, HANDSHAKE, b"hello")]);
    let hello = Reading::Handshake { epoch: 0, number: 4, content: b"hello" };
    assert_eq!(readings, told(&[Reading::Close { epoch: 0, number: 4 }, hello, Reading::Beyond { epoch: 0, number: 5 }]));
    // Every sealed epoch is beyond it.
    end.encrypt();
    assert_eq!(end.read(&[meter(0)]), told(&[Reading::Beyond { epoch: 3, number: 0 }]));
}

#[test]
fn before_encryption() {
    let mut end = End::before_encryption();
    let mut protected = meter(300);
    protected[1..3].copy_from_slice(&[1, 44]);
    let records = [
        plaintext(0, HANDSHAKE, b"hello"),
        plaintext(1, ACK, &ack_of(2, 0)),
        plaintext(2, ALERT, &CANCELED),
        protected.clone(),
        plaintext(3, ALERT, &FATAL),
        meter(0),
    ];
    let expected = [
        Reading::Handshake { epoch: 0, number: 0, content: b"hello" },
        Reading::Ignored { epoch: 0, number: 1, content_type: ACK },
        Reading::Ignored { epoch: 0, number: 2, content_type: ALERT },
        Reading::Unopened { epoch_bits: 3, number: 300, protected: &protected[5..] },
        Reading::Alert { epoch: 0, number: 3, description: 40 },
    ];
    assert_eq!(end.read(&records), told(&expected));
    assert_eq!(end.unacknowledged(), 2);
}

/// Anyone can write in plaintext: a fatal alert, a close, and an ACK of what is saved change nothing once peer encryption is on.
#[test]
fn forged_plaintext_changes_nothing() {
    let mut end = End::new();
    let forged = [(ALERT, FATAL.to_vec()), (ALERT, CLOSE.to_vec()), (ACK, ack_of(2, 0)), (HANDSHAKE, b"hello".to_vec())];
    for (number, (content_type, content)) in (0..).zip(&forged) {
        let readings = end.read(&[plaintext(number, *content_type, content), meter(number.into())]);
        let dropped = Reading::Unprotected { number: number.into(), content_type: *content_type };
        assert_eq!(readings, told(&[dropped, data(number.into())]));
    }
    assert_eq!(end.unacknowledged(), 2);
    assert_eq!(end.read(&[sealed(3, 9, ALERT, &CLOSE)]), told(&[Reading::Close { epoch: 3, number: 9 }]));
}
