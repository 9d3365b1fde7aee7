//! What calls tell besides their refusals.
#![cfg(feature = "alloc")]

mod toy;

use huskelapse::content_type::{ACK, APPLICATION_DATA, HANDSHAKE};
use huskelapse::{Acked, Refusal, Sender, Status};
use toy::Toy;

fn sender() -> Sender {
    let mut sender = Sender::new(600, 8).unwrap();
    sender.key(2, &[7; 12]).unwrap();
    sender.key(3, &[8; 12]).unwrap();
    sender
}

fn status(sender: &Sender) -> (usize, usize, usize, usize) {
    let Status { queued, waiting, saved, unacknowledged, .. } = sender.status();
    (queued, waiting, saved, unacknowledged)
}

fn acked(sender: &mut Sender, numbers: &[(u64, u64)]) -> (usize, usize, usize) {
    let mut content = (16 * numbers.len() as u16).to_be_bytes().to_vec();
    for (epoch, number) in numbers {
        content.extend(epoch.to_be_bytes());
        content.extend(number.to_be_bytes());
    }
    let Acked { marked, unacknowledged, saved, .. } = sender.acknowledge(&content).unwrap();
    (marked, unacknowledged, saved)
}

#[test]
fn resend_tells_how_many() {
    let mut sender = sender();
    assert_eq!(sender.resend(), Ok(0));
    for _ in 0..3 {
        sender.send_saved(2, HANDSHAKE, b"piece").unwrap();
    }
    assert_eq!(sender.resend(), Ok(3));
    assert_eq!(acked(&mut sender, &[(2, 1)]), (1, 2, 3));
    assert_eq!(sender.resend(), Ok(2));
    sender.begin_flight();
    assert_eq!(sender.resend(), Ok(0));
}

#[test]
fn an_ack_tells_what_it_did() {
    let mut sender = sender();
    assert_eq!(acked(&mut sender, &[(2, 0)]), (0, 0, 0));
    for _ in 0..3 {
        sender.send_saved(2, HANDSHAKE, b"piece").unwrap();
    }
    assert_eq!(acked(&mut sender, &[(2, 0), (2, 9), (3, 1)]), (1, 2, 3));
    assert_eq!(acked(&mut sender, &[(2, 0)]), (0, 2, 3));
    // Content without the form of an ACK changes nothing.
    let answer = sender.acknowledge(&[0, 16, 1]).unwrap();
    assert_eq!((answer.marked, answer.unacknowledged, answer.saved), (0, 2, 3));
    // Where all of epoch 2 is acknowledged the flight is empty.
    assert_eq!(acked(&mut sender, &[(2, 1), (2, 2)]), (2, 0, 0));
}

#[test]
fn notes_tell_whether_there_was_room() {
    let mut sender = sender();
    assert_eq!(sender.send_ack(), Ok(false));
    for number in 0..32 {
        assert_eq!(sender.note(3, number), Ok(true));
    }
    assert_eq!(sender.note(3, 32), Ok(false));
    assert_eq!(sender.send_ack(), Ok(true));
    assert_eq!(sender.send_ack(), Ok(false));
    assert_eq!(status(&sender), (1, 1, 0, 0));
}

#[test]
fn an_ack_that_is_refused_keeps_its_notes() {
    let mut sender = Sender::new(600, 1).unwrap();
    sender.note(2, 0).unwrap();
    assert_eq!(sender.send_ack(), Err(Refusal::KeysAbsent));
    sender.key(2, &[7; 12]).unwrap();
    assert_eq!(sender.send_ack(), Ok(true));
}

#[test]
fn the_status_follows() {
    let mut sender = sender();
    assert_eq!(status(&sender), (0, 0, 0, 0));
    sender.send(0, HANDSHAKE, b"hello").unwrap();
    sender.send(3, APPLICATION_DATA, b"14.2 kWh").unwrap();
    sender.send_saved(3, APPLICATION_DATA, b"stop").unwrap();
    assert_eq!(status(&sender), (1, 2, 1, 1));
    assert_eq!(sender.seal(&mut Toy(5)), Ok(2));
    assert_eq!(status(&sender), (1, 0, 1, 1));
    assert_eq!(acked(&mut sender, &[(3, 1)]), (1, 0, 1));
    assert_eq!(status(&sender), (1, 0, 1, 0));
    sender.take_in_place().unwrap();
    sender.begin_flight();
    assert_eq!(status(&sender), (0, 0, 0, 0));
}

#[test]
fn refusals_have_the_numbers_of_the_header() {
    let mut sender = sender();
    let refused = [
        sender.send(5, APPLICATION_DATA, b"").unwrap_err(),
        sender.send(3, 99, b"").unwrap_err(),
        sender.send(3, ACK, &[0; 600]).unwrap_err(),
        sender.key(3, &[9; 12]).unwrap_err(),
        Sender::new(575, 4).unwrap_err(),
        Sender::new(1501, 4).unwrap_err(),
        Sender::new(600, 17).unwrap_err(),
        Sender::new(usize::MAX, usize::MAX).unwrap_err(),
    ];
    assert_eq!(refused.map(Refusal::number), [13, 14, 14, 13, 12, 12, 12, 12]);
}
