//! A host without an allocator: this file holds with no feature at all.

mod toy;

use huskelapse::content_type::APPLICATION_DATA;
use huskelapse::{Error, Reading, Receiver, Refusal, Sender};
use toy::Toy;

/// Sends a record and reads it.
fn send_and_read<Q, F>(mut sender: Sender<Q, F>) -> Result<(), Error>
where
    Q: AsRef<[u8]> + AsMut<[u8]>,
    F: AsRef<[u8]> + AsMut<[u8]>,
{
    sender.key(3, &[7; 12])?;
    sender.send_saved(3, APPLICATION_DATA, b"14.2 kWh")?;
    sender.seal(&mut Toy(5))?;
    let mut buffer = [0; 600];
    let datagram = sender.take(&mut buffer)?.expect("a datagram");
    let mut receiver = Receiver::new(Receiver::MIN_PROTECTED)?;
    receiver.key(3, &[7; 12])?;
    receiver.enable_peer_encryption();
    let mut cipher = Toy(5);
    let mut readings = receiver.read(datagram, &mut cipher, &mut sender)?;
    assert_eq!(readings.next(), Some(Reading::ApplicationData { epoch: 3, number: 0, content: b"14.2 kWh" }));
    assert_eq!(readings.next(), None);
    Ok(())
}

#[test]
fn memory_that_is_lent() -> Result<(), Error> {
    let (mut queue, mut flight) = ([0; 2 * 600], [0; 12 * 600]);
    send_and_read(Sender::with_memory(600, 2, &mut queue[..], &mut flight[..])?)?;
    send_and_read(Sender::with_memory(600, 2, &mut queue, &mut flight)?)
}

#[test]
fn memory_in_arrays() -> Result<(), Error> {
    send_and_read(Sender::with_memory(600, 2, [0; 2 * 600], [0; 12 * 600])?)
}

#[test]
fn memory_too_short() {
    let short = |queue, flight| Sender::with_memory(600, 2, vec![0; queue], vec![0; flight]).err();
    assert_eq!(short(1199, 7200), Some(Refusal::OutOfRange));
    assert_eq!(short(1200, 7199), Some(Refusal::OutOfRange));
    assert_eq!(short(1200, 7200), None);
}
