use huskelapse::openssl::{Keys, Suite};
use huskelapse::{content_type, Reading, Receiver, Sender};

fn main() -> Result<(), Box<dyn std::error::Error>> {
    // One direction's keys of epoch 3, from your key schedule.
    let (key, number_key, iv) = ([1; 16], [2; 16], [3; 12]);

    let mut to_seal = Keys::to_seal(Suite::Aes128Gcm); // or a Cipher of your own: mask, seal, open
    to_seal.add(3, &key, &number_key)?;
    let mut sender = Sender::new(1200, 4)?; // MTU, datagrams queued
    sender.key(3, &iv)?;
    sender.send(3, content_type::APPLICATION_DATA, b"14.2 kWh")?;
    sender.seal(&mut to_seal)?;
    let mut buffer = [0; 1200];
    let datagram = sender.take(&mut buffer)?.expect("one is queued"); // bytes for the socket

    let mut to_open = Keys::to_open(Suite::Aes128Gcm);
    to_open.add(3, &key, &number_key)?;
    let mut receiver = Receiver::new(Receiver::MIN_PROTECTED)?;
    receiver.key(3, &iv)?;
    receiver.enable_peer_encryption();
    let mut other_direction = Sender::new(1200, 4)?; // of the receiving end: ACKs mark what it sent
    for reading in receiver.read(datagram, &mut to_open, &mut other_direction)? {
        match reading {
            Reading::ApplicationData { epoch, number, content } => println!("{epoch}.{number}: {}", content.escape_ascii()),
            Reading::Close { .. } => println!("the far end closes"),
            Reading::Alert { description, .. } => eprintln!("alert {description}"),
            Reading::Dropped(why) => eprintln!("{why}"), // refusal 9: the record's number was used
            _ => {}
        }
    }
    Ok(())
}
