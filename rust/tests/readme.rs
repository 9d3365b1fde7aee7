//! The Rust program in the repository's README.md is examples/readme.rs, the function behind it readme/messages.rs, and they run.

const README: &str = include_str!("../../README.md");
const EXAMPLE: &str = include_str!("../examples/readme.rs");
const MESSAGES: &str = include_str!("readme/messages.rs");

#[test]
fn the_readme_shows_the_examples() {
    let shown: Vec<&str> = README.split("```rust\n").skip(1).filter_map(|rest| rest.split("```").next()).collect();
    assert_eq!(shown, [EXAMPLE, MESSAGES]);
}

#[cfg(feature = "openssl")]
mod example {
    include!("../examples/readme.rs");

    #[test]
    fn it_runs() {
        main().unwrap();
    }
}

#[cfg(feature = "alloc")]
mod toy;

#[cfg(feature = "alloc")]
mod messages {
    include!("readme/messages.rs");

    use super::toy::Toy;
    use huskelapse::{Reading, Receiver, Sender};

    /// A message in plaintext, then one of two sealed records, the second read first. Plaintext behind encryption is dropped.
    #[test]
    fn it_puts_messages_together() {
        let body: Vec<u8> = (0..1000).map(|i| (i % 251) as u8).collect();
        let mut sender = Sender::new(600, 4).unwrap();
        sender.message(2, b"hello").unwrap();
        let mut hello = sender.take_in_place().unwrap().unwrap().to_vec();
        sender.key(2, &[7; 12]).unwrap();
        sender.message(11, &body).unwrap();
        sender.seal(&mut Toy(5)).unwrap();
        let [mut first, mut second] = [0; 2].map(|_| sender.take_in_place().unwrap().unwrap().to_vec());
        // A stranger's piece of message 1, with a total of no bytes.
        let mut forged = [&[22, 254, 253, 0, 0, 0, 0, 0, 0, 0, 9, 0, 12, 11, 0, 0, 0, 0, 1][..], &[0; 6]].concat();
        let mut receiver = Receiver::new(Receiver::MIN_PROTECTED).unwrap();
        receiver.key(2, &[7; 12]).unwrap();
        let (mut assembly, mut buffer, mut acted) = (Assembly::new(), [0; Assembly::MESSAGE_ROOM], Vec::new());
        let mut read = |receiver: &mut Receiver, datagram: &mut [u8]| {
            for reading in receiver.read(datagram, &mut Toy(5), &mut sender).unwrap() {
                let Reading::Handshake { content, .. } = reading else { continue };
                let act = |msg_type, body: &[u8]| acted.push((msg_type, body.to_vec()));
                put_together(content, &mut assembly, &mut buffer, act).unwrap();
            }
            acted.clone()
        };
        let expected = [(2, b"hello".to_vec()), (11, body)];
        assert_eq!(read(&mut receiver, &mut hello), expected[..1]);
        receiver.enable_peer_encryption();
        assert_eq!(read(&mut receiver, &mut forged), expected[..1]);
        assert_eq!(read(&mut receiver, &mut second), expected[..1]);
        assert_eq!(read(&mut receiver, &mut first), expected);
    }
}
