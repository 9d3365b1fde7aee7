//! Handshake messages: what they are made of here, and those that arrive, which the library puts together from their pieces. The bodies
//! are made up; each begins with a checksum in place of a transcript.

use huskelapse::{Assembly, Piece};

use crate::crypto::sha256;

pub const CLIENT_HELLO: u8 = 1;
pub const SERVER_HELLO: u8 = 2;
pub const EXTENSIONS: u8 = 8;
pub const CERTIFICATE: u8 = 11;
pub const VERIFY: u8 = 15;
pub const FINISHED: u8 = 20;

/// A message's body of so many bytes.
pub fn body(kind: u8, length: usize) -> Vec<u8> {
    let rest: Vec<u8> = (0..length - 8).map(|i| (i * 7 + usize::from(kind)) as u8).collect();
    let mut body = sum(kind, &rest).to_vec();
    body.extend(rest);
    body
}

fn sum(kind: u8, rest: &[u8]) -> [u8; 8] {
    let mut whole = vec![kind];
    whole.extend(rest);
    *sha256(&whole).first_chunk().unwrap()
}

/// Whether a message is one that was sent.
fn is_as_sent(kind: u8, body: &[u8]) -> bool {
    body.split_first_chunk().is_some_and(|(head, rest)| sum(kind, rest) == *head)
}

/// A message that is whole.
#[derive(Debug, PartialEq)]
pub struct Message {
    pub kind: u8,
    /// Pieces that it was put together from.
    pub pieces: usize,
}

/// What a record brought.
#[derive(Debug, Default, PartialEq)]
pub struct Brought {
    pub messages: Vec<Message>,
    /// A piece of the message expected that was not held yet.
    pub new: bool,
    /// One that was.
    pub same: bool,
    /// A piece of a message that is handed over.
    pub old: bool,
    /// A piece of a later message, which is passed over.
    pub early: bool,
    /// A piece by which the record ended.
    pub refused: bool,
    /// A message that was not sent so.
    pub wrong: bool,
}

/// The messages that arrive at one end.
pub struct Messages {
    assembly: Assembly,
    buffer: Vec<u8>,
    /// The one message in plaintext.
    hello: u8,
    /// The number of the next message, and how many pieces of it are held.
    next: u16,
    held: usize,
}

impl Messages {
    pub fn new(hello: u8) -> Messages {
        Messages { assembly: Assembly::new(), buffer: vec![0; Assembly::MESSAGE_ROOM], hello, next: 0, held: 0 }
    }

    /// Takes the pieces of a record.
    pub fn give(&mut self, epoch: u16, content: &[u8]) -> Brought {
        let brought = self.take(epoch, content);
        let adds = |brought: &Brought| brought.new && !brought.wrong;
        if epoch > 0 || adds(&brought) {
            return brought;
        }
        // Anyone can have written or changed what is held in plaintext. A record that adds nothing to it may be the right one.
        self.begin_anew();
        let brought = self.take(epoch, content);
        if !adds(&brought) {
            self.begin_anew();
        }
        brought
    }

    fn begin_anew(&mut self) {
        (self.assembly, self.next, self.held) = (Assembly::new(), 0, 0);
    }

    fn take(&mut self, epoch: u16, content: &[u8]) -> Brought {
        let mut brought = Brought::default();
        let mut pieces = self.assembly.pieces(content);
        loop {
            match pieces.next(&mut self.buffer) {
                Ok(Some(Piece::Message { msg_type: kind, number, body })) => {
                    let is_hello = kind == CLIENT_HELLO || kind == SERVER_HELLO;
                    let is_right = if epoch == 0 { kind == self.hello } else { !is_hello };
                    brought.new = true;
                    brought.wrong |= !is_right || !is_as_sent(kind, body);
                    brought.messages.push(Message { kind, pieces: self.held + 1 });
                    (self.next, self.held) = (number + 1, 0);
                }
                Ok(Some(Piece::Held)) => {
                    brought.new = true;
                    self.held += 1;
                }
                Ok(Some(Piece::Same)) => brought.same = true,
                Ok(Some(Piece::Other { number })) if number < self.next => brought.old = true,
                Ok(Some(_)) => brought.early = true,
                Ok(None) => return brought,
                Err(_) => brought.refused = true,
            }
        }
    }
}

#[cfg(test)]
mod tests {
    use super::*;

    /// A piece of a message: some bytes of its body.
    fn piece(kind: u8, number: u16, body: &[u8], offset: usize, length: usize) -> Vec<u8> {
        let three = |n: usize| [(n >> 16) as u8, (n >> 8) as u8, n as u8];
        let header = [&[kind][..], &three(body.len()), &number.to_be_bytes(), &three(offset), &three(length)].concat();
        [&header, &body[offset..][..length]].concat()
    }

    fn hello() -> Vec<u8> {
        piece(CLIENT_HELLO, 0, &body(CLIENT_HELLO, 100), 0, 100)
    }

    /// After ClientHello.
    fn messages() -> Messages {
        let mut messages = Messages::new(CLIENT_HELLO);
        assert_eq!(messages.give(0, &hello()), message(CLIENT_HELLO, 1));
        messages
    }

    fn message(kind: u8, pieces: usize) -> Brought {
        Brought { messages: vec![Message { kind, pieces }], new: true, ..Brought::default() }
    }

    #[test]
    fn a_message_is_put_together_and_its_pieces_counted() {
        let (mut messages, body) = (messages(), body(CERTIFICATE, 1000));
        let pieces = [0, 400, 800].map(|offset| piece(CERTIFICATE, 1, &body, offset, 400.min(1000 - offset)));
        let new = Brought { new: true, ..Brought::default() };
        assert_eq!(messages.give(2, &pieces[2]), new);
        assert_eq!(messages.give(2, &pieces[0]), new);
        assert_eq!(messages.give(2, &pieces[2]), Brought { same: true, ..Brought::default() });
        assert_eq!(messages.give(2, &pieces[1]), message(CERTIFICATE, 3));
        assert_eq!(messages.give(2, &pieces[1]), Brought { old: true, ..Brought::default() });
    }

    #[test]
    fn a_later_piece_is_told_from_an_old_one() {
        let (mut messages, [one, two]) = (messages(), [EXTENSIONS, FINISHED].map(|kind| body(kind, 40)));
        let [one, two] = [piece(EXTENSIONS, 1, &one, 0, 40), piece(FINISHED, 2, &two, 0, 40)];
        let both = [&two[..], &one].concat();
        assert_eq!(messages.give(2, &two), Brought { early: true, ..Brought::default() });
        // It stands first in the record, and is expected only behind the other.
        assert_eq!(messages.give(2, &both), Brought { early: true, ..message(EXTENSIONS, 1) });
        assert_eq!(messages.give(2, &both), Brought { old: true, ..message(FINISHED, 1) });
    }

    #[test]
    fn a_hello_that_was_changed_does_not_keep_the_right_one_out() {
        // Its type, a byte of its body, and its total, by which it does not become whole.
        for (at, change, is_whole) in [(0, 3, true), (50, 1, true), (2, 1, false), (3, 0x80, false)] {
            let mut changed = hello();
            changed[at] ^= change;
            let mut messages = Messages::new(CLIENT_HELLO);
            let brought = messages.give(0, &changed);
            assert_eq!((brought.wrong, brought.messages.len()), (is_whole, usize::from(is_whole)), "{at}");
            assert_eq!(messages.give(0, &hello()), message(CLIENT_HELLO, 1), "{at}");
        }
    }

    #[test]
    fn a_hello_of_several_records_comes_out() {
        let body = body(CLIENT_HELLO, 2000);
        let [first, second] = [0, 1000].map(|offset| piece(CLIENT_HELLO, 0, &body, offset, 1000));
        let mut changed = first.clone();
        changed[500] ^= 1;
        let mut messages = Messages::new(CLIENT_HELLO);
        assert!(messages.give(0, &changed).new);
        // Wrong with the second piece, of which the next try begins.
        let brought = messages.give(0, &second);
        assert!(brought.new && !brought.wrong && brought.messages.is_empty());
        assert_eq!(messages.give(0, &first), message(CLIENT_HELLO, 2));
    }

    #[test]
    fn a_forged_piece_of_a_hello_does_not_keep_the_right_ones_out() {
        let body = body(CLIENT_HELLO, 2000);
        let [first, second] = [0, 1000].map(|offset| piece(CLIENT_HELLO, 0, &body, offset, 1000));
        // Another type, total or byte: the right first piece disagrees with it, and is held by a new assembly.
        for at in [0, 3, 500] {
            let mut forged = first.clone();
            forged[at] ^= 8;
            let mut messages = Messages::new(CLIENT_HELLO);
            assert!(messages.give(0, &forged).new);
            assert_eq!(messages.give(0, &first), Brought { new: true, ..Brought::default() }, "{at}");
            assert_eq!(messages.give(0, &second), message(CLIENT_HELLO, 2), "{at}");
        }
    }

    #[test]
    fn a_sealed_piece_that_disagrees_is_refused_and_the_message_comes_out() {
        let (mut messages, body) = (messages(), body(CERTIFICATE, 1000));
        let [first, second] = [0, 500].map(|offset| piece(CERTIFICATE, 1, &body, offset, 500));
        assert!(messages.give(2, &first).new);
        for at in [0, 3, 12, 511] {
            let mut changed = first.clone();
            changed[at] ^= 1;
            assert_eq!(messages.give(2, &changed), Brought { refused: true, ..Brought::default() }, "{at}");
        }
        assert_eq!(messages.give(2, &first), Brought { same: true, ..Brought::default() });
        assert_eq!(messages.give(2, &second), message(CERTIFICATE, 2));
    }

    #[test]
    fn a_message_of_the_wrong_epoch_is_wrong() {
        let hello = piece(CLIENT_HELLO, 1, &body(CLIENT_HELLO, 100), 0, 100);
        assert!(messages().give(2, &hello).wrong);
        for kind in [SERVER_HELLO, FINISHED] {
            let mut messages = Messages::new(CLIENT_HELLO);
            assert!(messages.give(0, &piece(kind, 0, &body(kind, 40), 0, 40)).wrong);
            // It does not count: message 0 is still expected.
            assert_eq!(messages.give(0, &hello), Brought { early: true, ..Brought::default() });
        }
    }

    #[test]
    fn a_record_cut_short_is_refused() {
        let certificate = piece(CERTIFICATE, 1, &body(CERTIFICATE, 100), 0, 50);
        for length in 1..certificate.len() {
            assert_eq!(messages().give(2, &certificate[..length]), Brought { refused: true, ..Brought::default() });
        }
    }
}
