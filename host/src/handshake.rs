//! An exchange of messages in epochs 0 and 2 as a handshake has it: flights, resends, ACKs.

use std::time::{Duration, Instant};

use crate::end::{End, Record};
use crate::messages::{body, Brought, Message, Messages, CERTIFICATE, CLIENT_HELLO, EXTENSIONS, FINISHED, SERVER_HELLO, VERIFY};

/// When to send again: the time doubles.
pub struct Timer {
    after: Duration,
    at: Instant,
}

const FIRST: Duration = Duration::from_millis(20);
const MOST: Duration = Duration::from_millis(160);

impl Timer {
    pub fn new() -> Timer {
        Timer { after: FIRST, at: Instant::now() + FIRST }
    }

    pub fn fires(&mut self) -> bool {
        if Instant::now() < self.at {
            return false;
        }
        self.after = (2 * self.after).min(MOST);
        self.at = Instant::now() + self.after;
        true
    }
}

#[derive(PartialEq)]
enum State {
    /// The post waits for ServerHello, the gateway for ClientHello.
    Hello,
    /// It waits for the messages up to Finished.
    Messages,
    /// The post waits for the ACK of its last flight.
    LastAck,
    Done,
}

/// Records kept that came too early: as many as a flight has.
const EARLY: usize = 12;

pub struct Handshake {
    is_post: bool,
    state: State,
    messages: Messages,
    /// Contents of records with pieces of later messages, given again when a message is whole.
    early: Vec<Vec<u8>>,
    timer: Timer,
    /// A piece came since the last flight or ACK.
    partly: bool,
}

impl Handshake {
    pub fn begin(end: &mut End, is_post: bool) -> Handshake {
        if is_post {
            end.begin_flight();
            end.message(CLIENT_HELLO, &body(CLIENT_HELLO, 420));
        }
        let messages = Messages::new(if is_post { SERVER_HELLO } else { CLIENT_HELLO });
        Handshake { is_post, state: State::Hello, messages, early: Vec::new(), timer: Timer::new(), partly: false }
    }

    pub fn is_done(&self) -> bool {
        self.state == State::Done
    }

    /// An ACK came: what it left unacknowledged goes out again.
    pub fn ack(&mut self, end: &mut End) {
        if self.state != State::Done && end.resend() && self.state == State::LastAck {
            end.receiver.release_application_data();
            self.state = State::Done;
        }
    }

    /// A record with pieces of messages.
    pub fn record(&mut self, end: &mut End, record: &Record) {
        // In plaintext, read before there were keys and looked at when there are: anyone can have written it.
        if record.epoch == 0 && self.state != State::Hello {
            return;
        }
        let brought = self.give(end, record.epoch, &record.content);
        let is_kept = !brought.refused && (!brought.early || self.keep(record));
        if is_kept && (brought.new || brought.same || brought.early) {
            self.partly = true;
            if record.epoch >= 2 {
                end.note(record);
            }
        } else if is_kept && brought.old {
            self.old(end, record);
        }
        self.whole(end, brought.messages);
    }

    /// Puts messages together. Of one in plaintext that is wrong nothing is kept: it comes again.
    fn give(&mut self, end: &mut End, epoch: u16, content: &[u8]) -> Brought {
        let mut brought = self.messages.give(epoch, content);
        if brought.wrong && epoch >= 2 {
            end.must(Err("a sealed message came out other than it was sent"))
        }
        if brought.wrong {
            brought.messages.clear();
        }
        brought
    }

    /// Keeps a record with pieces of later messages. One that finds no room is not acknowledged, and so it is sent again.
    fn keep(&mut self, record: &Record) -> bool {
        let is_held = self.early.contains(&record.content);
        let has_room = record.epoch >= 2 && self.early.len() < EARLY;
        if !is_held && has_room {
            self.early.push(record.content.clone());
        }
        is_held || has_room
    }

    /// Acts on messages that are whole, and on those that become it by what came too early.
    fn whole(&mut self, end: &mut End, mut messages: Vec<Message>) {
        while !messages.is_empty() {
            for message in std::mem::take(&mut messages) {
                end.say(format_args!("m {}", message.pieces));
                self.message(end, message.kind);
            }
            for content in std::mem::take(&mut self.early) {
                let brought = self.give(end, 2, &content);
                messages.extend(brought.messages);
                if brought.early {
                    self.early.push(content);
                }
            }
        }
    }

    /// The far end sends again what was read: it lacks the answer.
    fn old(&mut self, end: &mut End, record: &Record) {
        if !self.is_post && self.state == State::Done {
            end.note(record);
            end.send_ack();
        } else if self.timer.fires() {
            end.resend();
        }
    }

    fn message(&mut self, end: &mut End, kind: u8) {
        match (self.is_post, kind) {
            (false, CLIENT_HELLO) if self.state == State::Hello => {
                end.begin_flight();
                end.message(SERVER_HELLO, &body(SERVER_HELLO, 120));
                end.key_send(2);
                end.key_receive(2);
                for (kind, length) in [(EXTENSIONS, 40), (CERTIFICATE, 2500), (VERIFY, 264), (FINISHED, 40)] {
                    end.message(kind, &body(kind, length));
                }
                self.state = State::Messages;
            }
            (true, SERVER_HELLO) if self.state == State::Hello => {
                end.key_send(2);
                end.key_receive(2);
                self.state = State::Messages;
            }
            (true, FINISHED) => {
                end.begin_flight();
                end.send_ack();
                for (kind, length) in [(CERTIFICATE, 1400), (VERIFY, 264), (FINISHED, 40)] {
                    end.message(kind, &body(kind, length));
                }
                end.key_send(3);
                end.key_receive(3);
                self.state = State::LastAck;
            }
            (false, FINISHED) => {
                end.begin_flight();
                end.key_send(3);
                end.key_receive(3);
                end.receiver.release_application_data();
                end.send_ack();
                self.state = State::Done;
            }
            _ => return,
        }
        self.partly = false;
        self.timer = Timer::new();
    }

    /// What the timer asks for: an ACK of what came of an unfinished flight, and the own flight again.
    pub fn act(&mut self, end: &mut End) {
        if self.state == State::Done || (!self.is_post && self.state == State::Hello) || !self.timer.fires() {
            return;
        }
        if self.partly && self.state == State::Messages {
            end.send_ack();
            self.partly = false;
        }
        end.resend();
    }
}
