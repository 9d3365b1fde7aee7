//! The charging post: a handshake, then meter records, one after the other, and orders obeyed once each. It closes when the gateway does.

use std::time::{Duration, Instant};

use rand::rngs::SmallRng;
use rand::{Rng, SeedableRng};

use crate::end::{Arrived, End, Record, PACE};
use crate::handshake::{Handshake, Timer};
use crate::meter::Word;
use crate::options::Options;

const AGAIN: Duration = Duration::from_millis(10);

/// Sends meter records until enough datagrams are on their way. How many are sent then.
fn send_records(options: &Options, end: &mut End, random: &mut SmallRng, mut sent: usize) -> usize {
    while sent < options.meter_records() && end.outstanding < PACE {
        // The first ones, which the link loses, share no datagram with the next one, which would be lost along with them.
        let last = if sent < options.lose_first { options.lose_first } else { options.meter_records() };
        for _ in 0..random.gen_range(1..=options.pack).min(last - sent) {
            end.send(&Word::Meter { index: sent as u32, wh: random.gen_range(0..30) }.bytes());
            sent += 1;
        }
        end.flush();
    }
    sent
}

#[derive(Default)]
struct Post {
    obeyed: u32,
    stopped: bool,
    /// The close is sent, and again by this timer.
    closing: Option<Timer>,
}

impl Post {
    fn hear(&mut self, end: &mut End, handshake: &mut Handshake) {
        while let Some(arrived) = end.arrived.pop_front() {
            match arrived {
                // Nothing is sent after the close.
                _ if self.closing.is_some() => {}
                Arrived::ApplicationData(record) => self.order(end, &record),
                Arrived::Handshake(record) => handshake.record(end, &record),
                Arrived::Ack => handshake.ack(end),
                Arrived::Close => {
                    end.close();
                    self.closing = Some(Timer::new());
                }
            }
        }
    }

    fn order(&mut self, end: &mut End, record: &Record) {
        let Some(Word::Order { number, stop, .. }) = Word::of(&record.content) else { return };
        // An order that is sent again is a record of its own: it is obeyed by its number.
        if number == self.obeyed + 1 {
            self.obeyed = number;
            self.stopped |= stop;
            end.say(format_args!("o {number}"));
        }
        end.note(record);
        end.send_ack();
    }
}

pub fn run(options: &Options, mut end: End) {
    let mut random = SmallRng::seed_from_u64(options.seed ^ 0x706F_7374);
    let (mut post, mut sent) = (Post::default(), 0);
    let mut told: Option<Instant> = None;
    let mut handshake = Handshake::begin(&mut end, true);
    loop {
        let busy = handshake.is_done() && sent < options.meter_records() && end.outstanding < PACE;
        if !end.wait(if busy { 0 } else { 5 }) {
            break;
        }
        post.hear(&mut end, &mut handshake);
        if let Some(timer) = &mut post.closing {
            if timer.fires() {
                end.close_again();
            }
            continue;
        }
        handshake.act(&mut end);
        if !handshake.is_done() {
            continue;
        }
        sent = send_records(options, &mut end, &mut random, sent);
        if sent == options.meter_records() && !post.stopped && told.is_none_or(|told| told.elapsed() > AGAIN) {
            told = Some(Instant::now());
            end.send(&Word::Charged { records: sent as u32 }.bytes());
            end.flush();
        }
    }
    end.finish();
}
