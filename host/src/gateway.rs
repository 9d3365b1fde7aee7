//! The gateway: a handshake, then it counts the energy of the meter records handed over and gives orders, the stop order last, and closes.

use crate::end::{Arrived, End};
use crate::handshake::{Handshake, Timer};
use crate::meter::Word;
use crate::options::Options;

#[derive(Default)]
struct Gateway {
    counted: usize,
    energy: u64,
    highest: usize,
    charged: bool,
    orders: usize,
    /// The order that is not acknowledged, sent again by this timer.
    given: Option<Timer>,
    /// The close is sent, and again by this timer.
    closing: Option<Timer>,
    /// The post has closed.
    closed: bool,
}

impl Gateway {
    fn hear(&mut self, end: &mut End, handshake: &mut Handshake) {
        while let Some(arrived) = end.arrived.pop_front() {
            match arrived {
                Arrived::ApplicationData(record) => self.word(&record.content),
                Arrived::Close => self.closed = true,
                // What these two ask for would be sent after the close.
                Arrived::Handshake(record) if self.closing.is_none() => handshake.record(end, &record),
                Arrived::Ack if self.closing.is_none() => handshake.ack(end),
                _ => {}
            }
        }
    }

    fn word(&mut self, content: &[u8]) {
        match Word::of(content) {
            Some(Word::Meter { index, wh }) => {
                self.counted += 1;
                self.energy += u64::from(wh);
                self.highest = self.highest.max(index as usize);
            }
            Some(Word::Charged { .. }) => self.charged = true,
            _ => {}
        }
    }

    /// Gives the next order when it is time to, and the one before is acknowledged. Whether all are.
    fn order(&mut self, options: &Options, end: &mut End) -> bool {
        // Only the number of an order's last sending can be acknowledged, so an ACK alone is no reason to send again.
        if self.given.as_mut().is_some_and(|timer| timer.fires()) && end.resend() {
            self.given = None;
        }
        let step = options.meter_records() / (options.orders + 1) + 1;
        if self.given.is_none() && self.orders <= options.orders && (self.orders < self.highest / step || self.charged) {
            self.orders += 1;
            end.say(format_args!("i {}", self.orders));
            let (number, stop) = (self.orders as u32, self.orders > options.orders);
            end.begin_flight();
            end.send_saved(&Word::Order { number, stop, ampere: 6 + number % 26 }.bytes());
            self.given = Some(Timer::new());
        }
        self.orders > options.orders && self.given.is_none()
    }
}

pub fn run(options: &Options, mut end: End) {
    let mut gateway = Gateway::default();
    let mut handshake = Handshake::begin(&mut end, false);
    while !gateway.closed && end.wait(5) {
        gateway.hear(&mut end, &mut handshake);
        if let Some(timer) = &mut gateway.closing {
            if timer.fires() {
                end.close_again();
            }
            continue;
        }
        handshake.act(&mut end);
        if gateway.order(options, &mut end) {
            end.close();
            gateway.closing = Some(Timer::new());
        }
    }
    end.say(format_args!("total {} {}", gateway.counted, gateway.energy));
    end.finish();
}
