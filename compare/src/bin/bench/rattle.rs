//! The Rattle library's side of each row.

use std::hint::black_box;

use huskelapse_sys::{Flight, Part, Receiving, Sealing, Sending, Take};

use crate::clock::{time, time_in_rows};
use crate::inputs::*;

/// The receive side: epochs 2 and 3 keyed, the peer encrypts, application data released.
fn receiving() -> Receiving {
    let mut s = Receiving::BLANK;
    s.init(16);
    s.key(2, &IV);
    s.key(3, &IV);
    s.enable_encryption();
    s.release_application_data();
    s
}

/// The sending side, the flight and their memory.
pub struct Host {
    s: Sending,
    f: Flight,
    queue: Vec<u8>,
    kept: Vec<u8>,
}

impl Host {
    pub fn new() -> Host {
        let (mut s, mut f) = (Sending::BLANK, Flight::BLANK);
        s.init(MTU, QUEUE);
        s.key(2, &IV);
        s.key(3, &IV);
        f.init();
        let (queue, kept) = (vec![0xAA; QUEUE * MTU], vec![0; FLIGHT * MTU]);
        Host { s, f, queue, kept }
    }

    #[inline]
    pub fn send_record(&mut self, content: &[u8]) -> u8 {
        self.s.send(3, 23, content, &mut self.queue)
    }

    /// A message of type 11.
    #[inline]
    pub fn send_message(&mut self, body: &[u8]) -> u8 {
        let Host { s, f, queue, kept } = self;
        f.message(s, 11, body, queue, kept)
    }

    #[inline]
    fn begin_flight(&mut self) {
        self.f.begin(&mut self.s);
    }

    /// A new flight, its records sent and saved in epoch 2.
    pub fn send_flight(&mut self, content: &[u8]) {
        self.begin_flight();
        let Host { s, f, queue, kept } = self;
        for _ in 0..FLIGHT {
            let sent = f.send(s, 2, 22, content, queue, kept);
            assert!(sent == 0, "a saved record is refused by {sent}");
        }
    }

    #[inline]
    pub fn resend(&mut self) -> u8 {
        let Host { s, f, queue, kept } = self;
        f.resend(s, kept, queue).refusal
    }

    #[inline]
    pub fn act_on_ack(&mut self, content: &[u8]) -> u8 {
        self.f.ack(&mut self.s, content).refusal
    }

    /// Seals all that waits, as the cipher that does nothing does: a tag of 16 zeros.
    #[inline]
    pub fn seal_all(&mut self) {
        loop {
            let ask = self.ask();
            if ask.kind != 2 {
                return;
            }
            self.sealed(&ask);
        }
    }

    #[inline]
    fn ask(&self) -> Sealing {
        self.s.sealing()
    }

    #[inline]
    fn sealed(&mut self, ask: &Sealing) -> u8 {
        let Host { s, f, queue, .. } = self;
        queue[ask.start + ask.length - 16..ask.start + ask.length].fill(0);
        s.sealed(f, ask.length, [0, 0], queue)
    }

    #[inline]
    pub fn take(&mut self, out: &mut [u8]) -> Take {
        self.s.take(out, &self.queue)
    }

    #[inline]
    fn take_in_place(&mut self) -> Part {
        self.s.take_in_place(&self.queue)
    }

    /// Seals and takes all that is queued; how many datagrams there were.
    fn take_all(&mut self) -> usize {
        self.seal_all();
        let mut out = [0; MTU];
        for n in 0.. {
            let taken = self.take(&mut out);
            if taken.kind != 2 {
                return n;
            }
            black_box(&out[..taken.length]);
        }
        unreachable!()
    }
}

/// Reads a record with a content of n bytes, each time under the next number.
fn read_each(mut record: Vec<u8>, n: usize, count: u32, number: impl Fn(&mut [u8], u32)) -> f64 {
    let mut s = receiving();
    time(count, |i| {
        number(&mut record, i);
        let d = black_box(&mut record);
        let asked = s.begin_read(d);
        assert!(asked.kind == 6);
        let opening = s.mask([0, 0], d);
        let r = s.opened(true, opening.length - 16, d);
        assert!(r.kind == 5 && r.length == n && r.number == i as u64);
        black_box(&record[r.start..r.start + r.length]);
    })
}

pub fn read(n: usize, count: u32) -> f64 {
    read_each(sealed(n), n, count, number)
}

pub fn read_padded(n: usize, count: u32) -> f64 {
    read_each(padded(n), 0, count, short_number)
}

pub fn deal(n: usize, count: u32) -> f64 {
    let mut s = receiving();
    let mut host = Host::new();
    let mut record = sealed(n);
    time(count, |i| {
        number(&mut record, i);
        let d = black_box(&mut record);
        let asked = s.begin_read(d);
        assert!(asked.kind == 6);
        let opening = s.mask([0, 0], d);
        let r = s.opened(true, opening.length - 16, d);
        let c = s.classify(&mut host.f, &mut host.s, d);
        assert!(c.kind == 9 && c.length == n && r.number == i as u64);
        black_box(&record[c.start..c.start + c.length]);
    })
}

pub fn send(n: usize, count: u32) -> f64 {
    let mut host = Host::new();
    let content = vec![0x55; n];
    let mut out = [0; MTU];
    time(count, |_| {
        let sent = host.send_record(black_box(&content));
        let ask = host.ask();
        let sealed = host.sealed(&ask);
        let taken = host.take(&mut out);
        assert!(sent == 0 && sealed == 0 && taken.kind == 2 && taken.length == n + 22);
        black_box(&out[..taken.length]);
    })
}

pub fn send_in_place(n: usize, count: u32) -> f64 {
    let mut host = Host::new();
    let content = vec![0x55; n];
    time(count, |_| {
        let sent = host.send_record(black_box(&content));
        let ask = host.ask();
        let sealed = host.sealed(&ask);
        let taken = host.take_in_place();
        assert!(sent == 0 && sealed == 0 && taken.kind == 2 && taken.length == n + 22);
        black_box(&host.queue[taken.start..taken.start + taken.length]);
    })
}

pub fn message(count: u32) -> f64 {
    let mut host = Host::new();
    let body = vec![0x55; 16384];
    time(count, |_| {
        host.begin_flight();
        let sent = host.send_message(black_box(&body));
        assert!(sent == 0 && host.take_all() == 12);
    })
}

pub fn resend(count: u32) -> f64 {
    let mut host = Host::new();
    let content = vec![0x55; SAVED];
    let prepare = |host: &mut Host| {
        host.send_flight(&content);
        assert!(host.take_all() == FLIGHT);
    };
    time_in_rows(&mut host, count, RESENDS, prepare, |host, _| {
        let sent = host.resend();
        assert!(sent == 0 && host.take_all() == FLIGHT);
    })
}

/// A flight sent, and resent twice.
fn resent_twice() -> Host {
    let mut host = Host::new();
    host.send_flight(&[0x55; SAVED]);
    host.take_all();
    for _ in 0..2 {
        host.resend();
        host.take_all();
    }
    host
}

pub fn act_on_ack(count: u32) -> f64 {
    let mut hosts: Vec<Host> = (0..FLIGHTS).map(|_| resent_twice()).collect();
    let unmarked = hosts[0].f.word;
    let ack = ack_of_32();
    let prepare = |hosts: &mut Vec<Host>| hosts.iter_mut().for_each(|host| host.f.word = unmarked);
    let spent = time_in_rows(&mut hosts, count, FLIGHTS as u32, prepare, |hosts, i| {
        let acted = hosts[i as usize].act_on_ack(black_box(&ack));
        assert!(acted == 0);
    });
    for host in &mut hosts {
        assert!(host.resend() == 0 && host.take_all() == 1);
    }
    spent
}
