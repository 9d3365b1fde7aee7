//! 01's rules for sending, from the queue's lengths and the numbers: which refusal a call meets,
//! and where its records go. They say when the Rust is asked; its answers are then its own.

use super::Settings;
use crate::dtls13::engine::probe::Sending;

/// The first number that is not sent.
pub const LAST_NUMBER: u64 = (1 << 48) - 1;
pub const LONGEST: usize = 16_384;
pub const MOST_SAVED: usize = 12;
pub const MOST_REMEMBERED: usize = 32;
pub const MOST_NOTED: usize = 32;

/// Where a record goes: the datagram, counted from the front, and the offset; how many bytes it
/// brings.
#[derive(Debug, Clone, Copy, PartialEq, Eq)]
pub struct Place {
    pub datagram: usize,
    pub offset: usize,
    pub length: usize,
}

impl Settings {
    pub fn in_range(&self) -> bool {
        (576..=1500).contains(&self.mtu) && (1..=16).contains(&self.limit)
    }

    pub fn queue_lent(&self) -> bool {
        self.in_range() && self.limit * self.mtu <= self.room
    }

    pub fn flight_lent(&self) -> bool {
        self.queue_lent() && MOST_SAVED * self.mtu <= self.kept
    }
}

/// Header, content, and, sealed, the type and the tag.
pub fn record_len(epoch: u16, content: usize) -> usize {
    content + if epoch == 0 { 13 } else { 22 }
}

/// ClientHello and ServerHello are sent in plaintext.
pub fn message_epoch(kind: u8) -> u16 {
    if kind == 1 || kind == 2 { 0 } else { 2 }
}

/// The queue's end.
#[derive(Debug, Clone, Copy)]
struct Tail {
    count: usize,
    used: usize,
    joinable: bool,
}

impl Tail {
    fn of(sending: &Sending) -> Self {
        Self {
            count: sending.lengths.len(),
            used: sending.lengths.last().copied().unwrap_or(0),
            joinable: !sending.lengths.is_empty() && !sending.closed,
        }
    }

    fn place(&mut self, mtu: usize, length: usize) -> Place {
        let place = if self.joinable && self.used + length <= mtu {
            Place {
                datagram: self.count - 1,
                offset: self.used,
                length,
            }
        } else {
            Place {
                datagram: self.count,
                offset: 0,
                length,
            }
        };
        *self = Self {
            count: place.datagram + 1,
            used: place.offset + length,
            joinable: true,
        };
        place
    }
}

fn next_number(sending: &Sending, epoch: u16) -> u64 {
    match epoch {
        0 => sending.plaintext_next,
        2 => sending.handshake_next,
        _ => sending.application_next,
    }
}

fn keyed(sending: &Sending, epoch: u16) -> bool {
    epoch != 2 || sending.handshake_keyed
}

/// Where a record goes, or its refusal.
pub fn send(
    settings: &Settings,
    sending: &Sending,
    epoch: u16,
    content_type: u8,
    content: usize,
    save: bool,
) -> Result<Place, u8> {
    if !settings.queue_lent() || save && !settings.flight_lent() {
        return Err(12);
    }
    if epoch != 0 && epoch != 2 && (epoch < 3 || epoch != sending.application) {
        return Err(13);
    }
    let allowed = matches!(content_type, 21 | 22 | 26) || content_type == 23 && epoch != 0;
    let length = record_len(epoch, content);
    if !allowed || content > LONGEST || length > settings.mtu {
        return Err(14);
    }
    if !keyed(sending, epoch) {
        return Err(17);
    }
    if save && sending.saved.len() >= MOST_SAVED {
        return Err(18);
    }
    let place = Tail::of(sending).place(settings.mtu, length);
    if place.datagram >= settings.limit {
        return Err(19);
    }
    if next_number(sending, epoch) >= LAST_NUMBER {
        return Err(20);
    }
    Ok(place)
}

/// Where a message's pieces go, or its refusal.
pub fn message(
    settings: &Settings,
    sending: &Sending,
    kind: u8,
    body: usize,
) -> Result<Vec<Place>, u8> {
    if !settings.flight_lent() {
        return Err(12);
    }
    if body > LONGEST {
        return Err(14);
    }
    let epoch = message_epoch(kind);
    if !keyed(sending, epoch) {
        return Err(17);
    }
    if sending.message == u16::MAX {
        return Err(21);
    }
    let overhead = record_len(epoch, 12);
    let mut tail = Tail::of(sending);
    let mut places = Vec::new();
    let mut rest = body;
    loop {
        let room = match settings.mtu.saturating_sub(tail.used + overhead) {
            0 => settings.mtu - overhead,
            room => room,
        };
        let piece = rest.min(room);
        places.push(tail.place(settings.mtu, piece + overhead));
        rest -= piece;
        if rest == 0 {
            break;
        }
    }
    if sending.saved.len() + places.len() > MOST_SAVED {
        return Err(18);
    }
    if places.iter().any(|place| place.datagram >= settings.limit) {
        return Err(19);
    }
    if next_number(sending, epoch).saturating_add(places.len() as u64) > LAST_NUMBER {
        return Err(20);
    }
    Ok(places)
}

/// Where the records of a flight go that are sent again, or the refusal.
pub fn resend(settings: &Settings, sending: &Sending) -> Result<Vec<Place>, u8> {
    if !settings.flight_lent() {
        return Err(12);
    }
    let again: Vec<_> = sending.saved.iter().filter(|saved| !saved.marked).collect();
    if again
        .iter()
        .any(|saved| saved.epoch >= 3 && saved.epoch != sending.application)
    {
        return Err(13);
    }
    // 14 and 17 met the record when it was saved.
    if again.iter().any(|saved| {
        saved.content_type == 22 && saved.epoch >= 2 && saved.remembered.len() >= MOST_REMEMBERED
    }) {
        return Err(22);
    }
    let mut tail = Tail::of(sending);
    tail.joinable = false;
    let places: Vec<_> = again
        .iter()
        .map(|saved| {
            let length = record_len(saved.epoch, saved.content.len());
            tail.place(settings.mtu, length)
        })
        .collect();
    if places.iter().any(|place| place.datagram >= settings.limit) {
        return Err(19);
    }
    for saved in &again {
        let count = again
            .iter()
            .filter(|other| other.epoch == saved.epoch)
            .count();
        if next_number(sending, saved.epoch).saturating_add(count as u64) > LAST_NUMBER {
            return Err(20);
        }
    }
    Ok(places)
}

/// Where the ACK goes, if any record is noted, or the refusal.
pub fn send_ack(settings: &Settings, sending: &Sending) -> Result<Vec<Place>, u8> {
    if !settings.queue_lent() {
        return Err(12);
    }
    if sending.noted == 0 {
        return Ok(Vec::new());
    }
    let epoch = if sending.application == 0 {
        2
    } else {
        sending.application
    };
    let content = 2 + 16 * sending.noted;
    send(settings, sending, epoch, 26, content, false).map(|place| vec![place])
}

/// The refusal that keying meets; `waits` where a sealing under the application epoch does.
pub fn key(settings: &Settings, sending: &Sending, epoch: u16, waits: bool) -> Option<u8> {
    let highest = sending
        .application
        .max(if sending.handshake_keyed { 2 } else { 0 });
    if !settings.in_range() {
        Some(12)
    } else if epoch < 2 || epoch <= highest {
        Some(13)
    } else if epoch >= 3 && waits {
        Some(23)
    } else {
        None
    }
}
