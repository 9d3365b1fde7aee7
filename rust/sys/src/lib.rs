//! The C functions that include/huskelapse.h declares, and a safe function over each, for the crate `huskelapse` and for drivers that ask
//! the library call by call. Hosts use `huskelapse`. Names and answers are the header's, and so is what they mean.
//!
//! The unsafe code of both crates is in this file: calls of the library, and the slices that a [`Datagram`] makes. The library asks two
//! things of its caller: that each pointer leads to what its type or the length beside it says, and that no two of them overlap.
//! References and slices have both, where a function takes `&mut` of all that the library writes to. Nothing is asked of the words and
//! the numbers: whatever they are, a call ends with an answer, and it writes to what it is lent and nowhere else. The library keeps no
//! pointer after a call and has no state of its own, so calls on different objects can run on different threads.
//!
//! A [`Datagram`] is lent to the library while parts of it are with the host as `&[u8]`. This holds as nobody writes to those any more:
//!
//! - The library reads anywhere in a datagram, and writes only the number bytes of the record at its cursor (docs/HISTORY.md `spared`):
//!   in a mask reply, and in an epoch with a mask key in the call that comes to the record, a read or the beginning. The cursor is behind
//!   every record that was told of. It goes forward only, but for a beginning, which puts it at the start.
//! - From the beginning on the `Datagram` borrows the words: nobody else changes them, moves the cursor or begins another datagram.
//!   Words that are no state are refused at the beginning, and then there is no `Datagram`.
//! - [`Datagram::hand`] gives only bytes of a record that was told of, so before the cursor, and each byte once.
//!   [`Datagram::lend`] gives only bytes behind all those.

#![no_std]

use core::fmt;
use core::marker::PhantomData;
use core::slice;

pub const READING_REFUSED: u8 = 0;
pub const READING_END: u8 = 1;
pub const READING_DROPPED: u8 = 2;
pub const READING_PLAINTEXT: u8 = 3;
pub const READING_UNOPENED: u8 = 4;
pub const READING_OPENED: u8 = 5;
pub const READING_MASK: u8 = 6;
pub const READING_OPENING: u8 = 7;

pub const CLASS_REFUSED: u8 = 0;
pub const CLASS_NOTHING: u8 = 1;
pub const CLASS_BEYOND: u8 = 2;
pub const CLASS_UNPROTECTED: u8 = 3;
pub const CLASS_IGNORED: u8 = 4;
pub const CLASS_ACK: u8 = 5;
pub const CLASS_CLOSE: u8 = 6;
pub const CLASS_ALERT: u8 = 7;
pub const CLASS_HANDSHAKE: u8 = 8;
pub const CLASS_APPLICATION_DATA: u8 = 9;
pub const CLASS_OTHER: u8 = 10;
pub const CLASS_UNOPENED: u8 = 11;

pub const SEALING_REFUSED: u8 = 0;
pub const SEALING_NONE: u8 = 1;
pub const SEALING_SEAL: u8 = 2;

pub const TAKE_REFUSED: u8 = 0;
pub const TAKE_EMPTY: u8 = 1;
pub const TAKE_TAKEN: u8 = 2;

pub const PIECE_REFUSED: u8 = 0;
pub const PIECE_END: u8 = 1;
pub const PIECE_OTHER: u8 = 2;
pub const PIECE_SAME: u8 = 3;
pub const PIECE_HELD: u8 = 4;
pub const PIECE_MESSAGE: u8 = 5;

/// Bytes of a tag.
pub const TAG: usize = 16;
/// Bytes of a mask key.
pub const MASK_KEY: usize = 32;
/// Records that a flight has at most.
pub const FLIGHT: usize = 12;
/// Records that are noted at most.
pub const NOTES: usize = 32;
/// Bytes of the buffer that a message is put together in.
pub const MESSAGE_ROOM: usize = 16_384;

const RECEIVING_WORDS: usize = 39;
const PENDING: usize = 9;
const SENDING_WORDS: usize = 39;
/// A slot for each epoch that can be keyed to receive, or to send: whether it holds a mask key, and the key.
const RECEIVING_KEYS: usize = 5 * (1 + MASK_KEY);
const SENDING_KEYS: usize = 2 * (1 + MASK_KEY);
const FLIGHT_WORDS: usize = 73;
const FLIGHT_NUMBERS: usize = 384;

#[repr(C)]
#[derive(Clone, PartialEq, Eq)]
pub struct Receiving {
    pub word: [u64; RECEIVING_WORDS],
    pub pending: [u64; PENDING],
    pub mask_keys: [u8; RECEIVING_KEYS],
}

#[repr(C)]
#[derive(Clone, PartialEq, Eq)]
pub struct Sending {
    pub word: [u64; SENDING_WORDS],
    pub mask_keys: [u8; SENDING_KEYS],
}

/// Without the mask keys, so that no log has them.
impl fmt::Debug for Receiving {
    fn fmt(&self, f: &mut fmt::Formatter<'_>) -> fmt::Result {
        f.debug_struct("Receiving").field("word", &self.word).field("pending", &self.pending).finish_non_exhaustive()
    }
}

/// Without the mask keys, so that no log has them.
impl fmt::Debug for Sending {
    fn fmt(&self, f: &mut fmt::Formatter<'_>) -> fmt::Result {
        f.debug_struct("Sending").field("word", &self.word).finish_non_exhaustive()
    }
}

#[repr(C)]
#[derive(Clone, Debug, PartialEq, Eq)]
pub struct Flight {
    pub word: [u64; FLIGHT_WORDS],
    pub numbers: [u64; FLIGHT_NUMBERS],
}

#[repr(C)]
#[derive(Clone, Debug, PartialEq, Eq)]
pub struct Notes {
    pub count: [u64; 1],
    pub epochs: [u64; NOTES],
    pub numbers: [u64; NOTES],
}

#[repr(C)]
#[derive(Clone, Debug, PartialEq, Eq)]
pub struct Assembly {
    pub word: [u64; 106],
}

#[repr(C)]
#[derive(Clone, Copy, Debug, PartialEq, Eq)]
pub struct Told {
    pub refusal: u8,
    pub told: u8,
}

#[repr(C)]
#[derive(Clone, Copy, Debug, PartialEq, Eq)]
pub struct Reading {
    pub kind: u8,
    pub refusal: u8,
    pub content_type: u8,
    pub epoch: u16,
    pub number: u64,
    pub start: usize,
    pub header_len: usize,
    pub length: usize,
    pub nonce: [u8; 12],
}

#[repr(C)]
#[derive(Clone, Copy, Debug, PartialEq, Eq)]
pub struct Class {
    pub kind: u8,
    pub refusal: u8,
    pub description: u8,
    pub marked: u8,
    pub unacknowledged: u8,
    pub saved: u8,
    pub start: usize,
    pub length: usize,
}

#[repr(C)]
#[derive(Clone, Copy, Debug, PartialEq, Eq)]
pub struct Sealing {
    pub kind: u8,
    pub refusal: u8,
    pub epoch: u16,
    pub number: u64,
    pub start: usize,
    pub length: usize,
    pub nonce: [u8; 12],
    pub header: [u8; 5],
}

#[repr(C)]
#[derive(Clone, Copy, Debug, PartialEq, Eq)]
pub struct Take {
    pub kind: u8,
    pub refusal: u8,
    pub length: usize,
}

#[repr(C)]
#[derive(Clone, Copy, Debug, PartialEq, Eq)]
pub struct Part {
    pub kind: u8,
    pub refusal: u8,
    pub start: usize,
    pub length: usize,
}

#[repr(C)]
#[derive(Clone, Copy, Debug, PartialEq, Eq)]
pub struct Queued {
    pub refusal: u8,
    pub queued: u8,
    pub waiting: usize,
}

#[repr(C)]
#[derive(Clone, Copy, Debug, PartialEq, Eq)]
pub struct Acked {
    pub refusal: u8,
    pub marked: u8,
    pub unacknowledged: u8,
    pub saved: u8,
}

#[repr(C)]
#[derive(Clone, Copy, Debug, PartialEq, Eq)]
pub struct Saved {
    pub refusal: u8,
    pub saved: u8,
    pub unacknowledged: u8,
}

#[repr(C)]
#[derive(Clone, Copy, Debug, PartialEq, Eq)]
pub struct Piece {
    pub kind: u8,
    pub refusal: u8,
    pub msg_type: u8,
    pub number: u16,
    pub length: usize,
}

// The layout that include/layout.c asserts of the header.
#[cfg(target_pointer_width = "64")]
const _: () = {
    assert!(size_of::<Receiving>() == 552 && size_of::<Sending>() == 384);
    assert!(size_of::<Flight>() == 3656 && size_of::<Notes>() == 520 && size_of::<Assembly>() == 848);
    assert!(size_of::<Told>() == 2 && size_of::<Acked>() == 4 && size_of::<Saved>() == 3);
    assert!(size_of::<Reading>() == 56 && size_of::<Class>() == 24 && size_of::<Sealing>() == 56);
    assert!(size_of::<Take>() == 16 && size_of::<Part>() == 24 && size_of::<Queued>() == 16 && size_of::<Piece>() == 16);
};

unsafe extern "C" {
    fn husk_receiving_init_words(
        word: *mut [u64; RECEIVING_WORDS],
        pending: *mut [u64; PENDING],
        mask_keys: *mut [u8; RECEIVING_KEYS],
        min_protected: usize,
    ) -> u8;
    fn husk_receiving_key_words(
        word: *mut [u64; RECEIVING_WORDS],
        mask_keys: *mut [u8; RECEIVING_KEYS],
        epoch: u16,
        iv: *const [u8; 12],
    ) -> u8;
    fn husk_receiving_key_masked_words(
        word: *mut [u64; RECEIVING_WORDS],
        mask_keys: *mut [u8; RECEIVING_KEYS],
        epoch: u16,
        iv: *const [u8; 12],
        mask_key: *const u8,
        mask_key_len: usize,
    ) -> u8;
    fn husk_receiving_remove_words(word: *mut [u64; RECEIVING_WORDS], mask_keys: *mut [u8; RECEIVING_KEYS], epoch: u16) -> Told;
    fn husk_receiving_enable_encryption(s: *mut Receiving) -> u8;
    fn husk_receiving_release_application_data(s: *mut Receiving) -> u8;
    fn husk_receiving_begin_words(word: *mut [u64; RECEIVING_WORDS], pending: *mut [u64; PENDING], n: usize) -> u8;
    fn husk_receiving_read_words(
        word: *mut [u64; RECEIVING_WORDS],
        pending: *mut [u64; PENDING],
        mask_keys: *const [u8; RECEIVING_KEYS],
        d: *mut u8,
        n: usize,
    ) -> Reading;
    fn husk_receiving_begin_read_words(
        word: *mut [u64; RECEIVING_WORDS],
        pending: *mut [u64; PENDING],
        mask_keys: *const [u8; RECEIVING_KEYS],
        d: *mut u8,
        n: usize,
    ) -> Reading;
    fn husk_receiving_mask(s: *mut Receiving, mask_0: u8, mask_1: u8, d: *mut u8, n: usize) -> Reading;
    fn husk_receiving_opened_words(
        word: *mut [u64; RECEIVING_WORDS],
        pending: *mut [u64; PENDING],
        opened: u8,
        length: usize,
        d: *const u8,
        n: usize,
    ) -> Reading;
    fn husk_receiving_classify_words(
        word: *mut [u64; RECEIVING_WORDS],
        pending: *mut [u64; PENDING],
        flight: *mut [u64; FLIGHT_WORDS],
        numbers: *mut [u64; FLIGHT_NUMBERS],
        d: *const u8,
        n: usize,
    ) -> Class;

    fn husk_sending_init_words(
        word: *mut [u64; SENDING_WORDS],
        mask_keys: *mut [u8; SENDING_KEYS],
        mtu: usize,
        limit: usize,
    ) -> u8;
    fn husk_sending_key_words(
        word: *mut [u64; SENDING_WORDS],
        mask_keys: *mut [u8; SENDING_KEYS],
        epoch: u16,
        iv: *const [u8; 12],
    ) -> u8;
    fn husk_sending_key_masked_words(
        word: *mut [u64; SENDING_WORDS],
        mask_keys: *mut [u8; SENDING_KEYS],
        epoch: u16,
        iv: *const [u8; 12],
        mask_key: *const u8,
        mask_key_len: usize,
    ) -> u8;
    fn husk_sending_send(
        s: *mut Sending,
        epoch: u16,
        content_type: u8,
        content: *const u8,
        content_len: usize,
        queue: *mut u8,
        queue_len: usize,
    ) -> u8;
    fn husk_sending_sealing(s: *const Sending) -> Sealing;
    fn husk_sending_sealed_words(
        word: *mut [u64; SENDING_WORDS],
        mask_keys: *const [u8; SENDING_KEYS],
        length: usize,
        mask_0: u8,
        mask_1: u8,
        queue: *mut u8,
        queue_len: usize,
    ) -> u8;
    fn husk_sending_take(s: *mut Sending, buffer: *mut u8, buffer_len: usize, queue: *const u8, queue_len: usize) -> Take;
    fn husk_sending_take_in_place(s: *mut Sending, queue: *const u8, queue_len: usize) -> Part;
    fn husk_sending_status(s: *const Sending) -> Queued;

    fn husk_flight_init_words(word: *mut [u64; FLIGHT_WORDS], numbers: *mut [u64; FLIGHT_NUMBERS]);
    fn husk_flight_begin_words(word: *mut [u64; FLIGHT_WORDS]) -> u8;
    fn husk_flight_send_words(
        s: *mut Sending,
        word: *mut [u64; FLIGHT_WORDS],
        numbers: *mut [u64; FLIGHT_NUMBERS],
        epoch: u16,
        content_type: u8,
        content: *const u8,
        content_len: usize,
        queue: *mut u8,
        queue_len: usize,
        kept: *mut u8,
        kept_len: usize,
    ) -> u8;
    fn husk_flight_message_words(
        s: *mut Sending,
        word: *mut [u64; FLIGHT_WORDS],
        numbers: *mut [u64; FLIGHT_NUMBERS],
        msg_type: u8,
        body: *const u8,
        body_len: usize,
        queue: *mut u8,
        queue_len: usize,
        kept: *mut u8,
        kept_len: usize,
    ) -> u8;
    fn husk_flight_resend_words(
        s: *mut Sending,
        word: *mut [u64; FLIGHT_WORDS],
        numbers: *mut [u64; FLIGHT_NUMBERS],
        kept: *const u8,
        kept_len: usize,
        queue: *mut u8,
        queue_len: usize,
    ) -> Told;
    fn husk_flight_ack_words(
        word: *mut [u64; FLIGHT_WORDS],
        numbers: *mut [u64; FLIGHT_NUMBERS],
        content: *const u8,
        content_len: usize,
    ) -> Acked;
    fn husk_flight_status_words(word: *const [u64; FLIGHT_WORDS]) -> Saved;

    fn husk_notes_init_words(count: *mut [u64; 1], epochs: *mut [u64; NOTES], numbers: *mut [u64; NOTES]);
    fn husk_notes_add_words(
        count: *mut [u64; 1],
        epochs: *mut [u64; NOTES],
        numbers: *mut [u64; NOTES],
        epoch: u64,
        number: u64,
    ) -> Told;
    fn husk_notes_send_words(
        s: *mut Sending,
        count: *mut [u64; 1],
        epochs: *mut [u64; NOTES],
        numbers: *mut [u64; NOTES],
        queue: *mut u8,
        queue_len: usize,
    ) -> Told;

    fn husk_assembly_init(s: *mut Assembly);
    fn husk_assembly_begin(s: *mut Assembly, n: usize) -> u8;
    fn husk_assembly_take(s: *mut Assembly, content: *const u8, content_len: usize, buffer: *mut u8, buffer_len: usize) -> Piece;
}

// SAFETY of every block below but those of Datagram: the pointers and lengths are those of the references and slices that the function
// takes.

impl Receiving {
    /// Words that no call made.
    pub const BLANK: Receiving = Receiving { word: [0; RECEIVING_WORDS], pending: [0; PENDING], mask_keys: [0; RECEIVING_KEYS] };

    #[inline]
    pub fn init(&mut self, min_protected: usize) -> u8 {
        unsafe { husk_receiving_init_words(&mut self.word, &mut self.pending, &mut self.mask_keys, min_protected) }
    }

    #[inline]
    pub fn key(&mut self, epoch: u16, iv: &[u8; 12]) -> u8 {
        unsafe { husk_receiving_key_words(&mut self.word, &mut self.mask_keys, epoch, iv) }
    }

    #[inline]
    pub fn key_masked(&mut self, epoch: u16, iv: &[u8; 12], mask_key: &[u8]) -> u8 {
        let (word, mask_keys) = (&mut self.word, &mut self.mask_keys);
        unsafe { husk_receiving_key_masked_words(word, mask_keys, epoch, iv, mask_key.as_ptr(), mask_key.len()) }
    }

    #[inline]
    pub fn remove(&mut self, epoch: u16) -> Told {
        unsafe { husk_receiving_remove_words(&mut self.word, &mut self.mask_keys, epoch) }
    }

    #[inline]
    pub fn enable_encryption(&mut self) -> u8 {
        unsafe { husk_receiving_enable_encryption(self) }
    }

    #[inline]
    pub fn release_application_data(&mut self) -> u8 {
        unsafe { husk_receiving_release_application_data(self) }
    }

    #[inline]
    pub fn begin(&mut self, n: usize) -> u8 {
        unsafe { husk_receiving_begin_words(&mut self.word, &mut self.pending, n) }
    }

    // Reading call by call, for drivers: the whole datagram is lent to each call, any datagram. Datagram has the same calls for hosts,
    // which keep what is handed over while they read on.

    #[inline]
    pub fn read(&mut self, d: &mut [u8]) -> Reading {
        unsafe { husk_receiving_read_words(&mut self.word, &mut self.pending, &self.mask_keys, d.as_mut_ptr(), d.len()) }
    }

    #[inline]
    pub fn begin_read(&mut self, d: &mut [u8]) -> Reading {
        unsafe { husk_receiving_begin_read_words(&mut self.word, &mut self.pending, &self.mask_keys, d.as_mut_ptr(), d.len()) }
    }

    #[inline]
    pub fn mask(&mut self, mask: [u8; 2], d: &mut [u8]) -> Reading {
        unsafe { husk_receiving_mask(self, mask[0], mask[1], d.as_mut_ptr(), d.len()) }
    }

    #[inline]
    pub fn opened(&mut self, opened: bool, length: usize, d: &[u8]) -> Reading {
        let opened = opened.into();
        unsafe { husk_receiving_opened_words(&mut self.word, &mut self.pending, opened, length, d.as_ptr(), d.len()) }
    }

    #[inline]
    pub fn classify(&mut self, f: &mut Flight, _: &mut Sending, d: &[u8]) -> Class {
        let (flight, numbers) = (&mut f.word, &mut f.numbers);
        unsafe { husk_receiving_classify_words(&mut self.word, &mut self.pending, flight, numbers, d.as_ptr(), d.len()) }
    }
}

/// A begun datagram and the words it is read with. Parts of it can be handed on, for as long as the host lent it, while it is read.
pub struct Datagram<'r, 'd> {
    state: &'r mut Receiving,
    start: *mut u8,
    length: usize,
    /// Bytes before this are handed on: nobody writes there any more.
    handed: usize,
    /// Bytes before this are of records that the library told of: its cursor is at or behind this.
    told: usize,
    /// Where the sample of the mask question lies that was asked last.
    sample: usize,
    datagram: PhantomData<&'d mut [u8]>,
}

// SAFETY: it is one reference to the words and one to the datagram, `&mut` both, and these can go to another thread.
unsafe impl Send for Datagram<'_, '_> {}
// SAFETY: a shared one does nothing.
unsafe impl Sync for Datagram<'_, '_> {}

// SAFETY of every block below: `start` and `length` are those of a slice that is borrowed for 'd, and the file's head says why nothing is
// written to what is handed on.
impl<'r, 'd> Datagram<'r, 'd> {
    /// Begins a datagram and reads its first record. An error is the refusal.
    #[inline]
    pub fn begin_read(state: &'r mut Receiving, d: &'d mut [u8]) -> Result<(Datagram<'r, 'd>, Reading), u8> {
        let (start, length) = (d.as_mut_ptr(), d.len());
        let first =
            unsafe { husk_receiving_begin_read_words(&mut state.word, &mut state.pending, &state.mask_keys, start, length) };
        if first.kind == READING_REFUSED {
            return Err(first.refusal);
        }
        let mut begun = Datagram { state, start, length, handed: 0, told: 0, sample: 0, datagram: PhantomData };
        begun.tell(&first);
        Ok((begun, first))
    }

    #[inline]
    pub fn read(&mut self) -> Reading {
        let state = &mut *self.state;
        let r =
            unsafe { husk_receiving_read_words(&mut state.word, &mut state.pending, &state.mask_keys, self.start, self.length) };
        self.tell(&r);
        r
    }

    #[inline]
    pub fn mask(&mut self, mask: [u8; 2]) -> Reading {
        // A sealed record has a first byte and a number byte before its sample.
        assert!(self.handed + 2 <= self.sample, "no record is unmasked that is handed on");
        let r = unsafe { husk_receiving_mask(self.state, mask[0], mask[1], self.start, self.length) };
        self.tell(&r);
        r
    }

    #[inline]
    pub fn opened(&mut self, opened: bool, length: usize) -> Reading {
        let (state, opened) = (&mut *self.state, opened.into());
        let r =
            unsafe { husk_receiving_opened_words(&mut state.word, &mut state.pending, opened, length, self.start, self.length) };
        self.tell(&r);
        r
    }

    /// Deals with the reading that was told last. It writes nothing to the datagram, and the cursor stays or goes to the end.
    #[inline]
    pub fn classify(&mut self, f: &mut Flight, _: &mut Sending) -> Class {
        let (state, flight, numbers) = (&mut *self.state, &mut f.word, &mut f.numbers);
        unsafe { husk_receiving_classify_words(&mut state.word, &mut state.pending, flight, numbers, self.start, self.length) }
    }

    /// Keeps what a reading says of places.
    #[inline]
    fn tell(&mut self, r: &Reading) {
        match r.kind {
            READING_PLAINTEXT | READING_UNOPENED | READING_OPENED => self.told = self.end(r.start, r.length),
            READING_MASK => self.sample = r.start,
            _ => {}
        }
    }

    /// Where a part ends that is in the datagram and behind all that is handed on.
    #[inline]
    fn end(&self, from: usize, length: usize) -> usize {
        assert!(self.handed <= from, "the part is behind those handed on");
        from.checked_add(length).filter(|end| *end <= self.length).expect("the part is in the datagram")
    }

    /// A part of the record that was told of last, for good.
    #[inline]
    pub fn hand(&mut self, from: usize, length: usize) -> &'d [u8] {
        let end = self.end(from, length);
        assert!(end <= self.told, "the part is of a record that was told of");
        self.handed = end;
        unsafe { slice::from_raw_parts(self.start.add(from), length) }
    }

    /// A part behind all that is handed on, until the next call.
    #[inline]
    pub fn lend(&mut self, from: usize, length: usize) -> &mut [u8] {
        self.end(from, length);
        unsafe { slice::from_raw_parts_mut(self.start.add(from), length) }
    }
}

impl Sending {
    /// Words that no call made.
    pub const BLANK: Sending = Sending { word: [0; SENDING_WORDS], mask_keys: [0; SENDING_KEYS] };

    #[inline]
    pub fn init(&mut self, mtu: usize, limit: usize) -> u8 {
        unsafe { husk_sending_init_words(&mut self.word, &mut self.mask_keys, mtu, limit) }
    }

    #[inline]
    pub fn key(&mut self, epoch: u16, iv: &[u8; 12]) -> u8 {
        unsafe { husk_sending_key_words(&mut self.word, &mut self.mask_keys, epoch, iv) }
    }

    #[inline]
    pub fn key_masked(&mut self, epoch: u16, iv: &[u8; 12], mask_key: &[u8]) -> u8 {
        let (word, mask_keys) = (&mut self.word, &mut self.mask_keys);
        unsafe { husk_sending_key_masked_words(word, mask_keys, epoch, iv, mask_key.as_ptr(), mask_key.len()) }
    }

    #[inline]
    pub fn send(&mut self, epoch: u16, content_type: u8, content: &[u8], queue: &mut [u8]) -> u8 {
        unsafe { husk_sending_send(self, epoch, content_type, content.as_ptr(), content.len(), queue.as_mut_ptr(), queue.len()) }
    }

    #[inline]
    pub fn sealing(&self) -> Sealing {
        unsafe { husk_sending_sealing(self) }
    }

    #[inline]
    pub fn sealed(&mut self, _: &mut Flight, length: usize, mask: [u8; 2], queue: &mut [u8]) -> u8 {
        let (word, mask_keys) = (&mut self.word, &self.mask_keys);
        unsafe { husk_sending_sealed_words(word, mask_keys, length, mask[0], mask[1], queue.as_mut_ptr(), queue.len()) }
    }

    #[inline]
    pub fn take(&mut self, buffer: &mut [u8], queue: &[u8]) -> Take {
        unsafe { husk_sending_take(self, buffer.as_mut_ptr(), buffer.len(), queue.as_ptr(), queue.len()) }
    }

    #[inline]
    pub fn take_in_place(&mut self, queue: &[u8]) -> Part {
        unsafe { husk_sending_take_in_place(self, queue.as_ptr(), queue.len()) }
    }

    #[inline]
    pub fn status(&self) -> Queued {
        unsafe { husk_sending_status(self) }
    }
}

impl Flight {
    /// Words that no call made.
    pub const BLANK: Flight = Flight { word: [0; FLIGHT_WORDS], numbers: [0; FLIGHT_NUMBERS] };

    #[inline]
    pub fn init(&mut self) {
        unsafe { husk_flight_init_words(&mut self.word, &mut self.numbers) }
    }

    #[inline]
    pub fn begin(&mut self, _: &mut Sending) -> u8 {
        unsafe { husk_flight_begin_words(&mut self.word) }
    }

    #[inline]
    pub fn send(
        &mut self,
        s: &mut Sending,
        epoch: u16,
        content_type: u8,
        content: &[u8],
        queue: &mut [u8],
        kept: &mut [u8],
    ) -> u8 {
        unsafe {
            husk_flight_send_words(
                s,
                &mut self.word,
                &mut self.numbers,
                epoch,
                content_type,
                content.as_ptr(),
                content.len(),
                queue.as_mut_ptr(),
                queue.len(),
                kept.as_mut_ptr(),
                kept.len(),
            )
        }
    }

    #[inline]
    pub fn message(&mut self, s: &mut Sending, msg_type: u8, body: &[u8], queue: &mut [u8], kept: &mut [u8]) -> u8 {
        unsafe {
            husk_flight_message_words(
                s,
                &mut self.word,
                &mut self.numbers,
                msg_type,
                body.as_ptr(),
                body.len(),
                queue.as_mut_ptr(),
                queue.len(),
                kept.as_mut_ptr(),
                kept.len(),
            )
        }
    }

    #[inline]
    pub fn resend(&mut self, s: &mut Sending, kept: &[u8], queue: &mut [u8]) -> Told {
        unsafe {
            husk_flight_resend_words(
                s,
                &mut self.word,
                &mut self.numbers,
                kept.as_ptr(),
                kept.len(),
                queue.as_mut_ptr(),
                queue.len(),
            )
        }
    }

    #[inline]
    pub fn ack(&mut self, _: &mut Sending, content: &[u8]) -> Acked {
        unsafe { husk_flight_ack_words(&mut self.word, &mut self.numbers, content.as_ptr(), content.len()) }
    }

    #[inline]
    pub fn status(&self) -> Saved {
        unsafe { husk_flight_status_words(&self.word) }
    }
}

impl Notes {
    /// Words that no call made.
    pub const BLANK: Notes = Notes { count: [0], epochs: [0; NOTES], numbers: [0; NOTES] };

    #[inline]
    pub fn init(&mut self) {
        unsafe { husk_notes_init_words(&mut self.count, &mut self.epochs, &mut self.numbers) }
    }

    #[inline]
    pub fn add(&mut self, epoch: u64, number: u64) -> Told {
        unsafe { husk_notes_add_words(&mut self.count, &mut self.epochs, &mut self.numbers, epoch, number) }
    }

    #[inline]
    pub fn send(&mut self, s: &mut Sending, queue: &mut [u8]) -> Told {
        unsafe { husk_notes_send_words(s, &mut self.count, &mut self.epochs, &mut self.numbers, queue.as_mut_ptr(), queue.len()) }
    }
}

impl Assembly {
    /// Words that no call made.
    pub const BLANK: Assembly = Assembly { word: [0; 106] };

    #[inline]
    pub fn init(&mut self) {
        unsafe { husk_assembly_init(self) }
    }

    #[inline]
    pub fn begin(&mut self, n: usize) -> u8 {
        unsafe { husk_assembly_begin(self, n) }
    }

    #[inline]
    pub fn take(&mut self, content: &[u8], buffer: &mut [u8]) -> Piece {
        unsafe { husk_assembly_take(self, content.as_ptr(), content.len(), buffer.as_mut_ptr(), buffer.len()) }
    }
}
