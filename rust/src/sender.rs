use core::fmt;

#[cfg(feature = "alloc")]
use alloc::{vec, vec::Vec};

use huskelapse_sys as ffi;

use crate::{Cipher, CipherError, Error, Refusal, SealFailed};

/// The sending side of a link: epochs with their IVs and next numbers, the queue of datagrams, the flight of saved records and the
/// records to acknowledge.
///
/// Queue and flight are memory that the sender owns or borrows: `Sender::new` (with the feature `alloc`), [`Sender::with_memory`].
///
/// ```
/// use huskelapse::{content_type, Error, Refusal, Sender};
/// # mod toy { include!(concat!(env!("CARGO_MANIFEST_DIR"), "/tests/toy/mod.rs")); }
/// # use toy::Toy;
///
/// let mut sender = Sender::new(1200, 4)?;
/// sender.key(3, &[7; 12])?;
/// sender.send(3, content_type::APPLICATION_DATA, b"14.2 kWh")?;
/// sender.send(3, content_type::APPLICATION_DATA, b"14.3 kWh")?;
/// assert_eq!(sender.send(4, content_type::APPLICATION_DATA, b"?"), Err(Refusal::BadEpoch));
///
/// let mut buffer = [0; 1200];
/// assert_eq!(sender.take(&mut buffer), Err(Error::Refused(Refusal::Waiting))); // not sealed yet
/// assert_eq!(sender.seal(&mut Toy(5))?, 2); // `Toy` stands for a cipher with the keys of this direction
/// assert_eq!(sender.take(&mut buffer[..10]), Err(Error::Refused(Refusal::BufferTooSmall { needed: 60 })));
/// let datagram = sender.take(&mut buffer)?.expect("one datagram");
/// assert_eq!(datagram.len(), 60); // both records
/// assert_eq!(sender.take(&mut buffer)?, None);
/// # Ok::<(), Error>(())
/// ```
///
/// A handshake message is cut into pieces that fit, and saved:
///
/// ```
/// # use huskelapse::{Error, Refusal, Sender};
/// # mod toy { include!(concat!(env!("CARGO_MANIFEST_DIR"), "/tests/toy/mod.rs")); }
/// # use toy::Toy;
/// let mut sender = Sender::new(576, 4)?;
/// sender.key(2, &[7; 12])?;
/// sender.message(11, &[0; 1000])?;
/// assert_eq!(sender.seal(&mut Toy(5))?, 2);
/// let mut buffer = [0; 576];
/// assert_eq!(sender.take(&mut buffer)?.map(|datagram| datagram.len()), Some(576));
/// assert_eq!(sender.take(&mut buffer)?.map(|datagram| datagram.len()), Some(492));
/// assert_eq!(sender.message(11, &[0; 6000]), Err(Refusal::FlightFull)); // a flight has 12 records at most
/// sender.begin_flight();
/// assert_eq!(sender.status().saved, 0);
/// # Ok::<(), Error>(())
/// ```
///
/// What is saved goes out again until the far end's ACK names it:
///
/// ```
/// use huskelapse::{content_type, Error, Reading, Receiver, Sender};
/// # mod toy { include!(concat!(env!("CARGO_MANIFEST_DIR"), "/tests/toy/mod.rs")); }
/// # use toy::Toy;
///
/// let (mut buffer, mut cipher) = ([0; 600], Toy(5));
/// let mut gateway = Sender::new(600, 4)?;
/// gateway.key(3, &[7; 12])?;
/// gateway.send_saved(3, content_type::APPLICATION_DATA, b"stop")?;
/// gateway.seal(&mut cipher)?;
/// gateway.take(&mut buffer)?; // lost on the way
/// assert_eq!(gateway.resend()?, 1);
/// gateway.seal(&mut cipher)?;
/// let datagram = gateway.take(&mut buffer)?.expect("the order again");
///
/// // The post reads the order and acknowledges it.
/// let (mut receiver, mut post) = (Receiver::new(Receiver::MIN_PROTECTED)?, Sender::new(600, 4)?);
/// receiver.key(3, &[7; 12])?;
/// receiver.enable_peer_encryption();
/// post.key(3, &[8; 12])?;
/// let order = receiver.read(datagram, &mut Toy(5), &mut post)?.next();
/// assert_eq!(order, Some(Reading::ApplicationData { epoch: 3, number: 1, content: b"stop" }));
/// assert!(post.note(3, 1)?);
/// assert!(post.send_ack()?);
/// post.seal(&mut cipher)?;
/// let ack = post.take(&mut buffer)?.expect("the ACK");
///
/// // The gateway reads it, by which it is acted on.
/// let mut receiver = Receiver::new(Receiver::MIN_PROTECTED)?;
/// receiver.key(3, &[8; 12])?;
/// receiver.enable_peer_encryption();
/// for reading in receiver.read(ack, &mut Toy(5), &mut gateway)? {
///     if let Reading::Ack { acked, .. } = reading {
///         assert_eq!((acked.marked, acked.unacknowledged), (1, 0));
///     }
/// }
/// assert_eq!(gateway.resend()?, 0); // nothing is left to send
/// # Ok::<(), Error>(())
/// ```
///
/// The state is private, and it is not cloned: a clone would seal under the same nonces.
///
/// ```compile_fail,E0451
/// let sender = huskelapse::Sender { state: huskelapse_sys::Sending::BLANK, ..huskelapse::Sender::new(600, 2).unwrap() };
/// ```
///
/// ```compile_fail,E0599
/// let sender = huskelapse::Sender::new(600, 2).unwrap().clone();
/// ```
pub struct Sender<#[cfg(feature = "alloc")] Q = Vec<u8>, #[cfg(not(feature = "alloc"))] Q, F = Q> {
    state: ffi::Sending,
    flight: ffi::Flight,
    notes: ffi::Notes,
    queue: Q,
    kept: F,
    /// The record that the cipher has to seal, from before it is asked until the library accepted the reply. Outside of
    /// [`Sender::seal`] it is one whose sealing failed, and then it stays.
    unsealed: Option<SealFailed>,
    /// Whether the library makes the masks of epoch 2, and of the application epoch.
    masked: [bool; 2],
}

/// What a sender holds.
#[derive(Clone, Copy, Debug, Default, PartialEq, Eq, Hash)]
#[non_exhaustive]
pub struct Status {
    /// Datagrams queued.
    pub queued: usize,
    /// Records in them that wait to be sealed.
    pub waiting: usize,
    /// Records saved in the flight.
    pub saved: usize,
    /// Those of them that are not acknowledged.
    pub unacknowledged: usize,
}

/// What an ACK did.
#[derive(Clone, Copy, Debug, Default, PartialEq, Eq, Hash)]
#[non_exhaustive]
pub struct Acked {
    /// Saved records that it acknowledged and none before did.
    pub marked: usize,
    /// Saved records that are still not acknowledged.
    pub unacknowledged: usize,
    /// Records still saved; with 0 the flight is empty.
    pub saved: usize,
}

impl Acked {
    /// By the counts that a call tells.
    pub(crate) fn of(marked: u8, unacknowledged: u8, saved: u8) -> Acked {
        Acked { marked: marked.into(), unacknowledged: unacknowledged.into(), saved: saved.into() }
    }
}

impl<Q, F> Sender<Q, F> {
    /// What an ACK is acted on with.
    pub(crate) fn for_acks(&mut self) -> (&mut ffi::Flight, &mut ffi::Sending) {
        (&mut self.flight, &mut self.state)
    }
}

#[cfg(feature = "alloc")]
impl Sender {
    /// Nothing keyed, queued or saved: MTU 576 to 1,500, at most `limit` datagrams queued, 1 to 16.
    ///
    /// # Errors
    ///
    /// Refused with [`Refusal::OutOfRange`] (12).
    pub fn new(mtu: usize, limit: usize) -> Result<Sender, Refusal> {
        // Settings out of their range are refused, whatever the memory.
        let (most, datagrams) = (mtu.min(1500), limit.min(16));
        Sender::with_memory(mtu, limit, vec![0; most * datagrams], vec![0; most * ffi::FLIGHT])
    }
}

impl<Q: AsRef<[u8]> + AsMut<[u8]>, F: AsRef<[u8]> + AsMut<[u8]>> Sender<Q, F> {
    /// Nothing keyed, queued or saved: MTU 576 to 1,500, at most `limit` datagrams queued, 1 to 16. The memory has at least `limit`
    /// times `mtu` bytes for the queue and 12 times `mtu` for the flight, and it gives out the same bytes each time.
    ///
    /// # Errors
    ///
    /// Refused with [`Refusal::OutOfRange`] (12).
    ///
    /// # Examples
    ///
    /// Memory that is lent, and memory in arrays:
    ///
    /// ```
    /// # use huskelapse::{Refusal, Sender};
    /// let (mut queue, mut flight) = ([0; 2 * 600], [0; 12 * 600]);
    /// assert_eq!(Sender::with_memory(600, 3, &mut queue, &mut flight).err(), Some(Refusal::OutOfRange));
    /// let mut sender = Sender::with_memory(600, 2, &mut queue, &mut flight)?;
    /// sender.send(0, 22, b"hello")?;
    ///
    /// let mut sender: Sender<[u8; 1200], [u8; 7200]> = Sender::with_memory(600, 2, [0; 1200], [0; 7200])?;
    /// sender.send(0, 22, b"hello")?;
    /// # Ok::<(), Refusal>(())
    /// ```
    ///
    /// Memory that a sender has cannot be lent twice, touched or taken into:
    ///
    /// ```compile_fail,E0499
    /// # use huskelapse::Sender;
    /// let mut memory = [0; 8400];
    /// let mut sender = Sender::with_memory(600, 2, &mut memory[..], &mut memory[..]);
    /// ```
    ///
    /// ```compile_fail,E0499
    /// # use huskelapse::Sender;
    /// let (mut queue, mut flight) = ([0; 1200], [0; 7200]);
    /// let mut sender = Sender::with_memory(600, 2, &mut queue[..], &mut flight[..]).unwrap();
    /// sender.take(&mut queue[..]);
    /// ```
    pub fn with_memory(mtu: usize, limit: usize, queue: Q, flight: F) -> Result<Sender<Q, F>, Refusal> {
        let (mut state, mut words, mut notes) = (ffi::Sending::BLANK, ffi::Flight::BLANK, ffi::Notes::BLANK);
        Refusal::done(state.init(mtu, limit))?;
        words.init();
        notes.init();
        if queue.as_ref().len() < mtu * limit || flight.as_ref().len() < mtu * ffi::FLIGHT {
            return Err(Refusal::OutOfRange);
        }
        Ok(Sender { state, flight: words, notes, queue, kept: flight, unsealed: None, masked: [false; 2] })
    }

    /// Keys an epoch, 2 or above and above every earlier one, with its IV. One of 3 or above replaces the application epoch.
    ///
    /// # Errors
    ///
    /// Refused with [`Refusal::BadEpoch`] (13), and with [`Refusal::Waiting`] (23) where a record under the application epoch that would
    /// be replaced waits to be sealed.
    pub fn key(&mut self, epoch: u16, iv: &[u8; 12]) -> Result<(), Refusal> {
        Refusal::done(self.state.key(epoch, iv))?;
        self.masked[of(epoch)] = false;
        Ok(())
    }

    /// As [`Sender::key`], with a mask key of 32 bytes: the number key ("sn_key" in RFC 9147) of a ChaCha20 suite, of the direction that is
    /// sent. The masks of the epoch's records are made of it here, and the cipher is not asked for any. Epochs with and without a mask key
    /// stand beside each other.
    ///
    /// # Errors
    ///
    /// Refused as [`Sender::key`], and with [`Refusal::BadMaskKey`] (27), which is tested between these two; then nothing has changed.
    ///
    /// # Examples
    ///
    /// A cipher that makes no masks:
    ///
    /// ```
    /// use huskelapse::{content_type, Cipher, CipherError, Refusal, Sender};
    /// # mod toy { include!(concat!(env!("CARGO_MANIFEST_DIR"), "/tests/toy/mod.rs")); }
    /// # use toy::Toy;
    ///
    /// struct Aead(Toy); // `Toy` stands for an AEAD with the keys of this direction
    ///
    /// impl Cipher for Aead {
    ///     fn seal(&mut self, epoch: u16, number: u64, nonce: &[u8; 12], header: &[u8], part: &mut [u8]) -> Result<(), CipherError> {
    ///         self.0.seal(epoch, number, nonce, header, part)
    ///     }
    ///
    ///     fn open(&mut self, epoch: u16, number: u64, nonce: &[u8; 12], header: &[u8], part: &mut [u8]) -> bool {
    ///         self.0.open(epoch, number, nonce, header, part)
    ///     }
    /// }
    ///
    /// let (iv, mask_key) = ([7; 12], [9; 32]);
    /// let mut sender = Sender::new(1200, 4)?;
    /// assert_eq!(sender.key_masked(3, &iv, &mask_key[..16]), Err(Refusal::BadMaskKey));
    /// sender.key_masked(3, &iv, &mask_key)?;
    /// sender.send(3, content_type::APPLICATION_DATA, b"14.2 kWh")?;
    /// assert_eq!(sender.seal(&mut Aead(Toy(5)))?, 1);
    /// # Ok::<(), huskelapse::Error>(())
    /// ```
    pub fn key_masked(&mut self, epoch: u16, iv: &[u8; 12], mask_key: &[u8]) -> Result<(), Refusal> {
        Refusal::done(self.state.key_masked(epoch, iv, mask_key))?;
        self.masked[of(epoch)] = true;
        Ok(())
    }

    /// Queues a record, in plaintext in epoch 0, else to be sealed. It joins the last datagram if there is room.
    ///
    /// # Errors
    ///
    /// Refused with [`Refusal::BadEpoch`] (13), [`Refusal::BadRecord`] (14), [`Refusal::KeysAbsent`] (17), [`Refusal::QueueFull`] (19)
    /// and [`Refusal::NumbersSpent`] (20); then nothing has changed.
    pub fn send(&mut self, epoch: u16, content_type: u8, content: &[u8]) -> Result<(), Refusal> {
        Refusal::done(self.state.send(epoch, content_type, content, self.queue.as_mut()))
    }

    /// As [`Sender::send`], and saves the record in the flight. A flight without records of epoch 2 is not emptied by ACKs: begin it anew
    /// once none is unacknowledged.
    ///
    /// # Errors
    ///
    /// Refused as [`Sender::send`], and with [`Refusal::FlightFull`] (18); then nothing has changed.
    pub fn send_saved(&mut self, epoch: u16, content_type: u8, content: &[u8]) -> Result<(), Refusal> {
        let (queue, kept) = (self.queue.as_mut(), self.kept.as_mut());
        Refusal::done(self.flight.send(&mut self.state, epoch, content_type, content, queue, kept))
    }

    /// Queues a handshake message, cut into pieces that are saved in the flight: ClientHello (1) and ServerHello (2) in epoch 0, other
    /// types in epoch 2. A message that needs more datagrams than the queue's limit is refused however many are taken.
    ///
    /// # Errors
    ///
    /// Refused with [`Refusal::BadRecord`] (14), [`Refusal::KeysAbsent`] (17), [`Refusal::FlightFull`] (18), [`Refusal::QueueFull`]
    /// (19), [`Refusal::NumbersSpent`] (20) and [`Refusal::MessagesSpent`] (21); then nothing has changed.
    pub fn message(&mut self, message_type: u8, body: &[u8]) -> Result<(), Refusal> {
        let (queue, kept) = (self.queue.as_mut(), self.kept.as_mut());
        Refusal::done(self.flight.message(&mut self.state, message_type, body, queue, kept))
    }

    /// Begins a new flight: nothing is saved. What is queued stays queued.
    pub fn begin_flight(&mut self) {
        Refusal::never(self.flight.begin(&mut self.state));
    }

    /// Queues what is saved and not acknowledged again, under new numbers and in new datagrams. The answer is how many records; with 0
    /// a retransmission timer has nothing to do.
    ///
    /// Each sending is a record of its own, so the far end may get the content twice. Handshake records of epoch 2 and above are known
    /// by earlier numbers too, any other record by its last one alone: the time between two resends has to be longer than a round trip,
    /// or every ACK comes too late.
    ///
    /// # Errors
    ///
    /// Refused with [`Refusal::BadEpoch`] (13), [`Refusal::BadRecord`] (14), [`Refusal::KeysAbsent`] (17), [`Refusal::QueueFull`] (19),
    /// [`Refusal::NumbersSpent`] (20) and [`Refusal::ResendsSpent`] (22); then nothing has changed.
    pub fn resend(&mut self) -> Result<usize, Refusal> {
        let answer = self.flight.resend(&mut self.state, self.kept.as_ref(), self.queue.as_mut());
        Refusal::answer(answer.refusal, answer.told.into())
    }

    /// Acts on the content of an ACK that was opened, never of one in plaintext: the saved records that it names are not sent again.
    /// [`Receiver::read`](crate::Receiver::read) does this with each ACK that it opens: this is for a host that opens records itself. If
    /// the flight has records of epoch 2 and all of them are named, it is emptied, and records of other epochs go with it, acknowledged
    /// or not: save those in a flight of their own. Content that has not the form of an ACK changes nothing.
    ///
    /// # Errors
    ///
    /// None with a state that calls made; a later release may refuse.
    pub fn acknowledge(&mut self, content: &[u8]) -> Result<Acked, Refusal> {
        let answer = self.flight.ack(&mut self.state, content);
        Refusal::answer(answer.refusal, Acked::of(answer.marked, answer.unacknowledged, answer.saved))
    }

    /// Notes a record that was handed over for the next ACK. False where 32 are noted already: then it is not.
    ///
    /// # Errors
    ///
    /// None with a state that calls made; a later release may refuse.
    pub fn note(&mut self, epoch: u16, number: u64) -> Result<bool, Refusal> {
        let answer = self.notes.add(epoch.into(), number);
        Refusal::answer(answer.refusal, answer.told == 1)
    }

    /// Queues an ACK of all that is noted, in the application epoch if it is keyed, else in epoch 2; then nothing is noted. False where
    /// nothing was noted: then nothing is queued. A far end without the keys of that application epoch drops it: key it when the far end
    /// can read it.
    ///
    /// # Errors
    ///
    /// Refused with [`Refusal::BadEpoch`] (13), [`Refusal::KeysAbsent`] (17), [`Refusal::QueueFull`] (19) and
    /// [`Refusal::NumbersSpent`] (20); then nothing has changed.
    pub fn send_ack(&mut self) -> Result<bool, Refusal> {
        let answer = self.notes.send(&mut self.state, self.queue.as_mut());
        Refusal::answer(answer.refusal, answer.told == 1)
    }

    /// What is queued, waits to be sealed, is saved and is not acknowledged.
    pub fn status(&self) -> Status {
        let (sending, flight) = (self.state.status(), self.flight.status());
        Refusal::never(sending.refusal.max(flight.refusal));
        Status {
            queued: sending.queued.into(),
            waiting: sending.waiting,
            saved: flight.saved.into(),
            unacknowledged: flight.unacknowledged.into(),
        }
    }

    /// Has the cipher seal every record that waits, oldest first. The answer is how many.
    ///
    /// # Errors
    ///
    /// The cipher answered an error for a record, now or in an earlier call, or it panicked in an earlier one. The cipher is not asked
    /// any more; [`SealFailed`] says what to do. Records sealed before it are sealed.
    pub fn seal<C: Cipher + ?Sized>(&mut self, cipher: &mut C) -> Result<usize, SealFailed> {
        let mut sealed = 0;
        while self.seal_one(cipher)? {
            sealed += 1;
        }
        Ok(sealed)
    }

    /// Has the cipher seal the oldest record that waits. Whether there was one.
    fn seal_one<C: Cipher + ?Sized>(&mut self, cipher: &mut C) -> Result<bool, SealFailed> {
        if let Some(failed) = self.unsealed {
            return Err(failed);
        }
        let q = self.state.sealing();
        if q.kind != ffi::SEALING_SEAL {
            return Ok(false);
        }
        // Marked before the cipher is asked, so that the mark stays if it panics.
        let mark = self.unsealed.insert(SealFailed { epoch: q.epoch, number: q.number, cause: None });
        let queue = self.queue.as_mut();
        let mask = sealed(&q, &mut queue[q.start..][..q.length], cipher, self.masked[of(q.epoch)]).map_err(|cause| {
            mark.cause = Some(cause);
            *mark
        })?;
        let answer = self.state.sealed(&mut self.flight, q.length, mask, queue);
        assert_eq!(answer, 0, "the reply answers the question");
        self.unsealed = None;
        Ok(true)
    }

    /// Takes the front datagram into the start of `buffer`; none if the queue is empty.
    ///
    /// # Errors
    ///
    /// Refused with [`Refusal::Waiting`] (23) before the datagram is wholly sealed, and with [`Refusal::BufferTooSmall`] (16), which says
    /// what is needed. [`Error::SealFailed`] where it never will be, as one of its records or of those before could not be sealed.
    pub fn take<'b>(&mut self, buffer: &'b mut [u8]) -> Result<Option<&'b mut [u8]>, Error> {
        let t = self.state.take(buffer, self.queue.as_ref());
        match t.kind {
            ffi::TAKE_TAKEN => Ok(Some(&mut buffer[..t.length])),
            ffi::TAKE_EMPTY => Ok(None),
            _ => Err(self.not_taken(Refusal::of(t.refusal, t.length))),
        }
    }

    /// Takes the front datagram where it lies in the queue, without a copy; none if the queue is empty. The sender is borrowed as long
    /// as the datagram, so nothing is queued over it.
    ///
    /// # Errors
    ///
    /// As [`Sender::take`], without [`Refusal::BufferTooSmall`].
    ///
    /// # Examples
    ///
    /// ```
    /// # use huskelapse::{content_type, Error, Refusal, Sender};
    /// # mod toy { include!(concat!(env!("CARGO_MANIFEST_DIR"), "/tests/toy/mod.rs")); }
    /// # use toy::Toy;
    /// let mut sender = Sender::new(1200, 4)?;
    /// sender.key(3, &[7; 12])?;
    /// sender.send(3, content_type::APPLICATION_DATA, b"14.2 kWh")?;
    /// assert_eq!(sender.take_in_place(), Err(Error::Refused(Refusal::Waiting))); // not sealed yet
    /// sender.seal(&mut Toy(5))?;
    /// assert_eq!(sender.take_in_place()?.map(|datagram| datagram.len()), Some(30));
    /// assert_eq!(sender.take_in_place()?, None);
    /// # Ok::<(), Error>(())
    /// ```
    ///
    /// ```compile_fail,E0499
    /// # use huskelapse::{content_type, Sender};
    /// # let mut sender = Sender::new(1200, 4).unwrap();
    /// let datagram = sender.take_in_place().unwrap();
    /// sender.send(3, content_type::APPLICATION_DATA, b"over it").unwrap();
    /// println!("{datagram:?}");
    /// ```
    pub fn take_in_place(&mut self) -> Result<Option<&[u8]>, Error> {
        let t = self.state.take_in_place(self.queue.as_ref());
        match t.kind {
            ffi::TAKE_TAKEN => Ok(Some(&self.queue.as_ref()[t.start..][..t.length])),
            ffi::TAKE_EMPTY => Ok(None),
            _ => Err(self.not_taken(Refusal::of(t.refusal, 0))),
        }
    }

    /// Why a datagram is not taken: one that waits for a sealing that failed waits for ever.
    fn not_taken(&self, why: Refusal) -> Error {
        match (why, self.unsealed) {
            (Refusal::Waiting, Some(failed)) => Error::SealFailed(failed),
            _ => Error::Refused(why),
        }
    }
}

/// Which of the two epochs that can be keyed to send: 2, or the application epoch.
fn of(epoch: u16) -> usize {
    usize::from(epoch > 2)
}

/// Seals a part in place. The answer is the mask of its number, or any bytes where the library makes it.
fn sealed<C: Cipher + ?Sized>(q: &ffi::Sealing, part: &mut [u8], cipher: &mut C, masked: bool) -> Result<[u8; 2], CipherError> {
    cipher.seal(q.epoch, q.number, &q.nonce, &q.header, part)?;
    if masked {
        return Ok([0, 0]);
    }
    let sample = part.first_chunk().expect("a sealed part has 17 bytes or more");
    cipher.mask(q.epoch, sample)
}

impl<Q, F> fmt::Debug for Sender<Q, F> {
    fn fmt(&self, f: &mut fmt::Formatter<'_>) -> fmt::Result {
        f.debug_struct("Sender").field("unsealed", &self.unsealed).finish_non_exhaustive()
    }
}
