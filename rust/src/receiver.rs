use core::fmt;
use core::iter::FusedIterator;

use huskelapse_sys as ffi;

use crate::{Acked, Cipher, Refusal, Sender};

/// The receive side of a link: epochs with their IVs and replay windows, and the close.
///
/// ```
/// use huskelapse::{Reading, Receiver, Refusal, Sender};
/// # mod toy { include!(concat!(env!("CARGO_MANIFEST_DIR"), "/tests/toy/mod.rs")); }
/// # use toy::Toy;
///
/// let mut receiver = Receiver::new(Receiver::MIN_PROTECTED)?;
/// receiver.key(3, &[7; 12])?;
/// assert_eq!(receiver.key(3, &[8; 12]), Err(Refusal::BadEpoch));
/// receiver.enable_peer_encryption();
/// let mut sender = Sender::new(1200, 4)?; // the other direction of this end: ACKs are for what it sent
///
/// // An alert in plaintext, then a sealed record that no key opens, then a cut-off header.
/// let mut datagram = [21, 0xFE, 0xFD, 0, 0, 0, 0, 0, 0, 0, 4, 0, 2, 1, 0].to_vec();
/// datagram.extend([0x2F, 0, 1, 0, 20]);
/// datagram.extend([0; 20]);
/// datagram.push(22);
/// // `Toy` stands for a cipher with the keys of this direction.
/// let readings: Vec<Reading> = receiver.read(&mut datagram, &mut Toy(5), &mut sender)?.collect();
/// assert_eq!(
///     readings,
///     [
///         Reading::Unprotected { number: 4, content_type: 21 },
///         Reading::Dropped(Refusal::NotOpened),
///         Reading::Fault(Refusal::Truncated),
///     ]
/// );
/// # Ok::<(), Refusal>(())
/// ```
///
/// The state is private, it comes from [`Receiver::new`] only, and it is not cloned: a clone would hand over every record once more.
///
/// ```compile_fail,E0451
/// let receiver = huskelapse::Receiver { state: huskelapse_sys::Receiving::BLANK };
/// ```
///
/// ```compile_fail,E0599
/// let receiver = huskelapse::Receiver::new(17).unwrap().clone();
/// ```
pub struct Receiver {
    state: ffi::Receiving,
}

impl Receiver {
    /// The least length of a protected part for AES-GCM and ChaCha20-Poly1305: a content type and the tag.
    pub const MIN_PROTECTED: usize = 17;

    /// Nothing keyed, peer encryption off. Protected parts shorter than 16 or `min_protected` bytes are dropped
    /// ([`Refusal::TooShort`]); give [`Receiver::MIN_PROTECTED`]. With 16 or less a record that has no content type comes to the cipher.
    ///
    /// # Errors
    ///
    /// Refused with [`Refusal::OutOfRange`] (12) where `min_protected` is above 17.
    pub fn new(min_protected: usize) -> Result<Receiver, Refusal> {
        let mut state = ffi::Receiving::BLANK;
        Refusal::done(state.init(min_protected))?;
        Ok(Receiver { state })
    }

    /// Keys an epoch, 2 or above and above every earlier one, with its IV.
    ///
    /// # Errors
    ///
    /// Refused with [`Refusal::BadEpoch`] (13), and with [`Refusal::Waiting`] (23) where four application epochs, 3 or above, are keyed.
    pub fn key(&mut self, epoch: u16, iv: &[u8; 12]) -> Result<(), Refusal> {
        Refusal::done(self.state.key(epoch, iv))
    }

    /// As [`Receiver::key`], with a mask key of 32 bytes: the number key ("sn_key" in RFC 9147) of a ChaCha20 suite, of the direction that
    /// is received. The masks of the epoch's records are made of it here, and the cipher is not asked for any. Epochs with and without a
    /// mask key stand beside each other.
    ///
    /// # Errors
    ///
    /// Refused as [`Receiver::key`], and with [`Refusal::BadMaskKey`] (27), which is tested between these two; then nothing has changed.
    pub fn key_masked(&mut self, epoch: u16, iv: &[u8; 12], mask_key: &[u8]) -> Result<(), Refusal> {
        Refusal::done(self.state.key_masked(epoch, iv, mask_key))
    }

    /// Removes an epoch that is keyed. True where a question waited under it, which a cipher left that panicked: the record is dropped.
    ///
    /// # Errors
    ///
    /// Refused with [`Refusal::BadEpoch`] (13).
    pub fn remove(&mut self, epoch: u16) -> Result<bool, Refusal> {
        let answer = self.state.remove(epoch);
        Refusal::answer(answer.refusal, answer.told == 1)
    }

    /// From now on sealed records are opened, and records in plaintext are dropped ([`Reading::Unprotected`]), since anyone can have
    /// written them. This is not undone.
    pub fn enable_peer_encryption(&mut self) {
        Refusal::never(self.state.enable_encryption());
    }

    /// From now on epoch bits 2 mean an application epoch (6, 10, ..) before they mean epoch 2. It neither holds data back nor lets it go:
    /// records of application epochs are handed over as soon as these are keyed. This is not undone.
    pub fn release_application_data(&mut self) {
        Refusal::never(self.state.release_application_data());
    }

    /// Reads a datagram, at most 16,384 bytes, record by record, and says of each record what it is or what became of it. ACKs are acted
    /// on: they mark what `sender` has saved, which is the sender of this end. After [`Reading::Alert`] the rest of the datagram is not
    /// read.
    ///
    /// Before peer encryption is on anyone can have written what is read of epoch 0. Of an ACK nothing comes then; but an alert 0, as
    /// [`Reading::Close`] of epoch 0, closes every sealed epoch: a host that goes on makes a new receiver.
    ///
    /// A record is read when the iterator comes to it, and asks the cipher for one mask and one opening at most; in an epoch with a mask
    /// key for no mask. What is left unread when the iterator is dropped is not read. Number bytes are unmasked and protected parts opened
    /// in place, the first number by this call already where the epoch has a mask key, so a datagram is read from the same memory only
    /// once. What is handed over borrows the datagram, and neither the iterator nor receiver, cipher and sender. While it is read the
    /// sender does nothing else: what is to be acknowledged is noted afterwards ([`Sender::note`]).
    ///
    /// At most 16 readings hand over bytes. Records are dropped without a limit: a datagram that a stranger made can have thousands.
    ///
    /// A record whose mask the cipher cannot make is dropped with [`Refusal::NotOpened`] (10). If the cipher panics the rest of the
    /// datagram is not read; the next one is read as ever.
    ///
    /// # Errors
    ///
    /// Refused with [`Refusal::DatagramTooLong`] (1).
    ///
    /// # Examples
    ///
    /// Contents stay where they are while records behind are read, and while the receiver goes on:
    ///
    /// ```
    /// # use huskelapse::{Reading, Receiver, Refusal, Sender};
    /// # mod toy { include!(concat!(env!("CARGO_MANIFEST_DIR"), "/tests/toy/mod.rs")); }
    /// # use toy::Toy;
    /// let (mut receiver, mut sender) = (Receiver::new(Receiver::MIN_PROTECTED)?, Sender::new(1200, 4)?);
    /// let mut hellos = [[22, 0xFE, 0xFD, 0, 0, 0, 0, 0, 0, 0, 0, 0, 2, 1, 0]; 2];
    /// let readings: Vec<Reading> = receiver.read(hellos.as_flattened_mut(), &mut Toy(5), &mut sender)?.collect();
    /// receiver.key(2, &[7; 12])?;
    /// sender.key(2, &[8; 12])?;
    /// assert_eq!(readings, [Reading::Handshake { epoch: 0, number: 0, content: &[1, 0] }; 2]);
    /// # Ok::<(), Refusal>(())
    /// ```
    ///
    /// What is read borrows the datagram, nothing else can write there meanwhile:
    ///
    /// ```compile_fail,E0506
    /// # mod toy { include!(concat!(env!("CARGO_MANIFEST_DIR"), "/tests/toy/mod.rs")); }
    /// # use toy::Toy;
    /// let (mut receiver, mut sender) = (huskelapse::Receiver::new(17).unwrap(), huskelapse::Sender::new(1200, 4).unwrap());
    /// let mut datagram = [0; 100];
    /// let readings: Vec<_> = receiver.read(&mut datagram, &mut Toy(5), &mut sender).unwrap().collect();
    /// datagram[0] = 1;
    /// println!("{readings:?}");
    /// ```
    ///
    /// While it is read the receiver does nothing else, and neither does the sender:
    ///
    /// ```compile_fail,E0499
    /// # mod toy { include!(concat!(env!("CARGO_MANIFEST_DIR"), "/tests/toy/mod.rs")); }
    /// # use toy::Toy;
    /// let (mut receiver, mut sender) = (huskelapse::Receiver::new(17).unwrap(), huskelapse::Sender::new(1200, 4).unwrap());
    /// for reading in receiver.read(&mut [0; 100], &mut Toy(5), &mut sender).unwrap() {
    ///     receiver.key(2, &[7; 12]).unwrap();
    /// }
    /// ```
    ///
    /// ```compile_fail,E0499
    /// # mod toy { include!(concat!(env!("CARGO_MANIFEST_DIR"), "/tests/toy/mod.rs")); }
    /// # use toy::Toy;
    /// let (mut receiver, mut sender) = (huskelapse::Receiver::new(17).unwrap(), huskelapse::Sender::new(1200, 4).unwrap());
    /// for reading in receiver.read(&mut [0; 100], &mut Toy(5), &mut sender).unwrap() {
    ///     sender.note(3, 0).unwrap();
    /// }
    /// ```
    pub fn read<'r, 'd, C: Cipher + ?Sized, Q, F>(
        &'r mut self,
        datagram: &'d mut [u8],
        cipher: &'r mut C,
        sender: &'r mut Sender<Q, F>,
    ) -> Result<Readings<'r, 'd, C>, Refusal> {
        let (flight, sending) = sender.for_acks();
        match ffi::Datagram::begin_read(&mut self.state, datagram) {
            Ok((datagram, first)) => Ok(Readings { datagram, first: Some(first), ended: false, cipher, flight, sending }),
            Err(refusal) => Err(Refusal::of(refusal, 0)),
        }
    }
}

impl fmt::Debug for Receiver {
    fn fmt(&self, f: &mut fmt::Formatter<'_>) -> fmt::Result {
        f.debug_struct("Receiver").finish_non_exhaustive()
    }
}

/// What is said of one record of a datagram. Of epoch 0 are records in plaintext: anyone can have written them. A sealed record is told once
/// for its epoch and number.
#[derive(Clone, Copy, Debug, PartialEq, Eq)]
#[non_exhaustive]
pub enum Reading<'a> {
    /// Pieces of handshake messages, for [`Assembly::pieces`](crate::Assembly::pieces). Of epoch 0 only until peer encryption is on.
    Handshake {
        /// The epoch it was sealed in, or 0.
        epoch: u16,
        /// Its full number.
        number: u64,
        /// Its content without padding.
        content: &'a [u8],
    },
    /// Application data, opened.
    ApplicationData {
        /// The epoch it was sealed in.
        epoch: u16,
        /// Its full number.
        number: u64,
        /// Its content without padding.
        content: &'a [u8],
    },
    /// An ACK that was opened, and that has been acted on.
    Ack {
        /// The epoch it was sealed in.
        epoch: u16,
        /// Its full number.
        number: u64,
        /// What it did: with nothing unacknowledged a retransmission timer can stop.
        acked: Acked,
    },
    /// The far end closes, by alert 0, the first one: records beyond it, of a higher number in its epoch or of a higher epoch, are dropped
    /// from now on ([`Reading::Beyond`]). Those before it that come late are told.
    Close {
        /// The epoch it was sealed in, or 0.
        epoch: u16,
        /// Its full number.
        number: u64,
    },
    /// An alert with another description, but for 90, which is ignored. The datagram is over.
    Alert {
        /// The epoch it was sealed in, or 0.
        epoch: u16,
        /// Its full number.
        number: u64,
        /// Which alert (RFC 8446, section 6).
        description: u8,
    },
    /// A record of a type that has no name here, opened.
    Other {
        /// The epoch it was sealed in.
        epoch: u16,
        /// Its full number.
        number: u64,
        /// Its content type, whatever byte it is.
        content_type: u8,
        /// Its content without padding.
        content: &'a [u8],
    },
    /// A sealed record that arrived while peer encryption was off.
    Unopened {
        /// The low two bits of its epoch, 2 or 3.
        epoch_bits: u8,
        /// Its number bytes as they lie, masked.
        number: u16,
        /// Its protected part.
        protected: &'a [u8],
    },
    /// Nothing is done with it: an ACK in plaintext, alert 90, an alert under two bytes, a close after the first, or a change of cipher
    /// spec (20).
    Ignored {
        /// The epoch it was sealed in, or 0.
        epoch: u16,
        /// Its full number.
        number: u64,
        /// 20, 21 or 26.
        content_type: u8,
    },
    /// Dropped beyond the close. Its number is used.
    Beyond {
        /// The epoch it was sealed in, or 0; of a record that is not opened the two bits.
        epoch: u16,
        /// Its full number; of a record that is not opened the number bytes as they lie.
        number: u64,
    },
    /// Dropped: in plaintext, and peer encryption is on.
    Unprotected {
        /// The number in its header.
        number: u64,
        /// 21, 22 or 26.
        content_type: u8,
    },
    /// A record is dropped, with [`Refusal::BadPlaintext`] (4), [`BeforeEncryption`](Refusal::BeforeEncryption) (5),
    /// [`NoKeys`](Refusal::NoKeys) (6), [`TooShort`](Refusal::TooShort) (7), [`NumberTooLarge`](Refusal::NumberTooLarge) (8),
    /// [`Seen`](Refusal::Seen) (9), [`TooOld`](Refusal::TooOld) (26), [`NotOpened`](Refusal::NotOpened) (10) or
    /// [`NoContentType`](Refusal::NoContentType) (11); the records behind it follow.
    Dropped(Refusal),
    /// The datagram ends early, with [`Refusal::Truncated`] (2) or [`Refusal::TooManyReadings`] (3).
    Fault(Refusal),
}

/// The readings of one datagram in order, made by [`Receiver::read`].
pub struct Readings<'r, 'd, C: ?Sized> {
    datagram: ffi::Datagram<'r, 'd>,
    /// What the library said of the first record, until it is told.
    first: Option<ffi::Reading>,
    /// Set also while the cipher is asked, so that it stays if it panics.
    ended: bool,
    cipher: &'r mut C,
    /// Of the sender what ACKs are for.
    flight: &'r mut ffi::Flight,
    sending: &'r mut ffi::Sending,
}

impl<'d, C: Cipher + ?Sized> Readings<'_, 'd, C> {
    /// What the library says of the next record once its questions are answered.
    fn step(&mut self) -> ffi::Reading {
        let mut r = self.first.take().unwrap_or_else(|| self.datagram.read());
        if r.kind == ffi::READING_MASK {
            let sample = self.datagram.lend(r.start, r.length).first_chunk().expect("a sample has 16 bytes");
            match self.cipher.mask(r.epoch, sample) {
                Ok(mask) => r = self.datagram.mask(mask),
                Err(_) => return self.not_opened(),
            }
        }
        if r.kind == ffi::READING_OPENING {
            let (header, part) = self.datagram.lend(r.start, r.header_len + r.length).split_at_mut(r.header_len);
            let opened = self.cipher.open(r.epoch, r.number, &r.nonce, header, part);
            r = self.datagram.opened(opened, r.length - ffi::TAG);
        }
        r
    }

    /// Drops the record that waits for a mask. Without one its number is not known, and the library is told any: the record is not
    /// opened, so no number is marked, and which reason the library would give for it says nothing.
    fn not_opened(&mut self) -> ffi::Reading {
        let mut r = self.datagram.mask([0, 0]);
        if r.kind == ffi::READING_OPENING {
            r = self.datagram.opened(false, 0);
        }
        if r.kind == ffi::READING_DROPPED {
            r.refusal = Refusal::NotOpened.number();
        }
        r
    }

    /// Has the library deal with a reading, and says what it is.
    fn dealt(&mut self, r: &ffi::Reading) -> Reading<'d> {
        let class = self.datagram.classify(self.flight, self.sending);
        let ffi::Reading { epoch, number, content_type, .. } = *r;
        match class.kind {
            ffi::CLASS_HANDSHAKE => Reading::Handshake { epoch, number, content: self.hand(r) },
            ffi::CLASS_APPLICATION_DATA => Reading::ApplicationData { epoch, number, content: self.hand(r) },
            ffi::CLASS_OTHER => Reading::Other { epoch, number, content_type, content: self.hand(r) },
            ffi::CLASS_UNOPENED => Reading::Unopened { epoch_bits: epoch as u8, number: number as u16, protected: self.hand(r) },
            ffi::CLASS_ACK => Reading::Ack { epoch, number, acked: Acked::of(class.marked, class.unacknowledged, class.saved) },
            ffi::CLASS_CLOSE => Reading::Close { epoch, number },
            ffi::CLASS_ALERT => Reading::Alert { epoch, number, description: class.description },
            ffi::CLASS_IGNORED => Reading::Ignored { epoch, number, content_type },
            ffi::CLASS_BEYOND => Reading::Beyond { epoch, number },
            ffi::CLASS_UNPROTECTED => Reading::Unprotected { number, content_type },
            _ => unreachable!("the library deals with the reading that it told"),
        }
    }

    fn hand(&mut self, r: &ffi::Reading) -> &'d [u8] {
        self.datagram.hand(r.start, r.length)
    }
}

impl<'d, C: Cipher + ?Sized> Iterator for Readings<'_, 'd, C> {
    type Item = Reading<'d>;

    fn next(&mut self) -> Option<Reading<'d>> {
        if self.ended {
            return None;
        }
        self.ended = true;
        let r = self.step();
        self.ended = matches!(r.kind, ffi::READING_END | ffi::READING_REFUSED);
        match r.kind {
            ffi::READING_PLAINTEXT | ffi::READING_UNOPENED | ffi::READING_OPENED => Some(self.dealt(&r)),
            ffi::READING_DROPPED => Some(Reading::Dropped(Refusal::of(r.refusal, 0))),
            _ => (r.refusal != 0).then(|| Reading::Fault(Refusal::of(r.refusal, 0))),
        }
    }
}

impl<C: Cipher + ?Sized> FusedIterator for Readings<'_, '_, C> {}

impl<C: ?Sized> fmt::Debug for Readings<'_, '_, C> {
    fn fmt(&self, f: &mut fmt::Formatter<'_>) -> fmt::Result {
        f.debug_struct("Readings").field("ended", &self.ended).finish_non_exhaustive()
    }
}
