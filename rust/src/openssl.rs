//! A [`Cipher`](crate::Cipher) over OpenSSL: AES-128-GCM, AES-256-GCM and ChaCha20-Poly1305 with their masks.
//!
//! ```
//! use huskelapse::openssl::{Keys, Suite};
//! use huskelapse::{content_type, Reading, Receiver, Sender};
//!
//! // From the key schedule: for each direction and epoch a key, a number key ("sn") and an IV.
//! let (key, number_key, iv) = ([1; 16], [2; 16], [3; 12]);
//!
//! let mut to_seal = Keys::to_seal(Suite::Aes128Gcm);
//! to_seal.add(3, &key, &number_key)?;
//! let mut sender = Sender::new(1200, 4)?;
//! sender.key(3, &iv)?;
//! sender.send(3, content_type::APPLICATION_DATA, b"14.2 kWh")?;
//! sender.seal(&mut to_seal)?;
//! let mut buffer = [0; 1200];
//! let datagram = sender.take(&mut buffer)?.expect("a datagram");
//!
//! let mut to_open = Keys::to_open(Suite::Aes128Gcm);
//! to_open.add(3, &key, &number_key)?;
//! let mut receiver = Receiver::new(Receiver::MIN_PROTECTED)?;
//! receiver.key(3, &iv)?;
//! receiver.enable_peer_encryption();
//! let mut other_direction = Sender::new(1200, 4)?; // of the receiving end: ACKs are for what it sent
//! let mut readings = receiver.read(datagram, &mut to_open, &mut other_direction)?;
//! assert!(matches!(readings.next(), Some(Reading::ApplicationData { content: b"14.2 kWh", .. })));
//! # Ok::<(), Box<dyn std::error::Error>>(())
//! ```
//!
//! With [`Suite::ChaCha20Poly1305`] the number key can go to the library, which then makes the masks: see [`Keys::add_without_mask`].

use alloc::vec::Vec;
use alloc::{boxed::Box, vec};
use core::error::Error;
use core::fmt;

use ::openssl::cipher::{Cipher, CipherRef};
use ::openssl::cipher_ctx::CipherCtx;
use ::openssl::error::ErrorStack;

use huskelapse_sys as ffi;

use crate::CipherError;

/// A cipher with its mask (RFC 9147, section 4.2.3).
#[derive(Clone, Copy, Debug, PartialEq, Eq, Hash)]
#[non_exhaustive]
pub enum Suite {
    /// AES-128-GCM, masks by AES-128.
    Aes128Gcm,
    /// AES-256-GCM, masks by AES-256.
    Aes256Gcm,
    /// ChaCha20-Poly1305, masks by ChaCha20.
    ChaCha20Poly1305,
}

impl Suite {
    /// The bytes of a key, and of a number key.
    pub const fn key_len(self) -> usize {
        match self {
            Suite::Aes128Gcm => 16,
            Suite::Aes256Gcm | Suite::ChaCha20Poly1305 => 32,
        }
    }

    fn record_cipher(self) -> &'static CipherRef {
        match self {
            Suite::Aes128Gcm => Cipher::aes_128_gcm(),
            Suite::Aes256Gcm => Cipher::aes_256_gcm(),
            Suite::ChaCha20Poly1305 => Cipher::chacha20_poly1305(),
        }
    }

    fn mask_cipher(self) -> &'static CipherRef {
        match self {
            Suite::Aes128Gcm => Cipher::aes_128_ecb(),
            Suite::Aes256Gcm => Cipher::aes_256_ecb(),
            Suite::ChaCha20Poly1305 => Cipher::chacha20(),
        }
    }
}

/// Why keys are not added.
#[derive(Debug)]
#[non_exhaustive]
pub enum KeyError {
    /// The epoch has keys, and an epoch's keys do not change.
    Known,
    /// A key has another length than the suite's.
    Length {
        /// The length that is needed.
        needed: usize,
    },
    /// The suite's masks are made by AES, which the library does not: the epoch needs its number key here.
    NeedsMask,
    /// OpenSSL failed.
    OpenSsl(ErrorStack),
}

impl fmt::Display for KeyError {
    fn fmt(&self, f: &mut fmt::Formatter<'_>) -> fmt::Result {
        match self {
            KeyError::Known => f.write_str("the epoch has keys"),
            KeyError::Length { needed } => write!(f, "a key has {needed} bytes in this suite"),
            KeyError::NeedsMask => f.write_str("this suite's masks are made by AES, with a number key"),
            KeyError::OpenSsl(_) => f.write_str("OpenSSL failed"),
        }
    }
}

impl Error for KeyError {
    fn source(&self) -> Option<&(dyn Error + 'static)> {
        match self {
            KeyError::OpenSsl(why) => Some(why),
            _ => None,
        }
    }
}

impl From<ErrorStack> for KeyError {
    fn from(why: ErrorStack) -> KeyError {
        KeyError::OpenSsl(why)
    }
}

const NO_KEYS: CipherError = CipherError::new("no keys for this epoch");
const NO_NUMBER_KEY: CipherError = CipherError::new("no number key for this epoch");
const NOT_TO_SEAL: CipherError = CipherError::new("the keys are to open records, not to seal them");
const NO_ROOM: CipherError = CipherError::new("the part has no room for a tag");
const FAILED: CipherError = CipherError::new("OpenSSL failed");

/// The keys of one direction, by epoch.
///
/// OpenSSL keeps them, in two contexts for each epoch that all of its records use, or in one where the library makes the masks.
pub struct Keys {
    suite: Suite,
    seals: bool,
    epochs: Vec<Epoch>,
    scratch: Box<[u8]>,
}

struct Epoch {
    epoch: u16,
    record: CipherCtx,
    /// None where the library makes the masks.
    mask: Option<CipherCtx>,
}

/// Bytes that go to OpenSSL at once: all of a record that a datagram of 1,500 bytes holds.
const SCRATCH: usize = 2048;

impl Keys {
    /// For a [`Sender`](crate::Sender): no keys yet.
    pub fn to_seal(suite: Suite) -> Keys {
        Keys { suite, seals: true, epochs: Vec::new(), scratch: vec![0; SCRATCH].into() }
    }

    /// For a [`Receiver`](crate::Receiver): no keys yet.
    pub fn to_open(suite: Suite) -> Keys {
        Keys { seals: false, ..Keys::to_seal(suite) }
    }

    /// Adds an epoch's key and number key ("sn" in RFC 9147), each of [`Suite::key_len`] bytes. The IV goes to the sender or receiver.
    ///
    /// # Errors
    ///
    /// The epoch has keys already, a key has the wrong length, or OpenSSL failed; then nothing is added.
    pub fn add(&mut self, epoch: u16, key: &[u8], number_key: &[u8]) -> Result<(), KeyError> {
        self.add_keys(epoch, key, Some(number_key))
    }

    /// Adds an epoch's key alone. Its number key goes to the library, as the mask key of [`Sender::key_masked`](crate::Sender::key_masked)
    /// or [`Receiver::key_masked`](crate::Receiver::key_masked), and the masks are made there.
    ///
    /// # Errors
    ///
    /// As [`Keys::add`], and [`KeyError::NeedsMask`] where the suite is not [`Suite::ChaCha20Poly1305`]; then nothing is added.
    ///
    /// # Examples
    ///
    /// ```
    /// use huskelapse::openssl::{Keys, Suite};
    /// use huskelapse::{content_type, Reading, Receiver, Sender};
    ///
    /// let (key, number_key, iv) = ([1; 32], [2; 32], [3; 12]);
    ///
    /// let mut to_seal = Keys::to_seal(Suite::ChaCha20Poly1305);
    /// to_seal.add_without_mask(3, &key)?;
    /// let mut sender = Sender::new(1200, 4)?;
    /// sender.key_masked(3, &iv, &number_key)?;
    /// sender.send(3, content_type::APPLICATION_DATA, b"14.2 kWh")?;
    /// sender.seal(&mut to_seal)?;
    /// let mut datagram = sender.take_in_place()?.expect("a datagram").to_vec();
    ///
    /// let mut to_open = Keys::to_open(Suite::ChaCha20Poly1305);
    /// to_open.add_without_mask(3, &key)?;
    /// let mut receiver = Receiver::new(Receiver::MIN_PROTECTED)?;
    /// receiver.key_masked(3, &iv, &number_key)?;
    /// receiver.enable_peer_encryption();
    /// let mut readings = receiver.read(&mut datagram, &mut to_open, &mut sender)?;
    /// assert!(matches!(readings.next(), Some(Reading::ApplicationData { content: b"14.2 kWh", .. })));
    /// # Ok::<(), Box<dyn std::error::Error>>(())
    /// ```
    pub fn add_without_mask(&mut self, epoch: u16, key: &[u8]) -> Result<(), KeyError> {
        match self.suite {
            Suite::ChaCha20Poly1305 => self.add_keys(epoch, key, None),
            Suite::Aes128Gcm | Suite::Aes256Gcm => Err(KeyError::NeedsMask),
        }
    }

    fn add_keys(&mut self, epoch: u16, key: &[u8], number_key: Option<&[u8]>) -> Result<(), KeyError> {
        let needed = self.suite.key_len();
        if key.len() != needed || number_key.is_some_and(|key| key.len() != needed) {
            return Err(KeyError::Length { needed });
        }
        if of(&mut self.epochs, epoch).is_some() {
            return Err(KeyError::Known);
        }
        let mut record = CipherCtx::new()?;
        let cipher = Some(self.suite.record_cipher());
        match self.seals {
            true => record.encrypt_init(cipher, Some(key), None)?,
            false => record.decrypt_init(cipher, Some(key), None)?,
        }
        let mask = number_key.map(|key| mask_context(self.suite, key)).transpose()?;
        self.epochs.push(Epoch { epoch, record, mask });
        Ok(())
    }

    /// Removes an epoch's keys. Whether it had any.
    pub fn remove(&mut self, epoch: u16) -> bool {
        let before = self.epochs.len();
        self.epochs.retain(|e| e.epoch != epoch);
        self.epochs.len() < before
    }
}

fn mask_context(suite: Suite, number_key: &[u8]) -> Result<CipherCtx, ErrorStack> {
    let mut mask = CipherCtx::new()?;
    mask.encrypt_init(Some(suite.mask_cipher()), Some(number_key), None)?;
    mask.set_padding(false);
    Ok(mask)
}

/// An epoch's contexts. The newest epoch is asked for most.
fn of(epochs: &mut [Epoch], epoch: u16) -> Option<&mut Epoch> {
    epochs.iter_mut().rev().find(|e| e.epoch == epoch)
}

impl fmt::Debug for Keys {
    fn fmt(&self, f: &mut fmt::Formatter<'_>) -> fmt::Result {
        let epochs: Vec<u16> = self.epochs.iter().map(|e| e.epoch).collect();
        f.debug_struct("Keys").field("suite", &self.suite).field("epochs", &epochs).finish_non_exhaustive()
    }
}

impl crate::Cipher for Keys {
    fn mask(&mut self, epoch: u16, sample: &[u8; 16]) -> Result<[u8; 2], CipherError> {
        let mask = of(&mut self.epochs, epoch).ok_or(NO_KEYS)?.mask.as_mut().ok_or(NO_NUMBER_KEY)?;
        let made = match self.suite {
            Suite::ChaCha20Poly1305 => chacha_mask(mask, sample),
            Suite::Aes128Gcm | Suite::Aes256Gcm => aes_mask(mask, sample),
        };
        made.map_err(|_| FAILED)
    }

    fn open(&mut self, epoch: u16, _: u64, nonce: &[u8; 12], header: &[u8], part: &mut [u8]) -> bool {
        let Keys { seals: false, epochs, scratch, .. } = self else { return false };
        let Some(Epoch { record, .. }) = of(epochs, epoch) else { return false };
        let Some((text, tag)) = text_and_tag(part) else { return false };
        open(record, scratch, nonce, header, text, tag).is_ok()
    }

    fn seal(&mut self, epoch: u16, _: u64, nonce: &[u8; 12], header: &[u8], part: &mut [u8]) -> Result<(), CipherError> {
        let Keys { seals: true, epochs, scratch, .. } = self else { return Err(NOT_TO_SEAL) };
        let Epoch { record, .. } = of(epochs, epoch).ok_or(NO_KEYS)?;
        let (text, tag) = text_and_tag(part).ok_or(NO_ROOM)?;
        seal(record, scratch, nonce, header, text, tag).map_err(|_| FAILED)
    }
}

/// The first bytes of AES of the sample.
fn aes_mask(mask: &mut CipherCtx, sample: &[u8; 16]) -> Result<[u8; 2], ErrorStack> {
    // The call wants room for one block more than it writes.
    let mut block = [0; 32];
    mask.cipher_update(sample, Some(&mut block))?;
    Ok([block[0], block[1]])
}

/// The first bytes of the key stream. The sample is what OpenSSL takes as IV: the counter in four little-endian bytes, and the nonce.
fn chacha_mask(mask: &mut CipherCtx, sample: &[u8; 16]) -> Result<[u8; 2], ErrorStack> {
    let mut stream = [0; 2];
    mask.encrypt_init(None, None, Some(sample))?;
    mask.cipher_update(&[0; 2], Some(&mut stream))?;
    Ok(stream)
}

fn text_and_tag(part: &mut [u8]) -> Option<(&mut [u8], &mut [u8])> {
    let length = part.len().checked_sub(ffi::TAG)?;
    Some(part.split_at_mut(length))
}

fn seal(
    record: &mut CipherCtx,
    scratch: &mut [u8],
    nonce: &[u8; 12],
    header: &[u8],
    text: &mut [u8],
    tag: &mut [u8],
) -> Result<(), ErrorStack> {
    record.encrypt_init(None, None, Some(nonce))?;
    record.cipher_update(header, None)?;
    in_place(record, scratch, text)?;
    record.cipher_final(&mut [])?;
    record.tag(tag)
}

/// An error says also that the tag is wrong.
fn open(
    record: &mut CipherCtx,
    scratch: &mut [u8],
    nonce: &[u8; 12],
    header: &[u8],
    text: &mut [u8],
    tag: &[u8],
) -> Result<(), ErrorStack> {
    record.decrypt_init(None, None, Some(nonce))?;
    record.cipher_update(header, None)?;
    in_place(record, scratch, text)?;
    record.set_tag(tag)?;
    record.cipher_final(&mut [])?;
    Ok(())
}

/// OpenSSL works in place, the call does not: it takes input and output apart. So the input is copied, piece by piece.
fn in_place(record: &mut CipherCtx, scratch: &mut [u8], text: &mut [u8]) -> Result<(), ErrorStack> {
    for piece in text.chunks_mut(scratch.len()) {
        let copy = &mut scratch[..piece.len()];
        copy.copy_from_slice(piece);
        record.cipher_update(copy, Some(piece))?;
    }
    Ok(())
}
