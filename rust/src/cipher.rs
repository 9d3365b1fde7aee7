use core::error::Error;
use core::fmt;

/// The host's cipher with the keys of one direction, asked by epoch.
///
/// A [`Receiver`](crate::Receiver) asks [`mask`](Cipher::mask) and [`open`](Cipher::open), a [`Sender`](crate::Sender) asks
/// [`seal`](Cipher::seal) and [`mask`](Cipher::mask). The library keeps the IVs and names the nonce; the cipher keeps the keys and
/// answers at once. Tags have 16 bytes.
///
/// In an epoch with a mask key ([`Receiver::key_masked`](crate::Receiver::key_masked),
/// [`Sender::key_masked`](crate::Sender::key_masked)) the library makes the masks, and [`mask`](Cipher::mask) is not asked: a cipher for
/// such epochs alone leaves it out.
///
/// The feature `openssl` has a cipher that is ready to use.
pub trait Cipher {
    /// The first two bytes of the mask that the epoch's number key makes of these 16 bytes (RFC 9147, section 4.2.3). A cipher that leaves
    /// it out answers an error.
    ///
    /// # Errors
    ///
    /// The mask cannot be made. A receiver drops the record ([`Refusal::NotOpened`](crate::Refusal::NotOpened)); for a sender the
    /// record is not sealed ([`SealFailed`](crate::SealFailed)).
    fn mask(&mut self, epoch: u16, sample: &[u8; 16]) -> Result<[u8; 2], CipherError> {
        let _ = (epoch, sample);
        Err(NO_MASKS)
    }

    /// Opens `part`, ciphertext and tag, in place under `nonce` with `header` as additional data. If the tag is right the plaintext is at the
    /// start of `part`, 16 bytes fewer, and the answer is true. Else it is false, and what stands in `part` does not matter.
    fn open(&mut self, epoch: u16, number: u64, nonce: &[u8; 12], header: &[u8], part: &mut [u8]) -> bool;

    /// Seals `part` in place under `nonce` with `header` as additional data: all but its last 16 bytes are plaintext, the tag goes there.
    ///
    /// # Errors
    ///
    /// The record cannot be sealed. It is not asked for again, whatever stands in `part` then: to seal it twice would use a nonce
    /// twice ([`SealFailed`](crate::SealFailed)).
    fn seal(&mut self, epoch: u16, number: u64, nonce: &[u8; 12], header: &[u8], part: &mut [u8]) -> Result<(), CipherError>;
}

const NO_MASKS: CipherError = CipherError::new("the cipher makes no masks, and the epoch has no mask key");

/// A cipher cannot seal a record or make a mask.
///
/// ```
/// use huskelapse::CipherError;
///
/// assert_eq!(CipherError::new("no keys for this epoch").to_string(), "no keys for this epoch");
/// ```
#[derive(Clone, Copy, Debug, PartialEq, Eq, Hash)]
pub struct CipherError {
    why: &'static str,
}

impl CipherError {
    /// An error with these words for a log.
    pub const fn new(why: &'static str) -> CipherError {
        CipherError { why }
    }
}

impl fmt::Display for CipherError {
    fn fmt(&self, f: &mut fmt::Formatter<'_>) -> fmt::Result {
        f.write_str(self.why)
    }
}

impl Error for CipherError {}
