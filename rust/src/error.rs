use core::error;
use core::fmt;

use crate::{CipherError, Refusal};

/// A record could not be sealed: the cipher answered an error, or it panicked. The [`Sender`](crate::Sender) seals nothing any more.
///
/// The record is not sealed a second time. To seal twice under one nonce tells what the two plaintexts have in common, and with a
/// stream cipher the second sealing can give back the plaintext of the first. So the datagram with the record stays in the sender, and
/// those behind it. What to do: take the datagrams before it, drop the sender, and make a new one with new keys, as it counts from 0
/// again. The flight, the notes and the count of handshake messages go with the old sender; until then it still queues records, which
/// never leave, and keying another application epoch is refused with [`Refusal::Waiting`] (23).
///
/// ```
/// use huskelapse::{content_type, Cipher, CipherError, Error, Sender};
///
/// struct Broken;
///
/// impl Cipher for Broken {
///     fn seal(&mut self, _: u16, _: u64, _: &[u8; 12], _: &[u8], _: &mut [u8]) -> Result<(), CipherError> {
///         Err(CipherError::new("the device does not answer"))
///     }
///     // ..
/// #   fn mask(&mut self, _: u16, _: &[u8; 16]) -> Result<[u8; 2], CipherError> {
/// #       Err(CipherError::new("the device does not answer"))
/// #   }
/// #   fn open(&mut self, _: u16, _: u64, _: &[u8; 12], _: &[u8], _: &mut [u8]) -> bool {
/// #       false
/// #   }
/// }
///
/// let mut sender = Sender::new(1200, 4)?;
/// sender.key(3, &[7; 12])?;
/// sender.send(3, content_type::APPLICATION_DATA, b"14.2 kWh")?;
/// let failed = sender.seal(&mut Broken).unwrap_err();
/// assert_eq!(
///     failed.to_string(),
///     "record 0 of epoch 3 is not sealed and cannot be sent (the device does not answer): make a new sender with new keys"
/// );
/// assert_eq!(sender.take(&mut [0; 1200]), Err(Error::SealFailed(failed)));
/// # Ok::<(), Error>(())
/// ```
#[derive(Clone, Copy, Debug, PartialEq, Eq, Hash)]
#[non_exhaustive]
pub struct SealFailed {
    /// The record's epoch.
    pub epoch: u16,
    /// The record's number.
    pub number: u64,
    /// What the cipher answered; none where it panicked.
    pub cause: Option<CipherError>,
}

impl fmt::Display for SealFailed {
    fn fmt(&self, f: &mut fmt::Formatter<'_>) -> fmt::Result {
        let SealFailed { epoch, number, cause } = self;
        write!(f, "record {number} of epoch {epoch} is not sealed and cannot be sent (")?;
        match cause {
            Some(cause) => fmt::Display::fmt(cause, f)?,
            None => f.write_str("the cipher panicked")?,
        }
        f.write_str("): make a new sender with new keys")
    }
}

impl error::Error for SealFailed {}

/// Why a [`Sender`](crate::Sender) does not hand out a datagram. Each other error of this crate becomes one by `?`.
#[derive(Clone, Copy, Debug, PartialEq, Eq, Hash)]
#[non_exhaustive]
pub enum Error {
    /// The call is refused.
    Refused(Refusal),
    /// A record of the datagram could not be sealed.
    SealFailed(SealFailed),
}

impl fmt::Display for Error {
    fn fmt(&self, f: &mut fmt::Formatter<'_>) -> fmt::Result {
        match self {
            Error::Refused(why) => why.fmt(f),
            Error::SealFailed(why) => why.fmt(f),
        }
    }
}

impl error::Error for Error {}

impl From<Refusal> for Error {
    fn from(why: Refusal) -> Error {
        Error::Refused(why)
    }
}

impl From<SealFailed> for Error {
    fn from(why: SealFailed) -> Error {
        Error::SealFailed(why)
    }
}
