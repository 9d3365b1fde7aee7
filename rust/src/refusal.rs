use core::error::Error;
use core::fmt;

/// Why a call is refused, a record dropped, a datagram or a record's pieces ended, with the specification's numbers.
///
/// ```
/// use huskelapse::Refusal;
///
/// assert_eq!(Refusal::Seen.number(), 9);
/// assert_eq!(Refusal::Seen.to_string(), "refusal 9: the record's number was used");
/// assert_eq!(Refusal::TooOld.to_string(), "refusal 26: the record's number is 64 or more below the highest used");
/// assert_eq!(Refusal::BufferTooSmall { needed: 74 }.to_string(), "refusal 16: the buffer is too small, 74 bytes are needed");
/// ```
#[derive(Clone, Copy, Debug, PartialEq, Eq, Hash)]
#[non_exhaustive]
pub enum Refusal {
    /// 1: the datagram has more than 16,384 bytes.
    DatagramTooLong,
    /// 2: a header or a length reaches beyond the datagram; it ends there.
    Truncated,
    /// 3: a seventeenth reading; the datagram ends there.
    TooManyReadings,
    /// 4: a plaintext record's type, version or epoch is not allowed.
    BadPlaintext,
    /// 5: a sealed record with epoch bits 0 or 1 before peer encryption is on.
    BeforeEncryption,
    /// 6: no keys for the record's epoch.
    NoKeys,
    /// 7: the protected part is too short.
    TooShort,
    /// 8: the record's number would be above 2^48 - 1.
    NumberTooLarge,
    /// 9: the record's number was used: the record came before.
    Seen,
    /// 26: the record's number is 64 or more below the highest used: it comes too late, whether it was used or not.
    TooOld,
    /// 10: the cipher did not open the record.
    NotOpened,
    /// 11: the opened record has no content type; its number is used.
    NoContentType,
    /// 12: a setting is out of its range, or a buffer too short for the settings.
    OutOfRange,
    /// 13: the epoch cannot be used so.
    BadEpoch,
    /// 14: the content type is not allowed, the body over 16,384 bytes or the record over the MTU.
    BadRecord,
    /// 15: no such question waits, or the reply has the wrong length.
    NoQuestion,
    /// 16: the buffer lent is too small.
    BufferTooSmall {
        /// The length that is needed.
        needed: usize,
    },
    /// 17: no keys to send in the epoch.
    KeysAbsent,
    /// 18: the flight would have a thirteenth record.
    FlightFull,
    /// 19: a new datagram is needed and the queue has no room for one.
    QueueFull,
    /// 20: the epoch's record numbers are spent.
    NumbersSpent,
    /// 21: the handshake message numbers are spent.
    MessagesSpent,
    /// 22: a handshake record remembers 32 numbers and cannot be sent again.
    ResendsSpent,
    /// 23: the front datagram is not wholly sealed, four application epochs are keyed to receive, or a sealing waits under the
    /// application epoch that would be replaced.
    Waiting,
    /// 24: a piece of a message runs past its own total, that of the first piece or its record, its total is over 16,384, or the message
    /// numbers are spent; the record ends there.
    BadPiece,
    /// 28: a piece has another type or total than the first piece held of its message, or another byte in a place that pieces held have;
    /// the record ends there. The message so far is kept, and the piece that agrees can still come.
    PiecesDisagree,
    /// 25: a fifty-first different piece of one message; the record ends there.
    TooManyPieces,
    /// 27: the mask key has not 32 bytes.
    BadMaskKey,
}

impl Refusal {
    /// The specification's number, 1 to 28.
    pub fn number(self) -> u8 {
        match self {
            Refusal::DatagramTooLong => 1,
            Refusal::Truncated => 2,
            Refusal::TooManyReadings => 3,
            Refusal::BadPlaintext => 4,
            Refusal::BeforeEncryption => 5,
            Refusal::NoKeys => 6,
            Refusal::TooShort => 7,
            Refusal::NumberTooLarge => 8,
            Refusal::Seen => 9,
            Refusal::TooOld => 26,
            Refusal::NotOpened => 10,
            Refusal::NoContentType => 11,
            Refusal::OutOfRange => 12,
            Refusal::BadEpoch => 13,
            Refusal::BadRecord => 14,
            Refusal::NoQuestion => 15,
            Refusal::BufferTooSmall { .. } => 16,
            Refusal::KeysAbsent => 17,
            Refusal::FlightFull => 18,
            Refusal::QueueFull => 19,
            Refusal::NumbersSpent => 20,
            Refusal::MessagesSpent => 21,
            Refusal::ResendsSpent => 22,
            Refusal::Waiting => 23,
            Refusal::BadPiece => 24,
            Refusal::PiecesDisagree => 28,
            Refusal::TooManyPieces => 25,
            Refusal::BadMaskKey => 27,
        }
    }

    /// The refusal with this number; for 16 with this needed length.
    pub(crate) fn of(number: u8, needed: usize) -> Refusal {
        match number {
            1 => Refusal::DatagramTooLong,
            2 => Refusal::Truncated,
            3 => Refusal::TooManyReadings,
            4 => Refusal::BadPlaintext,
            5 => Refusal::BeforeEncryption,
            6 => Refusal::NoKeys,
            7 => Refusal::TooShort,
            8 => Refusal::NumberTooLarge,
            9 => Refusal::Seen,
            10 => Refusal::NotOpened,
            11 => Refusal::NoContentType,
            12 => Refusal::OutOfRange,
            13 => Refusal::BadEpoch,
            14 => Refusal::BadRecord,
            15 => Refusal::NoQuestion,
            16 => Refusal::BufferTooSmall { needed },
            17 => Refusal::KeysAbsent,
            18 => Refusal::FlightFull,
            19 => Refusal::QueueFull,
            20 => Refusal::NumbersSpent,
            21 => Refusal::MessagesSpent,
            22 => Refusal::ResendsSpent,
            23 => Refusal::Waiting,
            24 => Refusal::BadPiece,
            25 => Refusal::TooManyPieces,
            26 => Refusal::TooOld,
            27 => Refusal::BadMaskKey,
            28 => Refusal::PiecesDisagree,
            _ => panic!("the library refuses by {number}, it is of another version than this crate"),
        }
    }

    /// What is told where the number is 0, else the refusal with this number.
    pub(crate) fn answer<T>(number: u8, told: T) -> Result<T, Refusal> {
        match number {
            0 => Ok(told),
            _ => Err(Refusal::of(number, 0)),
        }
    }

    /// The answer of a call that refuses only words that no call made.
    pub(crate) fn never(number: u8) {
        debug_assert_eq!(number, 0, "the library knows its own words");
    }

    /// Nothing where the number is 0, else the refusal with this number.
    pub(crate) fn done(number: u8) -> Result<(), Refusal> {
        Refusal::answer(number, ())
    }
}

impl fmt::Display for Refusal {
    fn fmt(&self, f: &mut fmt::Formatter<'_>) -> fmt::Result {
        let words = match self {
            Refusal::DatagramTooLong => "the datagram has more than 16,384 bytes",
            Refusal::Truncated => "a header or a length reaches beyond the datagram",
            Refusal::TooManyReadings => "the datagram has a seventeenth reading",
            Refusal::BadPlaintext => "a plaintext record's type, version or epoch is not allowed",
            Refusal::BeforeEncryption => "a sealed record with epoch bits 0 or 1 before peer encryption",
            Refusal::NoKeys => "no keys for the record's epoch",
            Refusal::TooShort => "the protected part is too short",
            Refusal::NumberTooLarge => "the record's number is above 2^48 - 1",
            Refusal::Seen => "the record's number was used",
            Refusal::TooOld => "the record's number is 64 or more below the highest used",
            Refusal::NotOpened => "the cipher did not open the record",
            Refusal::NoContentType => "the opened record has no content type",
            Refusal::OutOfRange => "a setting or a state is out of its range, or a buffer too short for it",
            Refusal::BadEpoch => "the epoch cannot be used so",
            Refusal::BadRecord => "the type is not allowed, the body over 16,384 bytes or the record over the MTU",
            Refusal::NoQuestion => "the reply answers no waiting question, or it or a handshake record has the wrong length",
            Refusal::BufferTooSmall { needed } => {
                return write!(f, "refusal 16: the buffer is too small, {needed} bytes are needed");
            }
            Refusal::KeysAbsent => "no keys to send in this epoch",
            Refusal::FlightFull => "the flight is full",
            Refusal::QueueFull => "the queue is full",
            Refusal::NumbersSpent => "the record numbers of this epoch are spent",
            Refusal::MessagesSpent => "the message numbers are spent",
            Refusal::ResendsSpent => "a record was sent again 32 times",
            Refusal::Waiting => "a sealing still waits, or four application epochs are keyed to receive",
            Refusal::BadPiece => {
                "a piece runs past its message or its record, its total is over 16,384 bytes, or the message numbers are spent"
            }
            Refusal::PiecesDisagree => {
                "a piece disagrees with the pieces held of its message: another type or total, or other bytes in the same place"
            }
            Refusal::TooManyPieces => "the message has more than 50 different pieces",
            Refusal::BadMaskKey => "the mask key has not 32 bytes",
        };
        write!(f, "refusal {}: {words}", self.number())
    }
}

impl Error for Refusal {}
