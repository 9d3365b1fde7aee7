//! The errors that the eight files name.

use std::fmt;

use nom::error::ErrorKind;

use crate::types::{HashAlgorithm, NamedGroup, SignatureAlgorithm};

#[derive(Debug, Clone, PartialEq, Eq)]
pub enum Error {
    ReceiveQueueFull,
    TransmitQueueFull,
    TransmitHistoryFull,
    RenegotiationAttempt,
    Timeout(TimeoutError),
    CryptoError(CryptoError),
    InvalidState(InvalidStateError),
    SecurityError(SecurityError),
}

#[derive(Debug, Clone, PartialEq, Eq)]
pub enum TimeoutError {
    Connect,
    Handshake,
}

#[derive(Debug, Clone, PartialEq, Eq)]
pub enum CryptoError {
    Epoch0SequenceNumberExhausted,
    SendSequenceNumberExhausted {
        epoch: u16,
    },
    SendKeysNotAvailable {
        epoch: u16,
    },
    RecvKeysNotAvailable {
        epoch: u16,
    },
    ExporterMasterSecretNotDerived,
    UnsupportedSignatureVerification {
        signature: SignatureAlgorithm,
        hash: HashAlgorithm,
        group: NamedGroup,
    },
    /// The stand-in cipher said no.
    NotOpened,
    /// The stand-in provider has no such thing.
    NotProvided,
}

#[derive(Debug, Clone, PartialEq, Eq)]
pub enum InvalidStateError {
    NoCurrentAppSendKeysForKeyUpdate,
    NoCurrentAppRecvKeysForKeyUpdate,
}

#[derive(Debug, Clone, PartialEq, Eq)]
pub enum SecurityError {
    FatalAlert { description: u8 },
}

#[derive(Debug, Clone, PartialEq, Eq)]
pub enum CertificateError {
    ParseFailed,
    MissingEcCurveParameter,
    InvalidEcCurveParameter,
    UnsupportedEcCurve,
}

/// An error of the parser, or one of the rest.
#[derive(Debug, Clone, PartialEq, Eq)]
pub enum InternalError {
    ParseIncomplete,
    ParseError(ErrorKind),
    TooManyRecords,
    Other(Error),
}

impl InternalError {
    pub fn parse_incomplete() -> Self {
        InternalError::ParseIncomplete
    }

    pub fn too_many_records() -> Self {
        InternalError::TooManyRecords
    }

    pub fn parse(kind: ErrorKind) -> Self {
        InternalError::ParseError(kind)
    }
}

impl From<nom::Err<nom::error::Error<&[u8]>>> for InternalError {
    fn from(error: nom::Err<nom::error::Error<&[u8]>>) -> Self {
        match error {
            nom::Err::Incomplete(_) => InternalError::ParseIncomplete,
            nom::Err::Error(e) | nom::Err::Failure(e) => InternalError::ParseError(e.code),
        }
    }
}

impl From<Error> for InternalError {
    fn from(error: Error) -> Self {
        InternalError::Other(error)
    }
}

macro_rules! display {
    ($($name:ident),*) => {
        $(
            impl fmt::Display for $name {
                fn fmt(&self, f: &mut fmt::Formatter<'_>) -> fmt::Result {
                    write!(f, "{self:?}")
                }
            }

            impl std::error::Error for $name {}
        )*
    };
}

display!(
    Error,
    TimeoutError,
    CryptoError,
    InvalidStateError,
    SecurityError,
    CertificateError,
    InternalError
);
