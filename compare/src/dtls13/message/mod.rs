//! Records and handshake headers, from the Rust; the bodies of messages, stand-ins.

#[path = "../../../target/dimpl/dtls13/message/handshake.rs"]
mod handshake;
#[path = "../../../target/dimpl/dtls13/message/record.rs"]
mod record;

use std::ops::Range;

use nom::IResult;

use crate::buffer::Buf;

pub use crate::types::{ContentType, Dtls13CipherSuite, ProtocolVersion, Sequence};
pub use handshake::{Body, Handshake, Header, KeyUpdateRequest, MessageType};
pub use record::Dtls13Record;

// A body stands for all of its bytes. Records are cut and headers are read without it.
macro_rules! bodies {
    ($($name:ident),*) => {
        $(
            #[derive(Debug, PartialEq, Eq)]
            pub struct $name(pub Range<usize>);

            impl $name {
                pub fn parse(input: &[u8], base_offset: usize) -> IResult<&[u8], Self> {
                    let range = base_offset..base_offset + input.len();
                    Ok((&input[input.len()..], Self(range)))
                }

                pub fn serialize(&self, source_buf: &[u8], output: &mut Buf) {
                    output.extend_from_slice(&source_buf[self.0.clone()]);
                }
            }
        )*
    };
}

bodies!(
    ClientHello,
    ServerHello,
    EncryptedExtensions,
    Certificate,
    CertificateRequest,
    CertificateVerify
);

impl ClientHello {
    pub fn parse_allow_unknown_suites(input: &[u8], base_offset: usize) -> IResult<&[u8], Self> {
        Self::parse(input, base_offset)
    }
}

/// Its bytes, since its parser is given no offset.
#[derive(Debug, PartialEq, Eq)]
pub struct Finished(pub Vec<u8>);

impl Finished {
    pub fn parse(input: &[u8], _: Dtls13CipherSuite) -> IResult<&[u8], Self> {
        Ok((&input[input.len()..], Self(input.to_vec())))
    }

    pub fn serialize(&self, _: &[u8], output: &mut Buf) {
        output.extend_from_slice(&self.0);
    }
}
