//! The record layer of DTLS 1.3 (RFC 9147) between a charging post and its gateway, proved.
//!
//! Records are cut, numbered, packed and read by a library that is proved equal, call by call, to definitions taken from the RFC. This
//! crate is a safe interface over its C functions. The host keeps keys, cipher, timers and sockets; the library keeps record numbers,
//! IVs, replay windows and the queue, and the mask keys that it is given. No thread, no input or output, and no allocation but for the
//! memory of `Sender::new`.
//!
//! A [`Sender`] and a [`Receiver`] are the two directions of one end, an [`Assembly`] puts handshake messages together. A [`Cipher`]
//! answers the library's questions; with the number keys of a ChaCha20 suite the library makes the masks itself
//! ([`Sender::key_masked`], [`Receiver::key_masked`]). What is read comes as what it is ([`Reading`]): ACKs are acted on, a close is
//! remembered, and what anyone can have written in plaintext is dropped once peer encryption is on. A record from one end to the other:
//!
//! ```
//! use huskelapse::{content_type, Reading, Receiver, Refusal, Sender};
//! # mod toy { include!(concat!(env!("CARGO_MANIFEST_DIR"), "/tests/toy/mod.rs")); }
//! # use toy::Toy;
//!
//! // The post sends; `Toy` stands for a cipher with the keys of this direction.
//! let iv = [7; 12];
//! let mut sender = Sender::new(1200, 4)?;
//! sender.key(3, &iv)?;
//! sender.send(3, content_type::APPLICATION_DATA, b"14.2 kWh")?;
//! sender.seal(&mut Toy(5))?;
//! let mut buffer = [0; 1200];
//! let datagram = sender.take(&mut buffer)?.expect("a datagram");
//!
//! // The gateway reads it, and a copy of it.
//! let mut receiver = Receiver::new(Receiver::MIN_PROTECTED)?;
//! receiver.key(3, &iv)?;
//! receiver.enable_peer_encryption();
//! let mut gateway = Sender::new(1200, 4)?; // its other direction, which ACKs are for
//! let mut copy = datagram.to_vec();
//! for reading in receiver.read(datagram, &mut Toy(5), &mut gateway)? {
//!     assert_eq!(reading, Reading::ApplicationData { epoch: 3, number: 0, content: b"14.2 kWh" });
//! }
//! for reading in receiver.read(&mut copy, &mut Toy(5), &mut gateway)? {
//!     assert_eq!(reading, Reading::Dropped(Refusal::Seen));
//! }
//! # Ok::<(), huskelapse::Error>(())
//! ```
//!
//! # Features
//!
//! | feature | |
//! |---|---|
//! | none | no standard library, no allocator: a sender borrows its memory or has it in arrays ([`Sender::with_memory`]) |
//! | `alloc` | a sender can own its memory (`Sender::new`) |
//! | `std` (default) | `alloc` |
//! | `openssl` | `std`, and a cipher over OpenSSL: AES-128-GCM, AES-256-GCM, ChaCha20-Poly1305 |
//!
//! # Linking
//!
//! The build looks for `libhuskelapse.a` in the folder that the environment variable `HUSKELAPSE_LIB` names; where that is not set, in
//! `lib` beside this crate's `Cargo.toml`, where a release has it; else in `crates/huskelapse/out` of the repository. Documentation and
//! `cargo check` need no library.
//!
//! # Licence
//!
//! The record layer follows parts of a Rust library; `NOTICE` in the repository's root says which and has that library's licence texts.
//! They are no licence of this crate.

#![no_std]
#![warn(missing_docs)]
// Nothing inside can lift this. The calls of C are in the crate huskelapse-sys, one file: as a module of this crate it would need unsafe
// code, and then the crate could deny it only, which any part can lift for itself.
#![forbid(unsafe_code)]

#[cfg(feature = "alloc")]
extern crate alloc;

mod assembly;
mod cipher;
mod error;
#[cfg(feature = "openssl")]
pub mod openssl;
mod receiver;
mod refusal;
mod sender;

pub use assembly::{Assembly, Piece, Pieces};
pub use cipher::{Cipher, CipherError};
pub use error::{Error, SealFailed};
pub use receiver::{Reading, Readings, Receiver};
pub use refusal::Refusal;
pub use sender::{Acked, Sender, Status};

/// Content types of records.
pub mod content_type {
    /// An alert.
    pub const ALERT: u8 = 21;
    /// Pieces of handshake messages.
    pub const HANDSHAKE: u8 = 22;
    /// Application data, in sealed records only.
    pub const APPLICATION_DATA: u8 = 23;
    /// An ACK.
    pub const ACK: u8 = 26;
}
