//! The eight Rust files of the record layer, whole and unchanged, with stand-ins for the modules
//! that they lean on. `run` copies the files to `target/dimpl`.
//!
//! The module tree is the one that the files expect. Where something private is to be asked, the
//! file is included and a child module `probe` stands beside it.

// The stand-ins offer only what the eight files use, and the files hold more than we ask.
#![allow(dead_code, unused_imports, unexpected_cfgs, private_interfaces)]

#[macro_use]
mod log;

pub mod buffer;
pub mod config;
pub mod crypto;
pub mod dtls12;
pub mod dtls13;
pub mod error;
pub mod rng;
pub mod types;
pub mod util;

#[path = "../target/dimpl/timer.rs"]
pub mod timer;
#[path = "../target/dimpl/window.rs"]
pub mod window;

pub use config::{Config, DtlsCertificate, Output};
pub use error::{
    CertificateError, CryptoError, Error, InternalError, InvalidStateError, SecurityError,
    TimeoutError,
};
pub use rng::SeededRng;

pub mod beside;
pub mod classes;
pub mod dice;
pub mod differences;
pub mod driver;
pub mod ends;
pub mod histories;
pub mod leaves;
#[cfg(feature = "library")]
pub mod library;
pub mod requests;
pub mod sendings;
pub mod verdict;
