//! The provider's traits and the nonce, from the Rust; key derivation and a cipher, stand-ins.

#[path = "../../target/dimpl/crypto/dtls_aead.rs"]
pub mod dtls_aead;
#[path = "../../target/dimpl/crypto/provider.rs"]
pub mod provider;

pub mod null;
pub mod prf_hkdf;
pub mod script;
pub mod stub;

pub use dtls_aead::{Aad, Nonce};
pub use provider::*;

/// SRTP profiles and the length of their keys and salts, both ends together.
#[allow(non_camel_case_types)]
#[derive(Debug, Clone, Copy, PartialEq, Eq)]
pub enum SrtpProfile {
    AES128_CM_SHA1_80,
    AEAD_AES_128_GCM,
    AEAD_AES_256_GCM,
}

impl SrtpProfile {
    pub fn keying_material_len(&self) -> usize {
        match self {
            SrtpProfile::AES128_CM_SHA1_80 => 60,
            SrtpProfile::AEAD_AES_128_GCM => 56,
            SrtpProfile::AEAD_AES_256_GCM => 88,
        }
    }
}
