//! A provider whose cipher does nothing, to time the record layer alone: an opening cuts the tag off,
//! a sealing appends 16 zeros, each mask is zeros.

use super::*;
use crate::CryptoError;
use crate::buffer::{Buf, TmpBuf};
use crate::types::{Dtls13CipherSuite, HashAlgorithm};

const TAG_LEN: usize = 16;

#[derive(Debug)]
struct NullCipher;

pub fn cipher() -> Box<dyn Cipher> {
    Box::new(NullCipher)
}

impl Cipher for NullCipher {
    fn encrypt(&mut self, plaintext: &mut Buf, _: Aad, _: Nonce) -> Result<(), CryptoError> {
        plaintext.extend_from_slice(&[0; TAG_LEN]);
        Ok(())
    }

    fn decrypt(&mut self, ciphertext: &mut TmpBuf, _: Aad, _: Nonce) -> Result<(), CryptoError> {
        let len = ciphertext.len();
        ciphertext.truncate(len.checked_sub(TAG_LEN).ok_or(CryptoError::NotOpened)?);
        Ok(())
    }
}

#[derive(Debug)]
struct NullSuite;

impl SupportedDtls13CipherSuite for NullSuite {
    fn suite(&self) -> Dtls13CipherSuite {
        Dtls13CipherSuite::AES_128_GCM_SHA256
    }

    fn hash_algorithm(&self) -> HashAlgorithm {
        HashAlgorithm::SHA256
    }

    fn key_len(&self) -> usize {
        16
    }

    fn iv_len(&self) -> usize {
        12
    }

    fn tag_len(&self) -> usize {
        TAG_LEN
    }

    fn create_cipher(&self, _: &[u8]) -> Result<Box<dyn Cipher>, CryptoError> {
        Ok(cipher())
    }

    fn encrypt_sn(&self, _: &[u8], _: &[u8; 16]) -> [u8; 16] {
        [0; 16]
    }
}

/// The provider; its one suite goes by the name AES_128_GCM_SHA256.
pub fn provider() -> CryptoProvider {
    CryptoProvider {
        dtls13_cipher_suites: &[&NullSuite],
        ..stub::provider()
    }
}
