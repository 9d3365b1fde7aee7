//! A provider with no cryptography. Its cipher leaves the text readable and appends a tag of 16
//! bytes that depends on key, nonce, header and text, so that a wrong one is refused; its mask
//! depends on key and sample.

use super::*;
use crate::CryptoError;
use crate::buffer::{Buf, TmpBuf};
use crate::dtls12::message::Dtls12CipherSuite;
use crate::types::{Dtls13CipherSuite, HashAlgorithm, NamedGroup, SignatureAlgorithm};

const TAG_LEN: usize = 16;

/// A fixed mixing of byte strings, each with its length, to `N` bytes.
pub fn mix<const N: usize>(parts: &[&[u8]]) -> [u8; N] {
    let mut state = 0xCBF2_9CE4_8422_2325u64;
    let mut step = |byte: u8| {
        state = (state ^ byte as u64).wrapping_mul(0x0000_0100_0000_01B3);
        state ^= state >> 29;
        state
    };
    for part in parts {
        part.iter().for_each(|byte| _ = step(*byte));
        (part.len() as u64)
            .to_be_bytes()
            .iter()
            .for_each(|byte| _ = step(*byte));
    }
    std::array::from_fn(|i| (step(i as u8) >> 32) as u8)
}

#[derive(Debug)]
struct StubCipher(Vec<u8>);

impl Cipher for StubCipher {
    fn encrypt(&mut self, plaintext: &mut Buf, aad: Aad, nonce: Nonce) -> Result<(), CryptoError> {
        let tag: [u8; TAG_LEN] = mix(&[&self.0, &nonce.0, &aad.0, plaintext]);
        plaintext.extend_from_slice(&tag);
        Ok(())
    }

    fn decrypt(
        &mut self,
        ciphertext: &mut TmpBuf,
        aad: Aad,
        nonce: Nonce,
    ) -> Result<(), CryptoError> {
        let len = ciphertext
            .len()
            .checked_sub(TAG_LEN)
            .ok_or(CryptoError::NotOpened)?;
        let tag: [u8; TAG_LEN] = mix(&[&self.0, &nonce.0, &aad.0, &ciphertext[..len]]);
        if ciphertext[len..] != tag {
            return Err(CryptoError::NotOpened);
        }
        ciphertext.truncate(len);
        Ok(())
    }
}

#[derive(Debug)]
struct StubSuite;

impl SupportedDtls13CipherSuite for StubSuite {
    fn suite(&self) -> Dtls13CipherSuite {
        Dtls13CipherSuite::AES_128_GCM_SHA256
    }

    fn hash_algorithm(&self) -> HashAlgorithm {
        HashAlgorithm::SHA256
    }

    fn key_len(&self) -> usize {
        16
    }

    fn iv_len(&self) -> usize {
        12
    }

    fn tag_len(&self) -> usize {
        TAG_LEN
    }

    fn create_cipher(&self, key: &[u8]) -> Result<Box<dyn Cipher>, CryptoError> {
        Ok(Box::new(StubCipher(key.to_vec())))
    }

    fn encrypt_sn(&self, sn_key: &[u8], sample: &[u8; 16]) -> [u8; 16] {
        mix(&[sn_key, sample])
    }
}

#[derive(Debug)]
struct StubHash(Vec<u8>, usize);

impl HashContext for StubHash {
    fn update(&mut self, data: &[u8]) {
        self.0.extend_from_slice(data);
    }

    fn clone_and_finalize(&self, out: &mut Buf) {
        out.clear();
        out.extend_from_slice(&mix::<48>(&[&self.0])[..self.1]);
    }
}

#[derive(Debug)]
struct StubKey;

impl SigningKey for StubKey {
    fn sign(&mut self, _: &[u8], _: HashAlgorithm, _: &mut Buf) -> Result<(), CryptoError> {
        Err(CryptoError::NotProvided)
    }

    fn algorithm(&self) -> SignatureAlgorithm {
        SignatureAlgorithm::ECDSA
    }

    fn hash_algorithm(&self) -> HashAlgorithm {
        HashAlgorithm::SHA256
    }

    fn supported_hash_algorithms(&self) -> &[HashAlgorithm] {
        &[HashAlgorithm::SHA256]
    }
}

#[derive(Debug)]
struct Stub;

impl SignatureVerifier for Stub {
    fn verify_signature(
        &self,
        _: &[u8],
        _: &[u8],
        _: &[u8],
        _: HashAlgorithm,
        _: SignatureAlgorithm,
    ) -> Result<(), CryptoError> {
        Err(CryptoError::NotProvided)
    }
}

impl KeyProvider for Stub {
    fn load_private_key(&self, _: &[u8]) -> Result<Box<dyn SigningKey>, CryptoError> {
        Ok(Box::new(StubKey))
    }
}

impl SecureRandom for Stub {
    fn fill(&self, _: &mut [u8]) -> Result<(), CryptoError> {
        Err(CryptoError::NotProvided)
    }
}

impl HashProvider for Stub {
    fn create_hash(&self, algorithm: HashAlgorithm) -> Box<dyn HashContext> {
        Box::new(StubHash(Vec::new(), algorithm.output_len()))
    }
}

impl HmacProvider for Stub {
    fn hmac(
        &self,
        hash: HashAlgorithm,
        key: &[u8],
        data: &[u8],
        out: &mut [u8],
    ) -> Result<usize, CryptoError> {
        let len = hash.output_len();
        out[..len].copy_from_slice(&mix::<48>(&[key, data])[..len]);
        Ok(len)
    }
}

/// The provider; its one suite goes by the name AES_128_GCM_SHA256.
pub fn provider() -> CryptoProvider {
    CryptoProvider {
        kx_groups: &[],
        signature_verification: &Stub,
        key_provider: &Stub,
        secure_random: &Stub,
        hash_provider: &Stub,
        hmac_provider: &Stub,
        cipher_suites: &[],
        dtls13_cipher_suites: &[&StubSuite],
    }
}
