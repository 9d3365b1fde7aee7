//! The keys of one direction, made from a secret in place of a key schedule, for the cipher over OpenSSL.

use huskelapse::openssl::{self, Keys};
use huskelapse::{Cipher, CipherError, Receiver, Refusal, Sender};

pub use ::openssl::sha::sha256;
use serde::Serialize;

#[derive(Clone, Copy, PartialEq)]
pub enum Suite {
    Aes,
    ChaCha,
}

impl Suite {
    pub fn named(name: &str) -> Option<Suite> {
        match name {
            "aes-128-gcm" => Some(Suite::Aes),
            "chacha20-poly1305" | "chacha20" => Some(Suite::ChaCha),
            _ => None,
        }
    }

    pub fn name(self) -> &'static str {
        match self {
            Suite::Aes => "aes-128-gcm",
            Suite::ChaCha => "chacha20-poly1305",
        }
    }

    pub fn cipher(self) -> openssl::Suite {
        match self {
            Suite::Aes => openssl::Suite::Aes128Gcm,
            Suite::ChaCha => openssl::Suite::ChaCha20Poly1305,
        }
    }

    /// Who makes the masks of record numbers.
    pub fn masks(self) -> Masks {
        match self {
            Suite::Aes => Masks::Cipher,
            Suite::ChaCha => Masks::Library,
        }
    }
}

/// Who makes the masks: the library, of an epoch's number key, which it is given as mask key, or the host's cipher.
#[derive(Clone, Copy, Debug, PartialEq, Serialize)]
#[serde(rename_all = "lowercase")]
pub enum Masks {
    Library,
    Cipher,
}

/// An epoch's keys in one direction.
pub struct EpochKeys {
    key: [u8; 32],
    number_key: [u8; 32],
    iv: [u8; 12],
}

impl EpochKeys {
    pub fn new(epoch: u16, secret: &str) -> EpochKeys {
        let part = |label: &str| sha256(format!("{secret} epoch {epoch} {label}").as_bytes());
        EpochKeys { key: part("key"), number_key: part("sn"), iv: *part("iv").first_chunk().unwrap() }
    }

    /// Adds them to those of their direction. A cipher takes as much of a key as it needs.
    pub fn add_to(&self, keys: &mut Keys, suite: Suite, epoch: u16) -> Result<(), openssl::KeyError> {
        let length = suite.cipher().key_len();
        match suite.masks() {
            Masks::Cipher => keys.add(epoch, &self.key[..length], &self.number_key[..length]),
            Masks::Library => keys.add_without_mask(epoch, &self.key[..length]),
        }
    }

    pub fn key_send(&self, sender: &mut Sender, suite: Suite, epoch: u16) -> Result<(), Refusal> {
        match suite.masks() {
            Masks::Cipher => sender.key(epoch, &self.iv),
            Masks::Library => sender.key_masked(epoch, &self.iv, &self.number_key),
        }
    }

    pub fn key_receive(&self, receiver: &mut Receiver, suite: Suite, epoch: u16) -> Result<(), Refusal> {
        match suite.masks() {
            Masks::Cipher => receiver.key(epoch, &self.iv),
            Masks::Library => receiver.key_masked(epoch, &self.iv, &self.number_key),
        }
    }
}

/// The keys of one direction, how many masks they were asked for, and how many records they opened.
pub struct Counted {
    pub keys: Keys,
    pub masks: usize,
    pub opened: usize,
}

impl Counted {
    pub fn new(keys: Keys) -> Counted {
        Counted { keys, masks: 0, opened: 0 }
    }
}

impl Cipher for Counted {
    fn mask(&mut self, epoch: u16, sample: &[u8; 16]) -> Result<[u8; 2], CipherError> {
        self.masks += 1;
        self.keys.mask(epoch, sample)
    }

    fn open(&mut self, epoch: u16, number: u64, nonce: &[u8; 12], header: &[u8], part: &mut [u8]) -> bool {
        let said = self.keys.open(epoch, number, nonce, header, part);
        self.opened += usize::from(said);
        said
    }

    fn seal(&mut self, epoch: u16, number: u64, nonce: &[u8; 12], header: &[u8], part: &mut [u8]) -> Result<(), CipherError> {
        self.keys.seal(epoch, number, nonce, header, part)
    }
}
