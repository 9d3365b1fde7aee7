//! A provider whose cipher is a script: masks and openings are decided beforehand, sealings made
//! from what is sealed, and each question is written down. Or, where two ends are run, it opens what
//! it has sealed. The script belongs to the thread.

use std::cell::RefCell;

use super::*;
use crate::CryptoError;
use crate::buffer::{Buf, TmpBuf};
use crate::types::{Dtls13CipherSuite, HashAlgorithm};

const TAG_LEN: usize = 16;

/// The replies about one sealed record: its mask, and no or yes with the first bytes of the
/// plaintext; what follows them up to the tag stays as it lies.
#[derive(Debug, Clone, Default, PartialEq, Eq)]
pub struct Reply {
    pub mask: [u8; 2],
    pub opening: Option<Vec<u8>>,
}

/// The mask question: the epoch's key, and the bytes shown.
#[derive(Debug, Clone)]
pub struct MaskAsked {
    pub key: Vec<u8>,
    pub sample: [u8; 16],
}

/// The opening question.
#[derive(Debug, Clone)]
pub struct OpeningAsked {
    pub key: Vec<u8>,
    pub header: Vec<u8>,
    pub nonce: [u8; 12],
    pub length: usize,
}

/// The sealing question, and the reply: a pattern that is repeated over the text and its tag (all of
/// it, if it is to be opened), and the mask. Both depend on key, nonce, header and text.
#[derive(Debug, Clone)]
pub struct SealingAsked {
    pub key: Vec<u8>,
    pub header: [u8; 5],
    pub nonce: [u8; 12],
    pub plaintext: Vec<u8>,
    pub pattern: Vec<u8>,
    pub mask: [u8; 2],
    /// What the mask was then asked about.
    pub sampled: Option<MaskAsked>,
}

#[derive(Default)]
struct Script {
    /// Whether the cipher opens what it has sealed, and the mask is made from key and sample.
    opens: bool,
    min_protected: usize,
    reply: Reply,
    mask: Option<MaskAsked>,
    opening: Option<OpeningAsked>,
    sealings: Vec<SealingAsked>,
}

thread_local! {
    static SCRIPT: RefCell<Script> = RefCell::default();
}

/// The least length of a protected part.
pub fn set_min_protected(min: usize) {
    SCRIPT.with_borrow_mut(|script| script.min_protected = min);
}

/// Whether masks and openings are the cipher's own, in place of the replies.
pub fn set_opens(opens: bool) {
    SCRIPT.with_borrow_mut(|script| script.opens = opens);
}

/// The replies about the last record.
pub fn replied() -> Reply {
    SCRIPT.with_borrow(|script| script.reply.clone())
}

/// The replies about the next record.
pub fn set_reply(reply: Reply) {
    SCRIPT.with_borrow_mut(|script| script.reply = reply);
}

/// What was asked since the last time.
pub fn take_asked() -> (Option<MaskAsked>, Option<OpeningAsked>) {
    SCRIPT.with_borrow_mut(|script| (script.mask.take(), script.opening.take()))
}

/// The sealings asked since the last time, in order.
pub fn take_sealings() -> Vec<SealingAsked> {
    SCRIPT.with_borrow_mut(|script| std::mem::take(&mut script.sealings))
}

/// A pattern repeated up to a length.
pub fn repeated(pattern: &[u8], length: usize) -> Vec<u8> {
    match pattern {
        [] => vec![0; length],
        _ => pattern.iter().copied().cycle().take(length).collect(),
    }
}

/// A cipher that knows its key by name only.
#[derive(Debug)]
struct ScriptCipher(Vec<u8>);

pub fn cipher(key: &[u8]) -> Box<dyn Cipher> {
    Box::new(ScriptCipher(key.to_vec()))
}

fn own_mask(key: &[u8], sample: &[u8]) -> [u8; 2] {
    stub::mix(&[key, sample])
}

impl ScriptCipher {
    /// A text made unreadable, or readable again.
    fn turned(&self, text: &[u8], nonce: &Nonce) -> Vec<u8> {
        let stream: [u8; 32] = stub::mix(&[&self.0, &nonce.0]);
        let stream = stream.iter().cycle();
        text.iter().zip(stream).map(|(a, b)| a ^ b).collect()
    }

    fn tag(&self, text: &[u8], aad: &Aad, nonce: &Nonce) -> [u8; TAG_LEN] {
        stub::mix(&[&self.0, &nonce.0, &aad.0, text])
    }

    fn sealed(&self, text: &[u8], aad: &Aad, nonce: &Nonce) -> Vec<u8> {
        let mut sealed = self.turned(text, nonce);
        sealed.extend_from_slice(&self.tag(text, aad, nonce));
        sealed
    }

    /// The text, if the tag is that of text, header, nonce and key.
    fn opened(&self, sealed: &[u8], aad: &Aad, nonce: &Nonce) -> Option<Vec<u8>> {
        let (text, tag) = sealed.split_at(sealed.len() - TAG_LEN);
        let text = self.turned(text, nonce);
        (self.tag(&text, aad, nonce) == tag).then_some(text)
    }
}

impl Cipher for ScriptCipher {
    fn encrypt(&mut self, plaintext: &mut Buf, aad: Aad, nonce: Nonce) -> Result<(), CryptoError> {
        let (pattern, mask) = if SCRIPT.with_borrow(|script| script.opens) {
            let sealed = self.sealed(plaintext, &aad, &nonce);
            let mask = own_mask(&self.0, &sealed[..16]);
            (sealed, mask)
        } else {
            let pattern: [u8; 7] = stub::mix(&[&self.0, &nonce.0, &aad.0, plaintext]);
            (pattern.to_vec(), stub::mix(&[&pattern]))
        };
        let asked = SealingAsked {
            key: self.0.clone(),
            header: aad.0[..].try_into().unwrap(),
            nonce: nonce.0,
            plaintext: plaintext.to_vec(),
            pattern,
            mask,
            sampled: None,
        };
        let length = plaintext.len() + TAG_LEN;
        plaintext.clear();
        plaintext.extend_from_slice(&repeated(&asked.pattern, length));
        SCRIPT.with_borrow_mut(|script| {
            script.reply.mask = asked.mask;
            script.sealings.push(asked);
        });
        Ok(())
    }

    fn decrypt(
        &mut self,
        ciphertext: &mut TmpBuf,
        aad: Aad,
        nonce: Nonce,
    ) -> Result<(), CryptoError> {
        let len = ciphertext
            .len()
            .checked_sub(TAG_LEN)
            .ok_or(CryptoError::NotOpened)?;
        SCRIPT.with_borrow_mut(|script| {
            script.opening = Some(OpeningAsked {
                key: self.0.clone(),
                header: aad.0.to_vec(),
                nonce: nonce.0,
                length: ciphertext.len(),
            });
            if script.opens {
                script.reply.opening = self.opened(ciphertext, &aad, &nonce);
            }
            let plaintext = script
                .reply
                .opening
                .as_ref()
                .ok_or(CryptoError::NotOpened)?;
            let written = plaintext.len().min(len);
            ciphertext[..written].copy_from_slice(&plaintext[..written]);
            ciphertext.truncate(len);
            Ok(())
        })
    }
}

#[derive(Debug)]
struct ScriptSuite;

impl SupportedDtls13CipherSuite for ScriptSuite {
    fn suite(&self) -> Dtls13CipherSuite {
        Dtls13CipherSuite::AES_128_GCM_SHA256
    }

    fn hash_algorithm(&self) -> HashAlgorithm {
        HashAlgorithm::SHA256
    }

    fn key_len(&self) -> usize {
        16
    }

    fn iv_len(&self) -> usize {
        12
    }

    fn tag_len(&self) -> usize {
        TAG_LEN
    }

    fn min_protected_fragment_len(&self) -> usize {
        SCRIPT.with_borrow(|script| script.min_protected)
    }

    fn create_cipher(&self, key: &[u8]) -> Result<Box<dyn Cipher>, CryptoError> {
        Ok(cipher(key))
    }

    /// Two bytes of the script, or made from key and sample; the others must not matter.
    fn encrypt_sn(&self, sn_key: &[u8], sample: &[u8; 16]) -> [u8; 16] {
        SCRIPT.with_borrow_mut(|script| {
            let asked = MaskAsked {
                key: sn_key.to_vec(),
                sample: *sample,
            };
            if let Some(last) = script.sealings.last_mut() {
                last.sampled = Some(asked.clone());
            }
            script.mask = Some(asked);
            if script.opens {
                script.reply.mask = own_mask(sn_key, sample);
            }
            let mut mask = [0xA5; 16];
            mask[..2].copy_from_slice(&script.reply.mask);
            mask
        })
    }
}

/// The provider; its one suite goes by the name AES_128_GCM_SHA256.
pub fn provider() -> CryptoProvider {
    CryptoProvider {
        dtls13_cipher_suites: &[&ScriptSuite],
        ..stub::provider()
    }
}
