//! HKDF over the provider's HMAC (RFC 5869, RFC 8446 section 7.1, RFC 9147 section 5.9).

use super::HmacProvider;
use crate::CryptoError;
use crate::buffer::Buf;
use crate::types::HashAlgorithm;

pub fn hkdf_extract(
    hmac: &dyn HmacProvider,
    hash: HashAlgorithm,
    salt: &[u8],
    ikm: &[u8],
    out: &mut Buf,
) -> Result<(), CryptoError> {
    let mut mac = [0u8; 64];
    let len = hmac.hmac(hash, salt, ikm, &mut mac)?;
    out.clear();
    out.extend_from_slice(&mac[..len]);
    Ok(())
}

pub fn hkdf_expand_label_dtls13(
    hmac: &dyn HmacProvider,
    hash: HashAlgorithm,
    secret: &[u8],
    label: &[u8],
    context: &[u8],
    out: &mut Buf,
    len: usize,
) -> Result<(), CryptoError> {
    let mut info = (len as u16).to_be_bytes().to_vec();
    info.push(6 + label.len() as u8);
    info.extend_from_slice(b"dtls13");
    info.extend_from_slice(label);
    info.push(context.len() as u8);
    info.extend_from_slice(context);

    out.clear();
    let mut block = Vec::new();
    for count in 1u8.. {
        if out.len() >= len {
            break;
        }
        block.extend_from_slice(&info);
        block.push(count);
        let mut mac = [0u8; 64];
        let mac_len = hmac.hmac(hash, secret, &block, &mut mac)?;
        out.extend_from_slice(&mac[..mac_len]);
        block.clear();
        block.extend_from_slice(&mac[..mac_len]);
    }
    out.truncate(len);
    Ok(())
}
