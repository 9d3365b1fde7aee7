// A cipher for the tests and for the examples in the documentation. It protects nothing. As with a stream cipher, what is sealed twice
// is plaintext again.

use huskelapse::{Cipher, CipherError};

/// XORs a key byte onto each byte; the tag is a checksum.
pub struct Toy(pub u8);

impl Toy {
    fn tag(&self, epoch: u16, number: u64, nonce: &[u8; 12], header: &[u8], text: &[u8]) -> [u8; 16] {
        let mut sum = 0xCBF2_9CE4_8422_2325_u64 ^ u64::from(self.0);
        let numbers = [u64::from(epoch).to_be_bytes(), number.to_be_bytes()];
        for byte in numbers.as_flattened().iter().chain(nonce).chain(header).chain(text) {
            sum = (sum ^ u64::from(*byte)).wrapping_mul(0x100_0000_01B3);
        }
        let mut tag = [0; 16];
        tag[..8].copy_from_slice(&sum.to_be_bytes());
        tag[8..].copy_from_slice(&sum.to_le_bytes());
        tag
    }
}

impl Cipher for Toy {
    fn mask(&mut self, _epoch: u16, sample: &[u8; 16]) -> Result<[u8; 2], CipherError> {
        Ok([sample[0] ^ self.0, sample[1] ^ self.0])
    }

    fn open(&mut self, epoch: u16, number: u64, nonce: &[u8; 12], header: &[u8], part: &mut [u8]) -> bool {
        let (text, tag) = part.split_at_mut(part.len() - 16);
        text.iter_mut().for_each(|byte| *byte ^= self.0);
        self.tag(epoch, number, nonce, header, text) == tag
    }

    fn seal(&mut self, epoch: u16, number: u64, nonce: &[u8; 12], header: &[u8], part: &mut [u8]) -> Result<(), CipherError> {
        let (text, tag) = part.split_at_mut(part.len() - 16);
        tag.copy_from_slice(&self.tag(epoch, number, nonce, header, text));
        text.iter_mut().for_each(|byte| *byte ^= self.0);
        Ok(())
    }
}
