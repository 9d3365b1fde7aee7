//! Everything can go to another thread and be looked at from several.

use huskelapse::{
    Acked, Assembly, Cipher, CipherError, Error, Piece, Pieces, Reading, Readings, Receiver, Refusal, SealFailed, Sender, Status,
};

fn everywhere<T: Send + Sync>() {}

#[test]
fn send_and_sync() {
    everywhere::<Receiver>();
    everywhere::<Readings<'_, '_, dyn Cipher + Send + Sync>>();
    everywhere::<Reading<'_>>();
    everywhere::<(Assembly, Pieces<'_>, Piece<'_>)>();
    everywhere::<Sender<&mut [u8]>>();
    everywhere::<Sender<[u8; 1200], [u8; 7200]>>();
    everywhere::<(Refusal, Error, SealFailed, CipherError, Status, Acked)>();
    #[cfg(feature = "alloc")]
    everywhere::<Sender>();
    #[cfg(feature = "openssl")]
    everywhere::<huskelapse::openssl::Keys>();
}
