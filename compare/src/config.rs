//! Settings, certificate and what `poll_output` hands out.

use std::time::{Duration, Instant};

use crate::crypto::{CryptoProvider, SupportedDtls13CipherSuite, SupportedKxGroup, stub};

/// The settings that the engine reads. All can be chosen.
#[derive(Debug, Clone)]
pub struct Config {
    pub mtu: usize,
    pub max_queue_rx: usize,
    pub max_queue_tx: usize,
    pub flight_start_rto: Duration,
    pub flight_retries: usize,
    pub handshake_timeout: Duration,
    pub aead_encryption_limit: u64,
    pub rng_seed: Option<u64>,
    pub crypto_provider: CryptoProvider,
}

impl Default for Config {
    fn default() -> Self {
        Self {
            mtu: 1150,
            max_queue_rx: 30,
            max_queue_tx: 10,
            flight_start_rto: Duration::from_secs(1),
            flight_retries: 4,
            handshake_timeout: Duration::from_secs(40),
            aead_encryption_limit: u64::MAX,
            rng_seed: Some(0),
            crypto_provider: stub::provider(),
        }
    }
}

impl Config {
    pub fn mtu(&self) -> usize {
        self.mtu
    }

    pub fn max_queue_rx(&self) -> usize {
        self.max_queue_rx
    }

    pub fn max_queue_tx(&self) -> usize {
        self.max_queue_tx
    }

    pub fn flight_start_rto(&self) -> Duration {
        self.flight_start_rto
    }

    pub fn flight_retries(&self) -> usize {
        self.flight_retries
    }

    pub fn handshake_timeout(&self) -> Duration {
        self.handshake_timeout
    }

    pub fn aead_encryption_limit(&self) -> u64 {
        self.aead_encryption_limit
    }

    pub fn rng_seed(&self) -> Option<u64> {
        self.rng_seed
    }

    pub fn crypto_provider(&self) -> &CryptoProvider {
        &self.crypto_provider
    }

    pub fn dtls13_cipher_suites(
        &self,
    ) -> impl Iterator<Item = &'static dyn SupportedDtls13CipherSuite> {
        self.crypto_provider.dtls13_cipher_suites.iter().copied()
    }

    pub fn kx_groups(&self) -> impl Iterator<Item = &'static dyn SupportedKxGroup> {
        self.crypto_provider.kx_groups.iter().copied()
    }
}

#[derive(Debug, Clone, Default)]
pub struct DtlsCertificate {
    pub certificate: Vec<u8>,
    pub private_key: Vec<u8>,
}

#[derive(Debug)]
pub enum Output<'a> {
    Packet(&'a [u8]),
    BufferTooSmall { needed: usize },
    ApplicationData(&'a [u8]),
    CloseNotify,
    Timeout(Instant),
}
