//! The one name of DTLS 1.2 that the provider's traits use.

pub mod message {
    #[allow(non_camel_case_types)]
    #[derive(Debug, Clone, Copy, PartialEq, Eq, Hash)]
    pub enum Dtls12CipherSuite {
        ECDHE_ECDSA_AES128_GCM_SHA256,
        ECDHE_ECDSA_AES256_GCM_SHA384,
        ECDHE_ECDSA_CHACHA20_POLY1305_SHA256,
    }
}
