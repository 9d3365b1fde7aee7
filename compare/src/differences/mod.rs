//! Where the Rust is known to differ: the smallest inputs, and what it does there.

pub mod classes;
pub mod rebuilding;
pub mod receiving;
pub mod sending;

/// A difference: an input, what the Rust does, what is answered here.
pub struct Found {
    pub input: String,
    pub rust: String,
    pub here: String,
}
