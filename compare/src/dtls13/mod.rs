pub mod engine;
pub mod incoming;
pub mod message;
pub mod queue;
