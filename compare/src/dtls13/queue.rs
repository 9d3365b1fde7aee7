//! The engine's queues.

use std::collections::VecDeque;

use super::incoming::Incoming;
use crate::buffer::Buf;

pub type QueueRx = VecDeque<Incoming>;
pub type QueueTx = VecDeque<Buf>;
