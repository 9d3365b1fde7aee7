//! The verdict on a number: fresh, seen or too old (request 5). The Rust has one verdict for the last two, "not fresh". Which of them it
//! is is worked out here, beside the Rust, from the numbers that it has marked.

use std::collections::HashMap;

/// Numbers so far below the highest marked, and further, are too old, whether they were marked or not.
const TOO_OLD: u64 = 64;

#[derive(Debug, Clone, Copy, PartialEq, Eq)]
pub enum Verdict {
    Fresh,
    Seen,
    TooOld,
}

/// All numbers that the Rust has marked in a window, in any order: no window of our own, so that nothing slides out of it.
#[derive(Debug, Default)]
pub struct Marked {
    numbers: Vec<u64>,
    highest: u64,
}

impl Marked {
    pub fn mark(&mut self, number: u64) {
        self.numbers.push(number);
        self.highest = self.highest.max(number);
    }

    pub fn verdict(&self, number: u64) -> Verdict {
        if self.highest.saturating_sub(number) >= TOO_OLD {
            Verdict::TooOld
        } else if self.numbers.contains(&number) {
            Verdict::Seen
        } else {
            Verdict::Fresh
        }
    }
}

impl Verdict {
    /// Stops unless the Rust has said the same of the number as far as it goes: whether it is fresh.
    pub fn beside(self, fresh: bool) -> Self {
        assert_eq!(
            self == Verdict::Fresh,
            fresh,
            "{self:?}; the Rust: fresh {fresh}"
        );
        self
    }
}

/// The same for the windows of all epochs. An epoch is keyed once, so that its numbers need not be forgotten.
#[derive(Debug, Default)]
pub struct Windows(HashMap<u16, Marked>);

impl Windows {
    pub fn mark(&mut self, epoch: u16, number: u64) {
        self.0.entry(epoch).or_default().mark(number);
    }

    pub fn verdict(&self, epoch: u16, number: u64) -> Verdict {
        let window = self.0.get(&epoch);
        window.map_or(Verdict::Fresh, |marked| marked.verdict(number))
    }
}
