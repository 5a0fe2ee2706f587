//! A refusal.

use crate::constants::word;
use core::error::Error;
use core::fmt;

/// A refusal: a number from 1 on.
#[derive(Clone, Copy, PartialEq, Eq)]
pub struct Refusal {
    pub number: u32,
    /// Trials made, with 15 and 16; else 0.
    pub trials: u32,
}

impl Refusal {
    /// The word for the number.
    pub fn word(&self) -> &'static str {
        word(self.number)
    }
}

impl fmt::Display for Refusal {
    fn fmt(&self, f: &mut fmt::Formatter<'_>) -> fmt::Result {
        write!(f, "{} ({})", self.number, self.word())
    }
}

impl fmt::Debug for Refusal {
    fn fmt(&self, f: &mut fmt::Formatter<'_>) -> fmt::Result {
        f.debug_struct("Refusal")
            .field("number", &self.number)
            .field("word", &self.word())
            .field("trials", &self.trials)
            .finish()
    }
}

impl Error for Refusal {}
