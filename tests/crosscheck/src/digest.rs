//! One number for all calls that a library from before 02 M-106 answers too, and for
//! their outcomes: two libraries that answer alike have the same.

use crate::board::Board;
use crate::call::Call;
use crate::outcome::Outcome;
use sheets::Mark;
use std::hash::{DefaultHasher, Hash, Hasher};

/// Whether it is a sheet of that time, by its bytes alone: marked 57 48, and not over
/// the old limit of number 1.
pub fn is_old(sheet: &[u8]) -> bool {
    Mark::of(sheet) == Some(Mark::Short) && sheet.len() <= 8600
}

#[derive(Default)]
pub struct Digest {
    calls: u64,
    hasher: DefaultHasher,
}

impl Digest {
    /// Notes a call on such a sheet.
    pub fn note(&mut self, board: Board, call: Call, before: &[u8], outcome: &Outcome) {
        if is_old(board.sheet) {
            self.calls += 1;
            let given = (board.sheet, board.dead, call, before, outcome);
            given.hash(&mut self.hasher);
        }
    }

    pub fn print(&self) {
        let (calls, digest) = (self.calls, self.hasher.finish());
        println!(
            "digest: {calls} calls on sheets marked 57 48 of at most 8600 bytes, {digest:016x}"
        );
    }
}
