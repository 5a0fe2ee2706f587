//! How deep a call reaches into the stack.
//!
//! Rust has no word for the stack below its own frames, so this module takes it
//! by address. On a fresh thread, whose stack is one mapping of known size,
//! `paint` fills the free stack below its own frame with a pattern and returns.
//! The call under test then runs over the painted bytes. `lowest` looks from the
//! far end for the first byte that changed.
//!
//! The depth counts from `paint`'s frame, which starts where the call's does,
//! to the lowest byte written. It is right within a few hundred bytes: it takes
//! in the closure around the call, and does not see what the last frame
//! reserves and never writes. Nothing here is read that was not painted before.

use std::hint::black_box;
use std::ptr::{read_volatile, write_volatile};
use std::thread::{scope, Builder};

/// The stack of the thread that is painted, and how much of it is.
const STACK: usize = 2 << 20;
const PAINTED: usize = 3 << 19;

/// Left out at the top, for the frames of `paint` and `lowest` themselves: a call
/// that reaches no deeper is said to use so much.
pub const SKIPPED: usize = 512;

const PATTERN: u8 = 0xA5;

/// What the call gives, and the bytes of stack that it uses.
pub fn depth<T: Send>(call: impl FnOnce() -> T + Send) -> (T, usize) {
    on_a_stack_of(STACK, || {
        let top = paint();
        let given = call();
        (given, top - lowest(top))
    })
}

/// Makes the call on a thread of its own with a stack of that size.
pub fn on_a_stack_of<T: Send>(size: usize, call: impl FnOnce() -> T + Send) -> T {
    scope(|scope| {
        let thread = Builder::new().stack_size(size).spawn_scoped(scope, call);
        let done = thread.expect("a thread").join();
        done.expect("the call returns")
    })
}

/// Gives the address it counts from.
#[inline(never)]
fn paint() -> usize {
    let mark = 0u8;
    let top = black_box(&mark) as *const u8 as usize;
    for address in top - PAINTED..top - SKIPPED {
        // SAFETY: inside this thread's stack, and below all frames in use.
        unsafe { write_volatile(address as *mut u8, PATTERN) };
    }
    top
}

#[inline(never)]
fn lowest(top: usize) -> usize {
    let mut painted = top - PAINTED..top - SKIPPED;
    // SAFETY: inside this thread's stack, and written by `paint` or after it.
    let changed = |&address: &usize| unsafe { read_volatile(address as *const u8) } != PATTERN;
    let lowest = painted.find(changed).unwrap_or(top - SKIPPED);
    assert!(lowest > top - PAINTED, "deeper than the paint");
    lowest
}
