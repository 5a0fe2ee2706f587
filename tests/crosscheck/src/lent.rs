//! Bytes lent to the library, between guards.

use std::ptr::{null, null_mut};

/// How buffers are lent for one call; it changes from call to call.
#[derive(Clone, Copy, Debug)]
pub struct Manner {
    /// The value of the guard bytes: what lies beside a buffer must not matter.
    pub guard: u8,
    /// The number of guard bytes on each side; it shifts the buffer's alignment.
    pub margin: usize,
    /// Whether an empty buffer is lent as the null pointer.
    pub null: bool,
    /// The same of the list of dead wires, which mostly is empty.
    pub null_list: bool,
}

impl Manner {
    /// How the list of dead wires is lent.
    pub fn of_list(self) -> Self {
        Manner {
            null: self.null_list,
            ..self
        }
    }
}

pub struct Lent {
    /// Guard, buffer, guard.
    all: Vec<u8>,
    /// The same as it was lent.
    before: Vec<u8>,
    manner: Manner,
}

impl Lent {
    pub fn new(bytes: &[u8], manner: Manner) -> Self {
        let guard = vec![manner.guard; manner.margin];
        let all = [&guard, bytes, &guard].concat();
        Lent {
            before: all.clone(),
            all,
            manner,
        }
    }

    fn start(&self) -> usize {
        self.manner.margin
    }

    fn end(&self) -> usize {
        self.all.len() - self.manner.margin
    }

    fn as_null(&self) -> bool {
        self.manner.null && self.len() == 0
    }

    pub fn len(&self) -> usize {
        self.end() - self.start()
    }

    pub fn pointer(&self) -> *const u8 {
        if self.as_null() {
            null()
        } else {
            self.all[self.start()..].as_ptr()
        }
    }

    pub fn pointer_mut(&mut self) -> *mut u8 {
        if self.as_null() {
            null_mut()
        } else {
            let start = self.start();
            self.all[start..].as_mut_ptr()
        }
    }

    pub fn bytes(&self) -> &[u8] {
        &self.all[self.start()..self.end()]
    }

    pub fn unchanged(&self) -> bool {
        self.all == self.before
    }

    pub fn guards_unchanged(&self) -> bool {
        let (start, end) = (self.start(), self.end());
        self.all[..start] == self.before[..start] && self.all[end..] == self.before[end..]
    }
}
