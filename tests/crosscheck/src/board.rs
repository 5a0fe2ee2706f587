//! A sheet with the list of dead wires that it is routed under (02 M-105).

use crate::call::Call;

/// What a call is made on.
#[derive(Clone, Copy, Debug)]
pub struct Board<'a> {
    pub sheet: &'a [u8],
    /// The list as it is lent, good or bad.
    pub dead: &'a [u8],
}

impl<'a> Board<'a> {
    pub fn new(sheet: &'a [u8], dead: &'a [u8]) -> Self {
        Board { sheet, dead }
    }

    /// What this call is lent: the list only if it takes one.
    pub fn lent(self, call: Call) -> Self {
        let dead = if call.takes_list() { self.dead } else { &[] };
        Board { dead, ..self }
    }
}

/// No dead wire.
impl<'a> From<&'a [u8]> for Board<'a> {
    fn from(sheet: &'a [u8]) -> Self {
        Board::new(sheet, &[])
    }
}

/// No dead wire.
impl<'a> From<&'a Vec<u8>> for Board<'a> {
    fn from(sheet: &'a Vec<u8>) -> Self {
        Board::new(sheet, &[])
    }
}
