//! What `trackrouter::explain` says of a call, held against the library.

use crate::board::Board;
use crate::call::Call;
use crate::outcome::Outcome;
use crate::places::{self, Place};
use sheets::Ask;
use std::fmt;
use trackrouter::explain::{self, By, Subject};
use trackrouter::number::{LIST, REPEAT, SPACE, SPENT, STRANGER, UNROUTABLE};

/// A fault's number, 0 for none, what it is of, and where it is.
#[derive(Default)]
pub struct Explained {
    pub number: u32,
    pub of: Option<Subject>,
    pub record: Option<usize>,
    pub entry: Option<usize>,
    pub item: Option<usize>,
    pub offset: Option<usize>,
    finding: String,
}

/// The explanation of the sheet, of the list of dead wires for a call that takes one,
/// and of the ticket that Check, Refit or Remove is lent.
pub fn ask(board: Board, call: Call) -> Explained {
    let Board { sheet, dead } = board;
    let fault = match call {
        Call::Listed(Ask::Check { ticket }) => explain::ticket(sheet, dead, ticket, By::Check),
        Call::Listed(Ask::Refit { old: ticket, .. } | Ask::Remove { ticket, .. }) => {
            explain::ticket(sheet, dead, ticket, By::Refit)
        }
        Call::Listed(Ask::Route { .. } | Ask::Least { .. }) => explain::list(sheet, dead),
        Call::Listed(Ask::Read | Ask::Record { .. }) | Call::Standard { .. } => {
            explain::sheet(sheet)
        }
    };
    fault.map_or(Explained::default(), |fault| Explained {
        number: fault.number,
        of: Some(fault.of),
        record: fault.record,
        entry: fault.entry,
        item: fault.item,
        offset: fault.offset,
        finding: fault.finding,
    })
}

impl Explained {
    /// Whether the number is the library's, what it is of is right, and the place
    /// is the first.
    pub fn agrees(&self, board: Board, call: Call, outcome: &Outcome) -> bool {
        let read = model::read(board.sheet).number;
        let place = Place {
            record: self.record,
            entry: self.entry,
            item: self.item,
            offset: self.offset,
        };
        self.number == faulted(outcome, read)
            && self.of == subject(self.number, read)
            && places::right(self.number, place, board, call)
    }
}

/// The number of the fault that a call found; 0 for none. A part has no number:
/// the fault is then that of Read.
fn faulted(outcome: &Outcome, read: u32) -> u32 {
    match outcome.number() {
        // These are no fault of a sheet, a list or a ticket.
        Some(STRANGER | SPACE | UNROUTABLE | SPENT) => 0,
        Some(number) => number,
        None => read,
    }
}

/// What a fault is of: the sheet if Read refuses that, else the list or the ticket.
fn subject(number: u32, read: u32) -> Option<Subject> {
    match (number, read) {
        (0, _) => None,
        (LIST | REPEAT, 0) => Some(Subject::List),
        (_, 0) => Some(Subject::Ticket),
        _ => Some(Subject::Sheet),
    }
}

impl fmt::Display for Explained {
    fn fmt(&self, f: &mut fmt::Formatter) -> fmt::Result {
        let (number, finding) = (self.number, &self.finding);
        write!(f, "number {number}")?;
        match self.of {
            Some(Subject::Sheet) => write!(f, " of the sheet")?,
            Some(Subject::List) => write!(f, " of the list")?,
            Some(Subject::Ticket) => write!(f, " of the ticket")?,
            None => {}
        }
        let place = [
            ("record", self.record),
            ("entry", self.entry),
            ("item", self.item),
            ("offset", self.offset),
        ];
        for (name, value) in place {
            if let Some(value) = value {
                write!(f, " {name} {value}")?;
            }
        }
        write!(f, ": {finding}")
    }
}
