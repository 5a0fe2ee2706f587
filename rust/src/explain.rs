//! Where a sheet, a list of dead wires or a ticket breaks its rule.
//!
//! The table's tests of sheets, lists and tickets as plain code, apart from the proved code: each test over the whole sheet, list or ticket,
//! in the order of the table, and in each test the first place where it applies. That the number is the library's is tested, not proved.
//! 14 to 17 are faults of none of them: they speak of the output, of the search and of the net that is asked for.

mod directory;
mod list;
mod nets;
mod parameters;
mod parts;
mod rules;
mod tracks;
mod trailer;

use alloc::string::String;
use list::Dead;
use parts::Parts;

/// Who judges a ticket.
#[derive(Clone, Copy, Debug, PartialEq, Eq)]
pub enum By {
    Check,
    /// Refit, for which it is the old ticket, or, with no dead wires, Remove: a net whose bytes are all 255 is unplaced.
    Refit,
}

/// What has the fault.
#[derive(Clone, Copy, Debug, PartialEq, Eq)]
pub enum Subject {
    Sheet,
    /// The list of dead wires.
    List,
    Ticket,
}

/// The first fault in the order of the table, and where it stands.
#[derive(Clone, Debug, PartialEq, Eq)]
pub struct Fault {
    pub number: u32,
    /// What has it; the offset is in that.
    pub of: Subject,
    /// The list place of the record, from 0.
    pub record: Option<usize>,
    /// The place of the entry in its record, from 0.
    pub entry: Option<usize>,
    /// The place of the item in the list of dead wires, from 0: with 21, that of the wire that the ticket's entry is on.
    pub item: Option<usize>,
    /// The byte offset of the field, in the sheet, the list or the ticket.
    pub offset: Option<usize>,
    /// Where it is, with the values: a sentence without its full stop.
    pub finding: String,
    /// The rule in a sentence.
    pub rule: &'static str,
}

impl Fault {
    /// A fault of the whole sheet.
    fn of_sheet(number: u32, finding: String) -> Fault {
        Fault::new(number, Subject::Sheet, finding)
    }

    /// A fault of the whole list.
    fn of_list(number: u32, finding: String) -> Fault {
        Fault::new(number, Subject::List, finding)
    }

    /// A fault of the whole ticket.
    fn of_ticket(number: u32, finding: String) -> Fault {
        Fault::new(number, Subject::Ticket, finding)
    }

    fn new(number: u32, of: Subject, finding: String) -> Fault {
        Fault {
            number,
            of,
            record: None,
            entry: None,
            item: None,
            offset: None,
            finding,
            rule: rules::rule(number),
        }
    }

    fn record(mut self, place: usize) -> Fault {
        self.record = Some(place);
        self
    }

    fn entry(mut self, place: usize) -> Fault {
        self.entry = Some(place);
        self
    }

    fn item(mut self, place: usize) -> Fault {
        self.item = Some(place);
        self
    }

    fn offset(mut self, offset: usize) -> Fault {
        self.offset = Some(offset);
        self
    }
}

/// The fault for which the library refuses the sheet; `None` for an accepted sheet.
pub fn sheet(bytes: &[u8]) -> Option<Fault> {
    accepted(bytes).err()
}

/// The fault for which the calls that take a list of dead wires refuse the sheet or the list; `None` if they accept both.
pub fn list(sheet: &[u8], dead: &[u8]) -> Option<Fault> {
    listed(sheet, dead).err()
}

/// The fault for which Check or Refit refuses the ticket: of the sheet, of the list of dead wires, or of the ticket. Remove takes no list:
/// its fault is that of Refit with an empty one.
pub fn ticket(sheet: &[u8], dead: &[u8], ticket: &[u8], by: By) -> Option<Fault> {
    match listed(sheet, dead) {
        Ok((parts, dead)) => tracks::fault(&parts, &dead, ticket, by),
        Err(fault) => Some(fault),
    }
}

/// An accepted sheet's parts, and the wires of a list that is accepted with it.
fn listed(sheet: &[u8], dead: &[u8]) -> Result<(Parts, Dead), Fault> {
    let parts = accepted(sheet)?;
    let dead = list::dead(parts.fabric.chip, dead)?;
    Ok((parts, dead))
}

/// An accepted sheet's parts.
fn accepted(bytes: &[u8]) -> Result<Parts, Fault> {
    let parts = Parts::of(bytes)?;
    nets::fault(&parts).map_or(Ok(parts), Err)
}
