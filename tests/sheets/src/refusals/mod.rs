//! The fixed list of refusals: each number alone, adjacent numbers at once,
//! and what lies just inside the limits, under both marks. All expected numbers are
//! by hand.

mod alone;
mod inside;
mod layout;
mod lengths;
mod limits;
mod pairs;
mod parameters;
mod removal;
mod searches;
mod tickets;

pub use parameters::every_bad_byte;

use crate::case::{by_rows, long, Ask, Case};
use crate::mark::Mark;
use crate::numbers::Spread;
use crate::raw::Raw;
use crate::{rim, rows};

/// The sheet under this mark. Under the second one its numbers are long, and their
/// low halves fall where they rise.
fn under(mark: Mark, raw: Raw) -> Raw {
    match mark {
        Mark::Short => raw,
        Mark::Long => raw.spread(Spread::Crossed),
    }
}

/// A sheet that every call refuses with this number.
pub struct Fault {
    pub number: u32,
    pub name: String,
    pub sheet: Vec<u8>,
}

impl Fault {
    pub fn new(number: u32, name: impl Into<String>, sheet: Vec<u8>) -> Self {
        Fault {
            number,
            name: name.into(),
            sheet,
        }
    }

    /// The fault with the sheet of kind 3 that has the same boxes, if there is one.
    fn by_rows(&self) -> Option<Self> {
        let sheet = rows::by_rows(&self.sheet)?;
        let name = format!("{}, by rows", self.name);
        Some(Fault::new(self.number, name, sheet))
    }

    /// The fault under the second mark, if it is one of a sheet that is laid out as
    /// one of the first.
    pub(crate) fn long(&self) -> Option<Self> {
        let raw = Raw::read(&self.sheet).filter(|raw| raw.form == Mark::Short)?;
        let name = format!("{}{}", self.name, Mark::Long.tag());
        Some(Fault::new(
            self.number,
            name,
            under(Mark::Long, raw).bytes(),
        ))
    }

    /// The fault asked through every call. The tickets have a wrong length for
    /// most sheets, some outputs are too short and no sheet has net 65,536: the
    /// sheet's number comes first.
    pub(crate) fn cases(&self) -> Vec<Case> {
        let ticket = vec![0, 0, 1, 1, 2, 255];
        let asks = vec![
            Ask::Read,
            Ask::Record { place: 0 },
            Ask::Check {
                ticket: ticket.clone(),
            },
            Ask::Check { ticket: Vec::new() },
            Ask::Route {
                budget: 100,
                room: 6,
            },
            Ask::Route { budget: 0, room: 0 },
            Ask::Least {
                budget: 100,
                room: 9000,
            },
            Ask::Refit {
                old: ticket.clone(),
                budget: 100,
                room: 6,
            },
            Ask::Refit {
                old: Vec::new(),
                budget: 0,
                room: 0,
            },
            Ask::Remove {
                ticket,
                net: 1,
                room: 6,
            },
            Ask::Remove {
                ticket: Vec::new(),
                net: 65536,
                room: 0,
            },
        ];
        asks.into_iter()
            .map(|ask| Case::refused(&*self.name, self.sheet.clone(), ask, self.number))
            .collect()
    }
}

/// All sheets that are refused, with their numbers, 1 to 9 and 18, under both marks;
/// those of kinds 0 to 2 as kind 3 too, with the same number.
pub fn faults() -> Vec<Fault> {
    let mut all: Vec<Fault> = Mark::BOTH.into_iter().flat_map(under_mark).collect();
    let rim = rim::faults();
    all.extend(rim.iter().filter_map(Fault::long));
    all.extend(rim);
    all
}

fn under_mark(mark: Mark) -> Vec<Fault> {
    let mut faults = alone::faults(mark);
    faults.extend(pairs::faults(mark));
    let twins: Vec<Fault> = faults.iter().filter_map(Fault::by_rows).collect();
    faults.extend(twins);
    faults.extend(parameters::faults(mark));
    faults.extend(lengths::faults(mark));
    for fault in &mut faults {
        fault.name += mark.tag();
    }
    faults
}

pub fn cases() -> Vec<Case> {
    let mut cases: Vec<Case> = faults().iter().flat_map(Fault::cases).collect();
    let mut others = tickets::cases();
    others.extend(searches::cases());
    others.extend(inside::cases());
    others.extend(removal::cases());
    others.extend(long(&others));
    others.extend(limits::cases());
    cases.extend(by_rows(&others));
    cases.extend(others);
    cases
}
