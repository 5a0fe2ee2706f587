//! A listing of a sheet, and its tickets.

use crate::board::Board;
use model::sheet::{parse, Net, Sheet, ROOT};
use sheets::{ticket_of, tracks_of, Mark, Raw, Record, Tracks};

pub struct Listing {
    raw: Raw,
    pub bytes: Vec<u8>,
    /// The list that it is asked under.
    pub dead: Vec<u8>,
    /// Whether it is the standard form that Standard wrote of another listing.
    pub is_form: bool,
}

impl Listing {
    pub fn new(raw: Raw) -> Self {
        Listing {
            bytes: raw.bytes(),
            raw,
            dead: Vec::new(),
            is_form: false,
        }
    }

    /// A form that Standard wrote, read by the model.
    pub fn form(bytes: &[u8]) -> Self {
        let sheet = parse(bytes).expect("a good sheet");
        let mark = Mark::of(bytes).expect("a mark");
        Listing {
            raw: laid_out(&sheet, mark),
            bytes: bytes.to_vec(),
            dead: Vec::new(),
            is_form: true,
        }
    }

    pub fn mark(&self) -> Mark {
        self.raw.form
    }

    /// The listing under this list of dead wires.
    pub fn under(mut self, dead: &[u8]) -> Self {
        self.dead = dead.to_vec();
        self
    }

    pub fn board(&self) -> Board<'_> {
        Board::new(&self.bytes, &self.dead)
    }

    pub fn entry_count(&self) -> usize {
        self.raw.records.iter().map(|r| r.entries.len()).sum()
    }

    /// The tracks of a ticket for this listing.
    pub fn tracks(&self, ticket: &[u8]) -> Tracks {
        tracks_of(&self.raw, ticket)
    }

    /// The ticket for the other listing that has the tracks of this one's.
    pub fn carried(&self, ticket: &[u8], other: &Listing) -> Vec<u8> {
        ticket_of(&other.raw, &self.tracks(ticket))
    }
}

/// A sheet that was read, laid out again under this mark.
pub fn laid_out(sheet: &Sheet, mark: Mark) -> Raw {
    let records = sheet.nets.iter().map(record).collect();
    let [columns, rows] = [sheet.chip.columns, sheet.chip.rows].map(|side| side as u8);
    let (kind, width) = (sheet.kind.byte(), sheet.width as u8);
    let raw = Raw::new(columns, rows, kind, width, records).marked(mark);
    raw.with_row_bytes(&sheet.kind.row_bytes())
}

/// The net's record as it stands.
fn record(net: &Net) -> Record {
    let channels = net.channels.iter().map(|&c| c as u16);
    let parents = net.joints.iter().map(|joint| joint.places.1 as u16);
    let parents = [ROOT].into_iter().chain(parents);
    let entries: Vec<(u16, u16)> = channels.zip(parents).collect();
    Record::new(net.number, &entries)
}
