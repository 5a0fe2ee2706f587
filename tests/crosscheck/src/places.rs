//! Where a fault of a number first is: each test's condition entry by entry,
//! with the model's chip and boxes.

use crate::board::Board;
use crate::call::Call;
use model::chip::{Chip, End};
use model::rows;
use model::switch::{are_partners_in, Kind};
use sheets::dead::{wires, Wire};
use sheets::mark::Places;
use sheets::{Ask, Mark};
use std::collections::BTreeSet;

/// Record, entry, item of the list and offset of a fault.
#[derive(Clone, Copy, Debug, Default, PartialEq, Eq)]
pub struct Place {
    pub record: Option<usize>,
    pub entry: Option<usize>,
    pub item: Option<usize>,
    pub offset: Option<usize>,
}

/// Whether a fault of this number, which applies, is told at its first place.
pub fn right(number: u32, place: Place, board: Board, call: Call) -> bool {
    let Board { sheet, dead } = board;
    let end = sheet.len();
    match number {
        0 | 1 | 10 => place == Place::default(),
        2 if Mark::of(sheet).is_none() => place == field(end - 2),
        2 => place == field(end - 4),
        3 => place == field(first_of_chip(sheet)),
        4 => place == field(end - 8),
        18 => place == field(first_of_rows(sheet)),
        // Inside is enough: the clauses of 5 have no order of their own.
        5 => matches!(place, Place { record, entry: None, item: None, offset: Some(offset) }
            if offset < end && record.is_none_or(|record| record < word(sheet, end - 8))),
        19 => of_19(sheet, dead).contains(&place),
        20 => {
            let items = wires(dead);
            let mut seen = BTreeSet::new();
            let again = |at: &usize| !seen.insert(items[*at]);
            (0..items.len())
                .find(again)
                .is_some_and(|at| place == in_item(at, 0))
        }
        _ => Some(place) == Look::new(board, call).first(number),
    }
}

fn field(offset: usize) -> Place {
    Place {
        offset: Some(offset),
        ..Place::default()
    }
}

/// So many bytes behind the start of an item.
fn in_item(item: usize, more: usize) -> Place {
    Place {
        item: Some(item),
        ..field(3 * item + more)
    }
}

/// The item that is not whole, and the first item of a channel that the chip lacks or
/// of a track over 31: these have no order of their own.
fn of_19(sheet: &[u8], dead: &[u8]) -> Vec<Place> {
    let channels = chip(sheet).channel_count();
    let known = |wire: &Wire| u32::from(wire.0) < channels;
    let items = wires(dead);
    let bad = |wire: &Wire| !known(wire) || wire.1 > 31;
    let first = items.iter().position(bad);
    let first = first.map(|at| in_item(at, if known(&items[at]) { 2 } else { 0 }));
    let half = (dead.len() % 3 > 0).then(|| in_item(dead.len() / 3, 0));
    first.into_iter().chain(half).collect()
}

fn chip(sheet: &[u8]) -> Chip {
    let end = sheet.len();
    Chip {
        columns: sheet[end - 12].into(),
        rows: sheet[end - 11].into(),
    }
}

fn word(sheet: &[u8], at: usize) -> usize {
    usize::from(u16::from_le_bytes([sheet[at], sheet[at + 1]]))
}

/// The first of A, B, kind and W that is outside its values.
fn first_of_chip(sheet: &[u8]) -> usize {
    let at = sheet.len() - 12;
    let values = [2..=16, 2..=16, 0..=3, 1..=32];
    let wrong = (0..4).find(|&place| !values[place].contains(&sheet[at + place]));
    at + wrong.expect("number 3 applies")
}

/// The first sign byte over 1, or shift outside -32 to 31, of a kind 3's rows.
fn first_of_rows(sheet: &[u8]) -> usize {
    let at = sheet.len() - 24;
    let bad = |place: &usize| match place % 2 {
        0 => sheet[at + place] > 1,
        _ => (32..224).contains(&sheet[at + place]),
    };
    at + (0..12).find(bad).expect("number 18 applies")
}

/// The kind of a sheet to which none of 1 to 5 and 18 applies.
fn kind(sheet: &[u8]) -> Kind {
    let end = sheet.len();
    let by_rows = || rows::read(&sheet[end - 24..end - 12]).map(Kind::Parameters);
    let kind = Kind::from_byte(sheet[end - 10]).or_else(by_rows);
    kind.expect("a kind")
}

struct Record {
    number: u32,
    start: usize,
    /// Where the net's bytes start in a ticket.
    byte: usize,
    /// Channel and parent.
    entries: Vec<(usize, usize)>,
}

/// A sheet to which none of 1 to 5 and 18 applies, and the list and ticket it is
/// asked with.
struct Look<'a> {
    places: Places,
    chip: Chip,
    kind: Kind,
    width: u8,
    records: Vec<Record>,
    dead: Vec<Wire>,
    ticket: &'a [u8],
    old: bool,
}

impl<'a> Look<'a> {
    fn new(board: Board, call: Call<'a>) -> Self {
        let Board { sheet, dead } = board;
        let end = sheet.len();
        let (directory, nets) = (word(sheet, end - 6), word(sheet, end - 8));
        let places = Mark::of(sheet).expect("a mark").places();
        let mut records = Vec::new();
        let mut byte = 0;
        for start in (0..nets).map(|place| word(sheet, directory + 2 * place)) {
            let count = word(sheet, start + places.count);
            let entry = |at: usize| (word(sheet, at), word(sheet, at + 2));
            let entries = (0..count).map(|place| entry(start + places.entry(place)));
            records.push(Record {
                number: places.number_in(&sheet[start..]),
                start,
                byte,
                entries: entries.collect(),
            });
            byte += count;
        }
        Look {
            places,
            chip: chip(sheet),
            kind: kind(sheet),
            width: sheet[end - 9],
            records,
            dead: wires(dead),
            ticket: call.ticket().unwrap_or(&[]),
            old: matches!(call, Call::Listed(Ask::Refit { .. } | Ask::Remove { .. })),
        }
    }

    fn first(&self, number: u32) -> Option<Place> {
        for (place, record) in self.records.iter().enumerate() {
            for entry in 0..record.entries.len() {
                if self.applies(number, place, entry) {
                    let at = record.start + self.places.entry(entry);
                    let offset = match number {
                        6 | 7 => at,
                        8 => at + 2,
                        9 => record.start,
                        _ => record.byte + entry,
                    };
                    return Some(Place {
                        record: Some(place),
                        entry: (number != 9).then_some(entry),
                        item: self.item(record, entry).filter(|_| number == 21),
                        offset: Some(offset),
                    });
                }
            }
        }
        None
    }

    fn applies(&self, number: u32, place: usize, entry: usize) -> bool {
        let record = &self.records[place];
        let (before, earlier) = (&self.records[..place], &record.entries[..entry]);
        let (channel, parent) = record.entries[entry];
        match number {
            6 => channel >= self.chip.channel_count() as usize,
            7 => earlier.iter().any(|other| other.0 == channel),
            8 if entry == 0 => parent != 65535,
            8 => parent >= entry || self.ends(channel, earlier[parent].0).is_none(),
            9 => before.iter().any(|other| other.number == record.number),
            11 => self.counts(record) && self.track(record, entry) >= self.width,
            12 => self.counts(record) && entry > 0 && self.apart(record, entry),
            21 => self.counts(record) && self.item(record, entry).is_some(),
            _ => self.counts(record) && before.iter().any(|other| self.clash(record, entry, other)),
        }
    }

    /// The ends of two channels in the box where they meet.
    fn ends(&self, one: usize, other: usize) -> Option<(End, End)> {
        self.chip.meeting_ends(one as u32, other as u32)
    }

    fn track(&self, record: &Record, entry: usize) -> u8 {
        self.ticket[record.byte + entry]
    }

    /// The item of the list that has the entry's wire, where that is below W.
    fn item(&self, record: &Record, entry: usize) -> Option<usize> {
        let track = *self.ticket.get(record.byte + entry)?;
        let wire = (record.entries[entry].0 as u16, track);
        let item = self.dead.iter().position(|dead| *dead == wire);
        item.filter(|_| track < self.width)
    }

    /// Whether the tests of a ticket look at this net.
    fn counts(&self, record: &Record) -> bool {
        let mut entries = 0..record.entries.len();
        !self.old || entries.any(|entry| self.track(record, entry) != 255)
    }

    /// Whether the tracks of an entry and its parent are no partners.
    fn apart(&self, record: &Record, entry: usize) -> bool {
        let (channel, parent) = record.entries[entry];
        let ends = self.ends(channel, record.entries[parent].0);
        let (own, other) = ends.expect("a joint's channels meet");
        let around = self.chip.channels_at(own.place).len();
        let end = |end: End, entry| (end.side, self.track(record, entry).into());
        let (one, two) = (end(own, entry), end(other, parent));
        !are_partners_in(around, self.kind, self.width.into(), one, two)
    }

    /// Whether another net that counts holds the entry's wire.
    fn clash(&self, record: &Record, entry: usize, other: &Record) -> bool {
        let (channel, track) = (record.entries[entry].0, self.track(record, entry));
        let mut entries = 0..other.entries.len();
        let holds = |at: usize| other.entries[at].0 == channel && self.track(other, at) == track;
        self.counts(other) && entries.any(holds)
    }
}
