//! The tables of a search, prepared once from a sheet's bytes: per entry the
//! channel, and sign and shift composed from the home track along the tree; per
//! home track, where each sign and shift takes it.
#![forbid(unsafe_code)]

use crate::grid::{Grid, Turn};
use trackrouter::{Refusal, Routed};

/// No sheet has more nets.
pub const NETS: usize = 64;

/// An output of this length is enough for every sheet.
pub const ROOM: usize = 32 * NETS;

/// How a net's home track gives its track in one channel.
#[derive(Clone, Copy)]
pub struct Entry {
    pub channel: u16,
    /// The shift, and 32 more where the sign is minus.
    turn: u8,
}

impl Entry {
    fn new(channel: usize, turn: Turn, width: u32) -> Entry {
        let shift = turn.shift.rem_euclid(width as i32) as u8;
        Entry {
            channel: channel as u16,
            turn: shift + 32 * u8::from(turn.flips),
        }
    }

    /// The track for the home track of that row.
    #[inline(always)]
    pub fn track(self, row: &Row) -> u8 {
        row[usize::from(self.turn & 63)]
    }
}

/// For one home track, the track that each turn takes it to.
pub type Row = [u8; 64];

/// The rows of a width. A search makes the same few turns many times.
fn rows(width: u32) -> [Row; 32] {
    let mut rows = [[0; 64]; 32];
    for (home, row) in (0..width).zip(&mut rows) {
        let (plus, minus) = row.split_at_mut(32);
        for (shift, (plus, minus)) in (0..width).zip(plus.iter_mut().zip(minus)) {
            *plus = ((shift + home) % width) as u8;
            *minus = ((shift + width - home) % width) as u8;
        }
    }
    rows
}

pub struct Tables {
    pub width: u32,
    rows: [Row; 32],
    /// How many nets there are.
    pub nets: usize,
    /// All entries, nets in rising net number.
    entries: Vec<Entry>,
    /// Where each net's entries start, and at last where all end.
    start: [usize; NETS + 1],
    /// Where each net's bytes start in the ticket.
    first: Vec<usize>,
}

/// How a search ends.
pub enum Ended {
    Found { trials: u32, homes: [u8; NETS] },
    Exhausted { trials: u32 },
    Spent,
}

impl Tables {
    /// From a good sheet.
    pub fn prepare(sheet: &[u8]) -> Tables {
        let trailer = &sheet[sheet.len() - 12..];
        let grid = Grid {
            cols: trailer[0].into(),
            rows: trailer[1].into(),
        };
        let (kind, width) = (trailer[2], u32::from(trailer[3]));
        let (nets, directory) = (word(trailer, 4), word(trailer, 6));

        let mut order = Vec::with_capacity(nets);
        let mut byte = 0;
        for place in 0..nets {
            let record = &sheet[word(sheet, directory + 2 * place)..];
            order.push((word(record, 0), record, byte));
            byte += word(record, 2);
        }
        order.sort_by_key(|&(number, _, _)| number);

        let mut tables = Tables {
            width,
            rows: rows(width),
            nets,
            entries: Vec::with_capacity(byte),
            start: [0; NETS + 1],
            first: Vec::with_capacity(nets),
        };
        for (place, (_, record, byte)) in order.into_iter().enumerate() {
            let count = word(record, 2);
            let entries = &record[4..4 + 4 * count];
            tables.add_net(grid, kind, entries);
            tables.start[place + 1] = tables.entries.len();
            tables.first.push(byte);
        }
        tables
    }

    /// Composes the turns from the first entry down, then starts from the home.
    fn add_net(&mut self, grid: Grid, kind: u8, bytes: &[u8]) {
        let entries: Vec<(usize, usize)> = bytes
            .chunks(4)
            .map(|entry| (word(entry, 0), word(entry, 2)))
            .collect();
        let mut turns = vec![Turn::STAY];
        for &(channel, parent) in &entries[1..] {
            let turn = grid.turn(kind, entries[parent].0, channel);
            turns.push(turns[parent].then(turn.expect("a joint")));
        }
        let home = (0..entries.len())
            .min_by_key(|&place| entries[place].0)
            .expect("an entry");
        for (&(channel, _), &down) in entries.iter().zip(&turns) {
            let turn = turns[home].back().then(down);
            self.entries.push(Entry::new(channel, turn, self.width));
        }
    }

    /// The entries of a net, by its place in rising net number.
    #[inline(always)]
    pub fn net(&self, place: usize) -> &[Entry] {
        &self.entries[self.start[place]..self.start[place + 1]]
    }

    #[inline(always)]
    pub fn row(&self, home: u32) -> &Row {
        &self.rows[home as usize % 32]
    }

    pub fn entries(&self) -> usize {
        self.entries.len()
    }

    fn write(&self, homes: &[u8; NETS], out: &mut [u8]) {
        for place in 0..self.nets {
            let row = self.row(homes[place].into());
            for (byte, entry) in out[self.first[place]..].iter_mut().zip(self.net(place)) {
                *byte = entry.track(row);
            }
        }
    }
}

/// What Route, Least and Refit answer on success, beside the ticket in the output.
#[derive(Clone, Copy, Debug, PartialEq, Eq)]
pub struct Found {
    pub width: u32,
    pub trials: u32,
    pub moved: u32,
}

pub type Answer = Result<Found, Refusal>;

/// The library's answer.
pub fn answer(given: Result<Routed, Refusal>) -> Answer {
    given.map(|routed| Found {
        width: routed.width,
        trials: routed.trials,
        moved: routed.moved,
    })
}

/// Route by a search: reads, prepares, searches, writes.
pub fn route(
    search: fn(&Tables, u32) -> Ended,
    sheet: &[u8],
    budget: u32,
    out: &mut [u8],
) -> Answer {
    let tables = Tables::prepare(sheet);
    let refuse = |number, trials| Err(Refusal { number, trials });
    match search(&tables, budget) {
        Ended::Found { trials, homes } => {
            tables.write(&homes, out);
            Ok(Found {
                width: tables.width,
                trials,
                moved: 0,
            })
        }
        Ended::Exhausted { trials } => refuse(15, trials),
        Ended::Spent => refuse(16, budget),
    }
}

/// The number at a place, low byte first.
pub fn word(bytes: &[u8], at: usize) -> usize {
    usize::from(u16::from_le_bytes([bytes[at], bytes[at + 1]]))
}
