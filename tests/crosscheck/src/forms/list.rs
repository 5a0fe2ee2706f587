//! The list by hand for Standard: sheets with their forms, in outputs of several
//! lengths, and the fixed refusals.

use crate::board::Board;
use crate::call::Call;
use crate::item::{Item, List};
use sheets::paper::{same_channel, t_raw};
use sheets::raw::ROOT;
use sheets::{extremes, forms, marks, refusals, row_forms, Mark, Raw, Record, Spread, Told};

/// A call of Standard, and what is told of it: as of Remove, the number and the
/// bytes written.
pub struct Line {
    name: String,
    sheet: Vec<u8>,
    room: usize,
    told: Told,
}

impl Line {
    fn new(name: &str, sheet: &[u8], room: usize, number: u32, written: &[u8]) -> Self {
        Line {
            name: format!("standard form, {name}, output of {room}"),
            sheet: sheet.to_vec(),
            room,
            told: Told::Ticket {
                number,
                written: written.to_vec(),
            },
        }
    }

    fn refused(name: &str, sheet: &[u8], room: usize, number: u32) -> Self {
        Line::new(name, sheet, room, number, &[])
    }

    pub fn item(&self) -> Item<'_> {
        let room = self.room;
        Item {
            list: List::Forms,
            name: &self.name,
            board: Board::from(&self.sheet),
            call: Call::Standard { room },
            told: &self.told,
        }
    }
}

/// Every fixed refusal with a short output and with one that is long enough: the
/// sheet's number comes before 14.
pub fn refused() -> Vec<Line> {
    let mut all = Vec::new();
    for (place, fault) in refusals::faults().iter().enumerate() {
        let length = fault.sheet.len().min(9000);
        let short = [0, 6, length.saturating_sub(1)][place % 3];
        let enough = length + [0, 7][place % 2];
        let line = |room| Line::refused(&fault.name, &fault.sheet, room, fault.number);
        all.extend([short, enough].map(line));
    }
    all
}

/// The forms worked out by hand: 14 with outputs that are too short, of which one
/// has room for the entry count.
pub fn formed() -> Vec<Line> {
    let mut all = Vec::new();
    let mut by_hand = by_hand();
    by_hand.extend(under_the_second_mark(&by_hand));
    for (name, sheet, form) in &by_hand {
        let entries: usize = sheet.records.iter().map(|r| r.entries.len()).sum();
        let (sheet, form) = (sheet.bytes(), form.bytes());
        let length = sheet.len();
        let enough = [length, length + 1, length + 57];
        all.extend(enough.map(|room| Line::new(name, &sheet, room, 0, &form)));
        let short = [0, entries, length - 12, length - 1];
        all.extend(short.map(|room| Line::refused(name, &sheet, room, 14)));
        all.push(Line::new(name, &form, length, 0, &form));
    }
    for (name, sheet, form) in by_bytes() {
        let length = sheet.len();
        let enough = [length, length + 57];
        all.extend(enough.map(|room| Line::new(&name, &sheet, room, 0, &form)));
        let short = [0, length - 24, length - 12, length - 1];
        all.extend(short.map(|room| Line::refused(&name, &sheet, room, 14)));
        all.push(Line::new(&name, &form, length, 0, &form));
    }
    all
}

/// Name, sheet and form in bytes: kind 3, also under the second mark with numbers in
/// the same order, and nets that rise by both halves of their numbers.
fn by_bytes() -> Vec<(String, Vec<u8>, Vec<u8>)> {
    let mut all = vec![(
        "halves".to_string(),
        marks::HALVES.to_vec(),
        marks::HALVES_FORM.to_vec(),
    )];
    for formed in row_forms::formed() {
        let long = |bytes: &[u8]| Raw::read(bytes).expect("a sheet").spread(Spread::High);
        let name = format!("{}{}", formed.name, Mark::Long.tag());
        all.push((
            name,
            long(&formed.sheet).bytes(),
            long(&formed.form).bytes(),
        ));
        all.push((formed.name.to_string(), formed.sheet, formed.form));
    }
    all
}

/// The same sheets and forms with their numbers spread, which keeps their order.
fn under_the_second_mark(short: &[(String, Raw, Raw)]) -> Vec<(String, Raw, Raw)> {
    let spreads = [Spread::Same].into_iter().chain(Spread::FAR);
    let each = |spread: Spread| {
        let long = move |(name, sheet, form): &(String, Raw, Raw)| {
            let [sheet, form] = [sheet, form].map(|raw| raw.clone().spread(spread));
            (format!("{name}, {spread:?}"), sheet, form)
        };
        short.iter().map(long)
    };
    spreads.flat_map(each).collect()
}

/// Name, sheet and form.
fn by_hand() -> Vec<(String, Raw, Raw)> {
    let none = || Raw::new(16, 2, 1, 31, Vec::new());
    let turned = vec![
        Record::new(3, &[(5, ROOT), (0, 0)]),
        Record::new(1, &[(0, ROOT), (1, 0)]),
        Record::new(2, &[(5, ROOT), (1, 0)]),
    ];
    let mut ends = same_channel(2, 0, 2);
    ends.records[0].number = 65535;
    ends.records[1].number = 0;
    let mut rising = ends.clone();
    rising.records.reverse();
    let (longest, from_home) = longest();
    let all = [
        ("T", t_raw(0, 2), t_raw(0, 2)),
        ("T turned", Raw::new(3, 2, 0, 2, turned), t_raw(0, 2)),
        ("example", forms::example(), example_form()),
        ("one box", one_box(), one_box_form()),
        ("no nets", none(), none()),
        ("numbers 65535 and 0", ends, rising),
        ("longest", longest, from_home),
    ];
    let named = |(name, sheet, form): (&str, Raw, Raw)| (name.to_string(), sheet, form);
    all.map(named).into()
}

/// Net 300 of the example: home 0; then 6 and 7 on it, 3 on 7, 9 on 6, 2 and 4
/// on 9, and 11 on 3.
fn example_form() -> Raw {
    let branching = [
        (0, ROOT),
        (6, 0),
        (7, 0),
        (3, 2),
        (9, 1),
        (2, 4),
        (4, 4),
        (11, 3),
    ];
    let records = vec![
        Record::new(7, &[(1, ROOT), (8, 0)]),
        Record::new(300, &branching),
        Record::new(512, &[(5, ROOT)]),
    ];
    Raw::new(3, 3, 1, 4, records)
}

/// Four channels of one box: each meets all others. Net 9 has the joints 10-2,
/// 10-3 and 10-7, net 8 has 2-10, 10-3 and 3-7.
fn one_box() -> Raw {
    let records = vec![
        Record::new(9, &[(10, ROOT), (7, 0), (3, 0), (2, 0)]),
        Record::new(8, &[(7, ROOT), (3, 0), (10, 1), (2, 2)]),
    ];
    Raw::new(3, 3, 2, 5, records)
}

fn one_box_form() -> Raw {
    let records = vec![
        Record::new(8, &[(2, ROOT), (10, 0), (3, 1), (7, 2)]),
        Record::new(9, &[(2, ROOT), (10, 0), (3, 1), (7, 1)]),
    ];
    Raw::new(3, 3, 2, 5, records)
}

/// 64 nets in falling number, of 32 channels in a row whose last one, 1, is the
/// lowest: from there one channel at a time is open.
fn longest() -> (Raw, Raw) {
    let design = extremes::alike(64, 32, 2, 32);
    let mut sheet = design.list();
    sheet.records.reverse();
    let row = design.nets[0].channels.iter().rev();
    let parents = [ROOT].into_iter().chain(0..31);
    let entries: Vec<(u16, u16)> = row.copied().zip(parents).collect();
    let records = (1..=64).map(|number| Record::new(number, &entries));
    (sheet, Raw::new(16, 16, 2, 32, records.collect()))
}
