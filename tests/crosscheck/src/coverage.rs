//! How often each call gave each number under each mark, and what no call gave.

pub mod dead;
pub mod marks;
pub mod removes;
pub mod rims;
pub mod rows;
pub mod standards;
#[cfg(test)]
mod tests;

use crate::board::Board;
use crate::call::Call;
use crate::outcome::Outcome;
use sheets::Mark;
use std::collections::BTreeMap;

type Counts<Key> = BTreeMap<Key, u64>;

/// What the calls gave, apart by the mark that the sheet ends in.
#[derive(Default)]
pub struct Coverage {
    short: Seen,
    long: Seen,
    /// On sheets that end in neither mark.
    neither: Seen,
}

#[derive(Default)]
struct Seen {
    numbers: BTreeMap<&'static str, Counts<u32>>,
    /// Refits by the number of nets they moved.
    moved: Counts<u32>,
    /// Answers "unroutable" that took trials, by call.
    unroutable: Counts<&'static str>,
    /// Calls by what they showed of Remove, of Standard, of kind 3, of the rim, of
    /// dead wires and of long net numbers.
    kinds: Counts<(&'static str, &'static str)>,
    /// Searches of kind 3 by call and width.
    searched: BTreeMap<&'static str, Counts<u32>>,
    /// Calls by the length of the sheet, near the limits.
    lengths: Counts<usize>,
}

/// The numbers each call can give; Record's are those of `number`.
const NUMBERS: [(&str, &[u32]); 8] = [
    ("read", &[0, 1, 2, 3, 4, 5, 18, 6, 7, 8, 9]),
    ("record", &[0, 1]),
    (
        "check",
        &[0, 1, 2, 3, 4, 5, 18, 6, 7, 8, 9, 19, 20, 10, 11, 12, 21, 13],
    ),
    (
        "route",
        &[0, 1, 2, 3, 4, 5, 18, 6, 7, 8, 9, 19, 20, 14, 15, 16],
    ),
    (
        "least",
        &[0, 1, 2, 3, 4, 5, 18, 6, 7, 8, 9, 19, 20, 14, 15, 16],
    ),
    (
        "refit",
        &[
            0, 1, 2, 3, 4, 5, 18, 6, 7, 8, 9, 19, 20, 10, 11, 12, 21, 13, 14, 15, 16,
        ],
    ),
    (
        "remove",
        &[0, 1, 2, 3, 4, 5, 18, 6, 7, 8, 9, 10, 11, 12, 13, 17, 14],
    ),
    ("standard", &[0, 1, 2, 3, 4, 5, 18, 6, 7, 8, 9, 14]),
];

/// How often each of these must be given under each mark.
const FEWEST: u64 = 20;

const MOVED: [u32; 3] = [1, 2, 3];
const SEARCHES: [&str; 3] = ["route", "least", "refit"];
const WIDTHS: std::ops::RangeInclusive<u32> = 1..=32;

/// The outcome's number; an empty part counts as 1, as no record is empty.
fn number(outcome: &Outcome) -> u32 {
    outcome.number().unwrap_or(match outcome {
        Outcome::Part { length: 0, .. } => 1,
        _ => 0,
    })
}

impl Coverage {
    fn of(&mut self, sheet: &[u8]) -> &mut Seen {
        match Mark::of(sheet) {
            Some(Mark::Short) => &mut self.short,
            Some(Mark::Long) => &mut self.long,
            None => &mut self.neither,
        }
    }

    pub fn note(&mut self, sheet: &[u8], call: &'static str, outcome: &Outcome) {
        self.of(sheet).note(call, outcome);
    }

    /// Notes what a call shows by itself of Remove, of Standard, of kind 3, of the rim,
    /// of dead wires and of long net numbers.
    pub fn note_kinds(&mut self, board: Board, call: Call, outcome: &Outcome) {
        let sheet = board.sheet;
        let of_mark = self.of(sheet);
        for kind in removes::kinds(sheet, call, outcome) {
            of_mark.see("remove", kind);
        }
        for kind in standards::kinds(sheet, call, outcome) {
            of_mark.see("standard", kind);
        }
        for kind in rows::kinds(sheet, call, outcome) {
            of_mark.see(call.name(), kind);
        }
        for kind in rims::kinds(sheet, call, outcome) {
            of_mark.see(call.name(), kind);
        }
        for kind in dead::kinds(board, call, outcome) {
            of_mark.see(call.name(), kind);
        }
        for kind in marks::kinds(sheet, call, outcome) {
            of_mark.see(call.name(), kind);
        }
        if let Some(width) = rows::width(sheet, call, outcome) {
            of_mark.search(call.name(), width);
        }
        if let Some(length) = marks::length(sheet, outcome) {
            *of_mark.lengths.entry(length).or_default() += 1;
        }
    }

    /// Notes one of the kinds of a call on a sheet.
    pub fn see(&mut self, sheet: &[u8], call: &'static str, kind: &'static str) {
        self.of(sheet).see(call, kind);
    }

    /// What a whole run must have seen and this one has not, a line each.
    pub fn missing(&self) -> Vec<String> {
        let mut missing = self.short.missing(Mark::Short);
        let long = self.long.missing(Mark::Long).into_iter();
        missing.extend(long.map(|line| line + Mark::Long.tag()));
        missing
    }

    /// Drops one of the things that a whole run must have seen.
    pub fn forget(&mut self, what: &str) {
        let Coverage { short, long, .. } = self;
        match what {
            "number" => drop(short.numbers.entry("refit").or_default().remove(&13)),
            "moved" => drop(short.moved.remove(&3)),
            "removed" => drop(short.kinds.remove(&("remove", removes::BACK))),
            "form" => drop(long.kinds.remove(&("standard", standards::RELISTED))),
            "rows" => drop(short.kinds.remove(&("record", rows::BEFORE_6))),
            "rim" => drop(short.kinds.remove(&("least", rims::PASSED[2][0]))),
            "dead" => drop(long.kinds.remove(&("refit", dead::TICKET[2]))),
            "list" => drop(short.numbers.entry("route").or_default().remove(&20)),
            "width" => drop(short.searched.entry("least").or_default().remove(&17)),
            "mark" => drop(long.numbers.entry("least").or_default().remove(&9)),
            "edge" => drop(long.kinds.remove(&("remove", marks::TAKEN[3]))),
            "halves" => drop(long.kinds.remove(&("check", marks::LOW))),
            "twin" => drop(short.kinds.remove(&("refit", marks::TWIN))),
            "length" => drop(long.lengths.remove(&8728)),
            _ => drop(short.unroutable.remove("least")),
        }
    }

    pub fn print(&self) {
        println!("sheets marked 57 48");
        self.short.print();
        println!("sheets marked 57 49");
        self.long.print();
        println!("sheets with neither mark");
        self.neither.print();
    }
}

impl Seen {
    fn note(&mut self, call: &'static str, outcome: &Outcome) {
        let number = number(outcome);
        let numbers = self.numbers.entry(call).or_default();
        *numbers.entry(number).or_default() += 1;
        if let Outcome::Answer { answer, .. } = outcome {
            if call == "refit" && number == 0 {
                *self.moved.entry(answer.moved).or_default() += 1;
            }
            if number == 15 && answer.trials > 0 {
                *self.unroutable.entry(call).or_default() += 1;
            }
        }
    }

    /// Notes a search of kind 3 at a width.
    fn search(&mut self, call: &'static str, width: u32) {
        let widths = self.searched.entry(call).or_default();
        *widths.entry(width).or_default() += 1;
    }

    fn see(&mut self, call: &'static str, kind: &'static str) {
        *self.kinds.entry((call, kind)).or_default() += 1;
    }

    fn missing(&self, mark: Mark) -> Vec<String> {
        let mut missing = Vec::new();
        for (call, numbers) in NUMBERS {
            let given = |number| self.numbers.get(call).and_then(|all| all.get(number));
            let lacking = numbers
                .iter()
                .filter(|number| given(number).is_none_or(|count| *count < FEWEST));
            missing.extend(lacking.map(|number| match (call, number) {
                ("record", 0) => format!("fewer than {FEWEST} records showed a part"),
                ("record", _) => format!("fewer than {FEWEST} records were empty"),
                _ => format!("fewer than {FEWEST} of {call} gave {number}"),
            }));
        }
        let lacking = MOVED.iter().filter(|moved| !self.moved.contains_key(moved));
        missing.extend(lacking.map(|moved| format!("no refit moved {moved}")));
        let lacking = SEARCHES
            .iter()
            .filter(|call| !self.unroutable.contains_key(*call));
        missing.extend(lacking.map(|call| format!("no {call} was unroutable after trials")));
        for (call, kind, fewest) in kinds(mark) {
            let count = self.kinds.get(&(call, kind)).copied().unwrap_or(0);
            if count < fewest {
                missing.push(lacks(call, kind, fewest));
            }
        }
        for call in SEARCHES {
            let widths = self.searched.get(call);
            let lacks = |width: &u32| widths.is_none_or(|widths| !widths.contains_key(width));
            let line = |width| format!("no {call} searched kind 3 at width {width}");
            missing.extend(WIDTHS.filter(lacks).map(line));
        }
        let seen = |length: &usize| self.lengths.get(length).copied().unwrap_or(0);
        let lacking = marks::LENGTHS.filter(|length| seen(length) < marks::CALLS_OF_LENGTH);
        missing.extend(lacking.map(|length| {
            let fewest = marks::CALLS_OF_LENGTH;
            format!("fewer than {fewest} calls on sheets of {length} bytes")
        }));
        missing
    }

    fn print(&self) {
        for (call, numbers) in &self.numbers {
            println!("  {call}: {}", pairs(numbers));
        }
        println!("  refit by nets moved: {}", pairs(&self.moved));
        println!("  unroutable after trials: {}", pairs(&self.unroutable));
        for ((call, kind), count) in &self.kinds {
            println!("  {call} {kind}: {count}");
        }
        for (call, widths) in &self.searched {
            println!("  {call} of kind 3 by width: {}", pairs(widths));
        }
        let fewest = self.lengths.values().min().unwrap_or(&0);
        println!(
            "  lengths near the limits: {}, the rarest in {fewest} calls",
            self.lengths.len()
        );
    }
}

fn lacks(call: &str, kind: &str, fewest: u64) -> String {
    match fewest {
        1 => format!("no {call} {kind}"),
        _ => format!("fewer than {fewest} of {call} {kind}"),
    }
}

/// All that is to be seen under a mark of Remove, of Standard, of kind 3, of the rim
/// and of dead wires, and of long net numbers, with the call's name and how often.
fn kinds(mark: Mark) -> impl Iterator<Item = (&'static str, &'static str, u64)> {
    let of_standard = standards::KINDS.into_iter().chain(standards::SHORT);
    let removes = removes::KINDS.map(|kind| ("remove", kind));
    let once = removes
        .into_iter()
        .chain(of_standard.map(|kind| ("standard", kind)))
        .chain(rows::all())
        .chain(rims::all())
        .chain(dead::all());
    once.map(|(call, kind)| (call, kind, 1))
        .chain(marks::all(mark))
}

fn pairs<Key: std::fmt::Display>(counts: &Counts<Key>) -> String {
    let texts: Vec<String> = counts
        .iter()
        .map(|(k, n)| format!("{k}\u{d7}{n}"))
        .collect();
    texts.join(" ")
}
