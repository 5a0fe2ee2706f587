//! The model made wrong under dead wires alone (02 M-105): wrong programs that a
//! reader of the request might write.

use super::Wrong;
use crate::board::Board;
use crate::by_model;
use crate::call::Call;
use crate::outcome::Outcome;
use model::lay::lays;
use model::sheet::{parse, Sheet};
use sheets::dead::{list, wires, Wire};
use sheets::{Answer, Ask};
use std::collections::BTreeSet;

pub const FIELDS: [&str; 18] = [
    // The list is kept out of that call.
    "check", "route", "least", "refit", // Bytes left over are cut off.
    "half",  // 20 for items side by side alone, and for wires below W alone.
    "beside", "low", // 19 for tracks from W on, and for channels from 480 on alone.
    "width", "chip", // 21 after 13.
    "late",
    // The nets against W in the overload test, and less all items of the channel.
    "load", "lost",  // Least with the items below W at all widths.
    "fixed", // Of a track only the home wire is tested; a dead home track is no trial.
    "home", "skip",
    // What is told of the list by hand, what another order gives, and what more items
    // at or above W give.
    "list", "order", "above",
];

impl Wrong {
    /// The list that the model reads instead.
    pub fn misread_list(&self, call: Call, board: Board) -> Option<Vec<u8>> {
        if self.call != "dead" || board.dead.is_empty() {
            return None;
        }
        let end = board.sheet.len().checked_sub(12)?;
        let [a, b] = [0, 1].map(|place| u16::from(board.sheet[end + place].clamp(2, 16)));
        let channels = b * (a - 1) + a * (b - 1);
        let (width, dead) = (board.sheet[end + 3], board.dead);
        let kept = |keep: &dyn Fn(usize, &[Wire]) -> bool| {
            let items = wires(dead);
            let kept = (0..items.len()).filter(|&place| keep(place, &items));
            let kept: Vec<Wire> = kept.map(|place| items[place]).collect();
            [&list(&kept), &dead[3 * items.len()..]].concat()
        };
        let is_again = |place: usize, items: &[Wire]| items[..place].contains(&items[place]);
        Some(match &*self.field {
            field if field == call.name() => Vec::new(),
            "half" => dead[..dead.len() - dead.len() % 3].to_vec(),
            "beside" => {
                kept(&|place, items| !is_again(place, items) || items[place - 1] == items[place])
            }
            "low" => kept(&|place, items| !is_again(place, items) || items[place].1 < width),
            "width" => {
                let over = |wire: Wire| (wire.0, if wire.1 >= width { 32 } else { wire.1 });
                let items: Vec<Wire> = wires(dead).into_iter().map(over).collect();
                [&list(&items), &dead[3 * items.len()..]].concat()
            }
            "chip" => kept(&|place, items| !(channels..480).contains(&items[place].0)),
            "fixed" if call.name() == "least" && is_good(board) => {
                kept(&|place, items| items[place].1 < width)
            }
            _ => return None,
        })
    }

    /// What a program would give that is wrong otherwise than in reading its list.
    pub fn by_list(&self, board: Board, call: Call, before: &[u8]) -> Option<Outcome> {
        if self.call != "dead" || !is_good(board) {
            return None;
        }
        let right = || by_model::ask(board, call, before);
        match (&*self.field, call) {
            ("late", Call::Listed(Ask::Check { .. } | Ask::Refit { .. })) => {
                let without = by_model::ask(Board::from(board.sheet), call, before);
                (right().number() == Some(21) && without.number() == Some(13)).then_some(without)
            }
            ("lost", Call::Listed(Ask::Route { .. } | Ask::Refit { .. })) => {
                let searched = matches!(right().number(), Some(0 | 15 | 16));
                let sheet = parse(board.sheet).ok()?;
                (searched && loses(&sheet, &wires(board.dead))).then(|| Outcome::Answer {
                    answer: Answer::refused(15, 0),
                    output: before.to_vec(),
                })
            }
            ("load" | "home" | "skip", Call::Listed(Ask::Route { budget, .. })) => {
                let refused = !matches!(right().number(), Some(0 | 15 | 16));
                let sheet = parse(board.sheet).ok()?;
                let overloaded = match &*self.field {
                    "load" => sheet.load() > sheet.width,
                    _ => right().answer().0.trials == 0,
                };
                (!refused && !overloaded && !sheet.nets.is_empty()).then(|| {
                    let search = Search::new(&sheet, board.dead, &self.field);
                    search.run(*budget, before)
                })
            }
            _ => None,
        }
    }

    /// Changes what a list in another order, or with more items at or above W, gives.
    pub fn spoil_order(&self, field: &str, outcome: &mut Outcome) {
        if self.is("dead", field) {
            self.spoil_field(outcome);
        }
    }
}

/// Whether the list is neither empty nor refused; also of a sheet that is.
fn is_good(board: Board) -> bool {
    let number = model::check(board.sheet, board.dead, &[]);
    !board.dead.is_empty() && number != 19 && number != 20
}

/// Whether a channel has more nets than W less all its items.
fn loses(sheet: &Sheet, dead: &[Wire]) -> bool {
    let channels = 0..sheet.chip.channel_count();
    let mut loads = channels.map(|channel| {
        let nets = sheet.nets.iter();
        let nets = nets.filter(|net| net.channels.contains(&channel)).count();
        let items = dead.iter().filter(|wire| u32::from(wire.0) == channel);
        (nets, items.count())
    });
    loads.any(|(nets, items)| nets > 0 && nets + items > sheet.width as usize)
}

/// A net's wires by home track, and where its home stands among them.
type Ways = (usize, Vec<Vec<(u32, u8)>>);

/// The plain search at W, wrong in one thing.
struct Search<'a> {
    sheet: &'a Sheet,
    dead: BTreeSet<(u32, u8)>,
    /// In rising net number.
    nets: Vec<Ways>,
    home_alone: bool,
    skips: bool,
}

impl<'a> Search<'a> {
    fn new(sheet: &'a Sheet, dead: &[u8], field: &str) -> Self {
        let wires_of = |place: usize| {
            let net = &sheet.nets[place];
            let wires = |tracks: Vec<u8>| net.channels.iter().copied().zip(tracks).collect();
            let ways = lays(sheet, sheet.width, net).into_iter().map(wires);
            (net.home(), ways.collect())
        };
        let dead = wires(dead).into_iter();
        Search {
            sheet,
            dead: dead
                .map(|(channel, track)| (channel.into(), track))
                .collect(),
            nets: sheet.rising().into_iter().map(wires_of).collect(),
            home_alone: field == "home",
            skips: field == "skip",
        }
    }

    fn fits(&self, placed: &[usize], track: usize) -> bool {
        let (home, ways) = &self.nets[placed.len()];
        let wires = &ways[track];
        let holds = |net: usize, wire| self.nets[net].1[placed[net]].contains(wire);
        let held = |wire| (0..placed.len()).any(|net| holds(net, wire));
        let tested = match self.home_alone {
            true => &wires[*home..=*home],
            false => &wires[..],
        };
        !tested.iter().any(|wire| self.dead.contains(wire)) && !wires.iter().any(held)
    }

    fn run(&self, budget: u32, before: &[u8]) -> Outcome {
        let (mut placed, mut track, mut trials) = (Vec::new(), 0, 0);
        let given_up = |number, trials| Outcome::Answer {
            answer: Answer::refused(number, trials),
            output: before.to_vec(),
        };
        while placed.len() < self.nets.len() {
            let (home, ways) = &self.nets[placed.len()];
            let Some(wires) = ways.get(track) else {
                match placed.pop() {
                    Some(last) => track = last + 1,
                    None => return given_up(15, trials),
                }
                continue;
            };
            if self.skips && self.dead.contains(&wires[*home]) {
                track += 1;
                continue;
            }
            if trials == budget {
                return given_up(16, trials);
            }
            trials += 1;
            if self.fits(&placed, track) {
                placed.push(track);
                track = 0;
            } else {
                track += 1;
            }
        }
        self.found(&placed, trials, before)
    }

    fn found(&self, placed: &[usize], trials: u32, before: &[u8]) -> Outcome {
        let mut output = before.to_vec();
        for (rank, place) in self.sheet.rising().into_iter().enumerate() {
            let tracks = self.nets[rank].1[placed[rank]].iter().map(|wire| wire.1);
            let first = self.sheet.nets[place].first;
            let bytes = output[first..].iter_mut().zip(tracks);
            bytes.for_each(|(byte, track)| *byte = track);
        }
        let answer = Answer {
            number: 0,
            width: self.sheet.width,
            trials,
            moved: 0,
        };
        Outcome::Answer { answer, output }
    }
}

#[cfg(test)]
mod tests;
