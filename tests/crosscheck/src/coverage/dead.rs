//! What a whole run must have seen of dead wires.

#[cfg(test)]
mod tests;

use crate::board::Board;
use crate::call::Call;
use crate::outcome::Outcome;
use model::lay::lays;
use model::sheet::{parse, Net, Sheet};
use model::ticket::{bytes_of, is_unplaced};
use sheets::dead::{wires, Wire};
use sheets::Ask;
use std::collections::BTreeSet;

/// The calls that take a list.
pub const CALLS: [&str; 4] = ["check", "route", "least", "refit"];

// Lists under which a call succeeded. The width is the one in use.
pub const ONE: &str = "succeeded under one dead wire";
pub const MOST: &str = "succeeded with more dead wires than whole ones";
pub const CHANNEL: &str = "succeeded beside a channel that is all dead";
pub const ABOVE: &str = "succeeded under dead wires at or above the width alone";

// What 19 and 20 were for, and for nothing else.
pub const HALF: &str = "gave 19 for bytes left over";
pub const CHIP: &str = "gave 19 for a channel that larger chips have";
pub const TRACK: &str = "gave 19 for a track over 31";
pub const APART: &str = "gave 20 for items that are not side by side";
pub const HIGH: &str = "gave 20 for a wire at or above W";

// The order of the numbers.
pub const BOTH: &str = "gave 19 beside 20";
pub const NAME: [&str; 2] = ["gave 9 beside 19", "gave 9 beside 20"];
pub const ROW: [&str; 2] = ["gave 18 beside 19", "gave 18 beside 20"];
pub const SIZE: [&str; 2] = ["gave 19 beside 10", "gave 20 beside 10"];
pub const SPACE: [&str; 2] = ["gave 19 beside 14", "gave 20 beside 14"];
pub const TICKET: [&str; 3] = [
    "gave 11 beside 21",
    "gave 12 beside 21",
    "gave 21 beside 13",
];
pub const BROKEN_SPACE: &str = "gave 21 beside 14";

// Searches.
pub const LOST: &str = "gave 15 without a trial for lost tracks alone";
pub const HOME: &str = "passed over a track whose home wire is dead";
pub const AWAY: &str = "passed over a track that is dead away from home alone";
pub const WIDER: &str = "found a width with dead tracks at or above W";

// What the checks of `dead`, `relist` and `small` note, and the judge.
pub const ORDER: &str = "answered a list in another order alike";
pub const IGNORED: &str = "answered alike with more dead wires at or above W";
pub const CHANGED: &str = "answered otherwise than without dead wires";
pub const RELISTED: &str = "answered relistings under dead wires alike";
pub const FORMED: &str = "answered a standard form under dead wires alike";
pub const FORCE: &str = "gave what brute force settles under dead wires";
pub const TWIN: &str = "answered turns of kind 3 under dead wires as a published kind";
pub const FREED: &str = "took out a net on a dead wire, which Refit placed again";
pub const BACK: &str = "led back to the ticket before Refit under dead wires";

/// Call and kind of all of them.
pub fn all() -> Vec<(&'static str, &'static str)> {
    let mut all = Vec::new();
    for call in CALLS {
        let (tickets, searches) = (matches!(call, "check" | "refit"), call != "check");
        let mut add = |kinds: &[&'static str]| all.extend(kinds.iter().map(|kind| (call, *kind)));
        add(&[
            ONE, MOST, CHANNEL, ABOVE, HALF, CHIP, TRACK, APART, HIGH, BOTH,
        ]);
        add(&[NAME, ROW].concat());
        add(&[ORDER, CHANGED, RELISTED, FORMED, FORCE, TWIN]);
        if call != "least" {
            add(&[IGNORED]);
        }
        if tickets {
            add(&SIZE);
            add(&TICKET);
        }
        if searches {
            add(&SPACE);
            add(&[LOST, HOME, AWAY]);
        }
    }
    all.push(("refit", BROKEN_SPACE));
    all.push(("least", WIDER));
    all.extend([FREED, BACK].map(|kind| ("remove", kind)));
    all
}

/// Which of the first ones this call shows.
pub fn kinds(board: Board, call: Call, outcome: &Outcome) -> Vec<&'static str> {
    if board.dead.is_empty() || !call.takes_list() {
        return Vec::new();
    }
    let number = outcome.number().expect("a call with a list has a number");
    match number {
        9 | 18..=20 => of_list(board, call, number),
        _ => match parse(board.sheet) {
            Ok(sheet) => of_calls(&sheet, &wires(board.dead), call, outcome),
            Err(_) => Vec::new(),
        },
    }
}

/// What is wrong with a list for a chip.
struct Faults {
    half: bool,
    channel: bool,
    track: bool,
    repeated: Vec<Wire>,
    side_by_side: bool,
}

impl Faults {
    fn new(sheet: &[u8], dead: &[u8]) -> Self {
        let end = sheet.len() - 12;
        let (a, b) = (u16::from(sheet[end]), u16::from(sheet[end + 1]));
        let channels = b * (a - 1) + a * (b - 1);
        let items = wires(dead);
        let mut seen = BTreeSet::new();
        Faults {
            half: dead.len() % 3 > 0,
            channel: items.iter().any(|wire| wire.0 >= channels),
            track: items.iter().any(|wire| wire.1 > 31),
            side_by_side: items.windows(2).any(|two| two[0] == two[1]),
            repeated: items
                .into_iter()
                .filter(|wire| !seen.insert(*wire))
                .collect(),
        }
    }

    /// Whether 19 and 20 apply.
    fn apply(&self) -> [bool; 2] {
        [
            self.half || self.channel || self.track,
            !self.repeated.is_empty(),
        ]
    }
}

/// What a refusal shows that is given before 10.
fn of_list(board: Board, call: Call, number: u32) -> Vec<&'static str> {
    let faults = Faults::new(board.sheet, board.dead);
    let apply = faults.apply();
    let either = |kinds: [&'static str; 2]| {
        let of = kinds.into_iter().zip(apply);
        of.filter_map(|(kind, applies)| applies.then_some(kind))
    };
    match number {
        9 => return either(NAME).collect(),
        18 => return either(ROW).collect(),
        _ => {}
    }
    let Ok(sheet) = parse(board.sheet) else {
        return Vec::new();
    };
    let width = sheet.width as u8;
    let mut kinds = Vec::new();
    if number == 19 {
        let larger = wires(board.dead).iter().all(|wire| wire.0 < 480);
        kinds.extend(match (faults.half, faults.channel, faults.track) {
            (true, false, false) => Some(HALF),
            (false, true, false) if larger => Some(CHIP),
            (false, false, true) => Some(TRACK),
            _ => None,
        });
        kinds.extend(apply[1].then_some(BOTH));
    } else {
        kinds.extend((!faults.side_by_side).then_some(APART));
        let high = faults.repeated.iter().all(|wire| wire.1 >= width);
        kinds.extend(high.then_some(HIGH));
    }
    let place = (number - 19) as usize;
    let entries = sheet.entry_count();
    let size = call.ticket().is_some_and(|ticket| ticket.len() != entries);
    kinds.extend(size.then_some(SIZE[place]));
    let short = call.room().is_some_and(|room| room < entries);
    kinds.extend(short.then_some(SPACE[place]));
    kinds
}

/// What the outcome shows of a call with a good list.
fn of_calls(sheet: &Sheet, dead: &[Wire], call: Call, outcome: &Outcome) -> Vec<&'static str> {
    let number = outcome.number().expect("a number");
    let width = match outcome {
        Outcome::Answer { answer, .. } if number == 0 => answer.width,
        _ => sheet.width,
    };
    let mut kinds = Vec::new();
    match (number, outcome) {
        (0, _) => kinds.extend(of_success(sheet, dead, width)),
        (11 | 12 | 21, _) => kinds.extend(of_ticket(sheet, dead, call, number)),
        (15, Outcome::Answer { answer, .. }) => {
            let most = if call.name() == "least" {
                32
            } else {
                sheet.width
            };
            kinds.extend((answer.trials == 0 && sheet.load() <= most).then_some(LOST));
        }
        _ => {}
    }
    if let (0, Outcome::Answer { output, .. }) = (number, outcome) {
        kinds.extend(passed_over(sheet, dead, width, output));
        let above = |wire: &&Wire| (sheet.width..width).contains(&wire.1.into());
        let mut above = dead.iter().filter(above);
        let carried = |wire: &Wire| carries(sheet, wire.0);
        kinds.extend(above.any(carried).then_some(WIDER));
    }
    kinds
}

/// Whether a net runs through the channel.
fn carries(sheet: &Sheet, channel: u16) -> bool {
    let mut nets = sheet.nets.iter();
    nets.any(|net| net.channels.contains(&channel.into()))
}

/// What the list is like under which a call succeeded.
fn of_success(sheet: &Sheet, dead: &[Wire], width: u32) -> Vec<&'static str> {
    let low: Vec<&Wire> = dead
        .iter()
        .filter(|wire| u32::from(wire.1) < width)
        .collect();
    let used: BTreeSet<u32> = sheet
        .nets
        .iter()
        .flat_map(|net| net.channels.clone())
        .collect();
    let lost = |channel: u32| {
        low.iter()
            .filter(|wire| u32::from(wire.0) == channel)
            .count()
    };
    let lost_to_nets: usize = used.iter().map(|&channel| lost(channel)).sum();
    let mut kinds = Vec::new();
    kinds.extend((low.len() == 1 && lost_to_nets == 1).then_some(ONE));
    let all = used.len() * width as usize;
    kinds.extend((all > 0 && 2 * lost_to_nets > all).then_some(MOST));
    let channels: BTreeSet<u32> = low.iter().map(|wire| wire.0.into()).collect();
    let is_dead = |&channel: &u32| lost(channel) == width as usize;
    let net = !sheet.nets.is_empty();
    kinds.extend((net && channels.iter().any(is_dead)).then_some(CHANNEL));
    let carried = dead.iter().any(|wire| carries(sheet, wire.0));
    kinds.extend((low.is_empty() && carried).then_some(ABOVE));
    kinds
}

/// What a refusal of a ticket shows of 21 and its neighbours.
fn of_ticket(sheet: &Sheet, dead: &[Wire], call: Call, number: u32) -> Vec<&'static str> {
    let Call::Listed(ask @ (Ask::Check { ticket } | Ask::Refit { old: ticket, .. })) = call else {
        return Vec::new();
    };
    let old = matches!(ask, Ask::Refit { .. });
    let counts = |net: &&Net| !old || !is_unplaced(net, ticket);
    let nets: Vec<&Net> = sheet.nets.iter().filter(counts).collect();
    let held = |net: &Net| -> Vec<Wire> {
        let tracks = bytes_of(net, ticket).iter();
        let channels = net.channels.iter().map(|&channel| channel as u16);
        channels.zip(tracks.copied()).collect()
    };
    let all: Vec<Wire> = nets.iter().flat_map(|net| held(net)).collect();
    let broken = |wire: &Wire| u32::from(wire.1) < sheet.width && dead.contains(wire);
    let different: BTreeSet<&Wire> = all.iter().collect();
    let mut kinds = Vec::new();
    match number {
        11 if all.iter().any(broken) => kinds.push(TICKET[0]),
        12 if all.iter().any(broken) => kinds.push(TICKET[1]),
        21 if different.len() < all.len() => kinds.push(TICKET[2]),
        _ => {}
    }
    let short = ask.room().is_some_and(|room| room < sheet.entry_count());
    kinds.extend((number == 21 && short).then_some(BROKEN_SPACE));
    kinds
}

/// Whether a net found lower tracks than its own dead; of small sheets alone.
fn passed_over(sheet: &Sheet, dead: &[Wire], width: u32, output: &[u8]) -> Vec<&'static str> {
    let mut kinds = BTreeSet::new();
    if sheet.entry_count() > 60 {
        return Vec::new();
    }
    let dead: BTreeSet<(u32, u8)> = dead.iter().map(|&(c, track)| (c.into(), track)).collect();
    for net in &sheet.nets {
        let home = net.home();
        let own = bytes_of(net, output)[home];
        for way in &lays(sheet, width, net)[..usize::from(own)] {
            let wires: Vec<(u32, u8)> = net.channels.iter().copied().zip(way.clone()).collect();
            if dead.contains(&wires[home]) {
                kinds.insert(HOME);
            } else if wires.iter().any(|wire| dead.contains(wire)) {
                kinds.insert(AWAY);
            }
        }
    }
    kinds.into_iter().collect()
}
