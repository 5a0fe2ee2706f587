//! Wrong ways to read 02 M-104, for tests that must tell them from the right one:
//! each says of a joint whether its box runs straight.

use crate::chip::{Chip, Side};
use crate::sheet::{Joint, Net, Sheet};
use crate::switch::{runs_straight, Kind};

/// Whether the box of this net's joint runs straight.
pub type Rule = fn(&Sheet, &Net, &Joint) -> bool;

pub const RULES: [(&str, Rule); 17] = [
    ("rows alone", |s, n, j| first_or_last(s, n, j).1),
    ("columns alone", |s, n, j| first_or_last(s, n, j).0),
    ("corners alone", |_, _, j| j.around == 2),
    ("not at corners", |_, _, j| j.around == 3),
    ("row 0 and column 0 alone", |s, n, j| lowest(place(s, n, j))),
    ("last row and column alone", |s, n, j| {
        right(s, n, j) && !lowest(place(s, n, j))
    }),
    ("columns and rows exchanged", exchanged),
    ("inner boxes too", |_, _, _| true),
    ("the table everywhere", |_, _, _| false),
    ("kind 3 by its rows everywhere", |s, n, j| {
        right(s, n, j) && !by_rows(s)
    }),
    ("kind 3 alone", |s, n, j| right(s, n, j) && by_rows(s)),
    ("turns alone", |s, n, j| right(s, n, j) && turns(j)),
    ("from the lower channel alone", |s, n, j| {
        right(s, n, j) && from_lower(n, j)
    }),
    ("both channels along the rim", |s, n, j| {
        channels(n, j).iter().all(|&c| along(s.chip, c))
    }),
    ("a channel that touches the rim", |s, n, j| {
        channels(n, j).iter().any(|&c| touches(s.chip, c))
    }),
    ("both channels touch the rim", |s, n, j| {
        channels(n, j).iter().all(|&c| touches(s.chip, c))
    }),
    ("fewer than four of the net's own", |s, n, j| {
        own(s, n, j) < 4
    }),
];

/// The right rule.
pub fn right(_: &Sheet, _: &Net, joint: &Joint) -> bool {
    runs_straight(joint.around)
}

/// Another right one, told by channels: one of the two runs along the rim, that is,
/// both its boxes are on it. Of a rim box's channels at most one does not, and of
/// an inner box's none does.
pub fn one_along(sheet: &Sheet, net: &Net, joint: &Joint) -> bool {
    channels(net, joint).iter().any(|&c| along(sheet.chip, c))
}

/// The sheet as a rule sees it: its boxes have three channels where it says so,
/// all others four.
pub fn under(sheet: &Sheet, rule: Rule) -> Sheet {
    let mut seen = sheet.clone();
    for (net, old) in seen.nets.iter_mut().zip(&sheet.nets) {
        for (joint, told) in net.joints.iter_mut().zip(&old.joints) {
            joint.around = if rule(sheet, old, told) { 3 } else { 4 };
        }
    }
    seen
}

/// The joint's channels: the entry's, then its parent's.
fn channels(net: &Net, joint: &Joint) -> [u32; 2] {
    let (entry, parent) = joint.places;
    [net.channels[entry], net.channels[parent]]
}

/// The joint's box.
fn place(sheet: &Sheet, net: &Net, joint: &Joint) -> (u32, u32) {
    let [a, b] = channels(net, joint);
    let ends = sheet.chip.meeting_ends(a, b);
    ends.expect("joined channels meet").0.place
}

/// Whether the box is in the first or last column, and in the first or last row.
fn first_or_last(sheet: &Sheet, net: &Net, joint: &Joint) -> (bool, bool) {
    let (c, r) = place(sheet, net, joint);
    let end = |at: u32, count: u32| at == 0 || at == count - 1;
    (end(c, sheet.chip.columns), end(r, sheet.chip.rows))
}

fn lowest((c, r): (u32, u32)) -> bool {
    c == 0 || r == 0
}

/// The last column is taken from the rows and the last row from the columns.
fn exchanged(sheet: &Sheet, net: &Net, joint: &Joint) -> bool {
    let (c, r) = place(sheet, net, joint);
    lowest((c, r)) || c == sheet.chip.rows - 1 || r == sheet.chip.columns - 1
}

fn by_rows(sheet: &Sheet) -> bool {
    matches!(sheet.kind, Kind::Parameters(_))
}

/// Whether the sides are not opposite ones.
fn turns(joint: &Joint) -> bool {
    let level = |side| matches!(side, Side::Left | Side::Right);
    level(joint.sides.0) != level(joint.sides.1)
}

/// A joint is read from the parent.
fn from_lower(net: &Net, joint: &Joint) -> bool {
    let [entry, parent] = channels(net, joint);
    parent < entry
}

/// How many of a channel's two boxes are on the rim.
fn ends_on_rim(chip: Chip, channel: u32) -> usize {
    let on_rim = |place| runs_straight(chip.channels_at(place).len());
    let ends = chip.ends(channel);
    ends.iter().filter(|end| on_rim(end.place)).count()
}

fn along(chip: Chip, channel: u32) -> bool {
    ends_on_rim(chip, channel) == 2
}

fn touches(chip: Chip, channel: u32) -> bool {
    ends_on_rim(chip, channel) > 0
}

/// How many of the net's own channels end at the box.
fn own(sheet: &Sheet, net: &Net, joint: &Joint) -> usize {
    let at_box = sheet.chip.channels_at(place(sheet, net, joint));
    let own = net.channels.iter().filter(|c| at_box.contains(c));
    own.count()
}
