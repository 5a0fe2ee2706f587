//! The number of a net on each of its wires.

use super::layout::{is_level, Layout, LENGTH};
use super::page::{text_width, Anchor, Area, Page, Point};
use super::wiring::{Drawn, Wire};
use alloc::format;
use alloc::string::{String, ToString};
use alloc::vec::Vec;

struct Label {
    channel: u16,
    middle: Point,
    /// Whether the number is turned to run along an upright wire: so are all if one of them is too wide for its track.
    turned: bool,
    /// What lies under the number.
    plate: Area,
}

pub fn draw(page: &mut Page, layout: &Layout, net: &Drawn) {
    let number = net.number.to_string();
    let label = |wire| label(layout, number.len(), wire);
    let labels: Vec<Label> = net.wires.iter().filter_map(label).collect();
    // White on the net's colour, or in the colour on white if the net is unplaced.
    let (plate, edge, ink) = match net.placed {
        true => (net.colour, "none", "#ffffff"),
        false => ("#ffffff", net.colour, net.colour),
    };
    page.open(format_args!("fill=\"{plate}\" stroke=\"{edge}\""));
    for label in &labels {
        page.rect(format_args!("class=\"plate\" rx=\"2\""), label.plate);
    }
    page.close();
    page.open(format_args!(
        "fill=\"{ink}\" font-size=\"{}\"",
        size(layout)
    ));
    for label in &labels {
        let Point { x, y } = label.middle;
        let turn = match label.turned {
            true => format!(" transform=\"rotate(-90 {x} {y})\""),
            false => String::new(),
        };
        let channel = label.channel;
        let about =
            format_args!("class=\"label\" data-net=\"{number}\" data-channel=\"{channel}\"{turn}");
        page.text(about, label.middle, Anchor::Middle, &number);
    }
    page.close();
}

fn size(layout: &Layout) -> i64 {
    layout.pitch * 5 / 8
}

/// The label in the middle of a wire. Where the wire has labels of other nets already, the next stands beside them; `None` when the
/// channel is full.
fn label(layout: &Layout, digits: usize, wire: &Wire) -> Option<Label> {
    let words = |digits| text_width(digits, size(layout));
    let long = |digits| words(digits) + (layout.pitch - 10) / 2;
    let high = size(layout) + 2;
    let level = is_level(wire.ends);
    let room = layout.pitch - 1;
    let turned = !level && words(layout.digits) + 1 > room;
    let (width, height) = match (level, turned) {
        (true, _) => (long(digits), high),
        (false, true) => (high, long(digits)),
        (false, false) => (long(digits).min(room), high),
    };
    let along = |digits| if level || turned { long(digits) } else { high };
    let before: Vec<i64> = wire.before.iter().map(|&digits| along(digits)).collect();
    let shift = beside(along(digits), &before);
    if 2 * shift.abs() + along(digits) > LENGTH {
        return None;
    }
    let offset = layout.offset(wire.place);
    let [one, other] = wire.ends.map(|end| layout.tip(end, offset));
    let mut middle = Point {
        x: (one.x + other.x) / 2,
        y: (one.y + other.y) / 2,
    };
    match level {
        true => middle.x += shift,
        false => middle.y += shift,
    }
    let plate = Area {
        left: middle.x - width / 2,
        top: middle.y - height / 2,
        width,
        height,
    };
    Some(Label {
        channel: wire.channel,
        middle,
        turned,
        plate,
    })
}

/// Free space between two labels on one wire.
const GAP: i64 = 2;

/// How far from the middle of its wire a label of this length stands, if those before it have these: the first is in the middle, the others
/// follow on its two sides by turns.
fn beside(along: i64, before: &[i64]) -> i64 {
    let Some(middle) = before.first() else {
        return 0;
    };
    let count = before.len();
    let same_side = (1..count).filter(|place| place % 2 == count % 2);
    let passed: i64 = same_side.map(|place| before[place] + GAP).sum();
    let shift = (middle + along) / 2 + GAP + passed;
    match count % 2 {
        1 => shift,
        _ => -shift,
    }
}
