//! The dead wires: a stripe under the track, and a cross at each end that no net hides.

use super::layout::{is_level, Layout};
use super::page::{Page, Point};
use super::wiring::Place;
use crate::chip::{End, Wire};
use crate::dead;
use crate::sheet::Sheet;
use crate::MAX_WIDTH;
use alloc::collections::BTreeSet;
use alloc::format;
use alloc::string::String;
use alloc::vec::Vec;

/// The colours of stripes and crosses. No net has one of them.
pub const STRIPE: &str = "#f4c7c3";
pub const CROSS: &str = "#1c2430";

/// From a box to the middle of the cross, and from there to its ends. The dot of a joint and the longest label leave this room.
const CROSS_AT: i64 = 9;
const CROSS_SIZE: i64 = 4;

/// A dead wire below the width.
pub struct DeadWire {
    wire: Wire,
    ends: [End; 2],
}

/// The dead wires below the width, in rising order. `None` for a list that the library refuses for the sheet.
pub fn wires(sheet: &Sheet, list: &[u8]) -> Option<Vec<DeadWire>> {
    let list = dead::read(list)?;
    let wires: BTreeSet<Wire> = list.iter().copied().collect();
    let highest = wires.iter().map(|wire| wire.track).max();
    if wires.len() != list.len() || highest.is_some_and(|track| track >= MAX_WIDTH) {
        return None;
    }
    let ends = |wire: Wire| sheet.chip().ends(wire.channel);
    let wires: Option<Vec<DeadWire>> = wires
        .into_iter()
        .map(|wire| ends(wire).map(|ends| DeadWire { wire, ends }))
        .collect();
    let below = |dead: &DeadWire| dead.wire.track < sheet.width();
    wires.map(|wires| wires.into_iter().filter(below).collect())
}

/// A stripe along each dead wire, as wide as its track.
pub fn stripes(page: &mut Page, layout: &Layout, wires: &[DeadWire]) {
    if wires.is_empty() {
        return;
    }
    page.open(format_args!("fill=\"{STRIPE}\""));
    for DeadWire { wire, ends } in wires {
        let offset = layout.offset(Place::Track(wire.track));
        let half = layout.pitch / 2 - 1;
        let area = layout.band(*ends, offset - half, offset + half);
        let Wire { channel, track } = wire;
        let about =
            format_args!("class=\"dead\" data-channel=\"{channel}\" data-track=\"{track}\"");
        page.rect(about, area);
    }
    page.close();
}

/// The two crosses of each dead wire.
pub fn crosses(page: &mut Page, layout: &Layout, wires: &[DeadWire]) {
    if wires.is_empty() {
        return;
    }
    page.open(format_args!(
        "fill=\"none\" stroke=\"{CROSS}\" stroke-width=\"2\""
    ));
    for DeadWire { wire, ends } in wires {
        let offset = layout.offset(Place::Track(wire.track));
        let [mut one, mut other] = ends.map(|end| layout.tip(end, offset));
        match is_level(*ends) {
            true => {
                one.x += CROSS_AT;
                other.x -= CROSS_AT;
            }
            // From the lower box to the upper, y falls.
            false => {
                one.y -= CROSS_AT;
                other.y += CROSS_AT;
            }
        }
        let Wire { channel, track } = wire;
        let about =
            format_args!("class=\"cross\" data-channel=\"{channel}\" data-track=\"{track}\"");
        let course = cross(one, CROSS_SIZE) + &cross(other, CROSS_SIZE);
        page.path(about, &course);
    }
    page.close();
}

/// A cross around a point.
pub fn cross(Point { x, y }: Point, half: i64) -> String {
    let (left, right, top, bottom) = (x - half, x + half, y - half, y + half);
    format!("M{left} {top}L{right} {bottom}M{left} {bottom}L{right} {top}")
}
