//! The lines of the nets: wires along the channels, and joints inside the boxes.

use super::layout::{Layout, BOX};
use super::page::{Page, Point};
use super::wiring::{Drawn, Joint, Place};
use crate::chip::Side;
use alloc::format;
use alloc::string::String;
use alloc::vec::Vec;

pub fn draw(page: &mut Page, layout: &Layout, net: &Drawn) {
    page.open(format_args!("class=\"net\" data-net=\"{}\"", net.number));
    let (over, under): (Vec<_>, Vec<_>) = net.joints.iter().partition(|joint| apart(net, joint));
    joints(page, layout, net, &under);
    joints(page, layout, net, &over);
    wires(page, layout, net);
    dots(page, layout, net);
    page.close();
}

/// Whether the net has, in this joint's box, an earlier joint that is not connected with it there. Two joints can miss each other in a
/// box; three have four channels and hang together.
fn apart(net: &Drawn, joint: &Joint) -> bool {
    let in_box = |other: &&Joint| other.square() == joint.square();
    let here: Vec<&Joint> = net.joints.iter().filter(in_box).collect();
    match here[..] {
        [first, second] => {
            let shared = second.wires.iter().any(|wire| first.wires.contains(wire));
            second.wires == joint.wires && !shared
        }
        _ => false,
    }
}

/// Opens the group of a net's lines.
fn lines(page: &mut Page, layout: &Layout, net: &Drawn) {
    let (colour, stroke) = (net.colour, layout.stroke());
    let dashes = match net.placed {
        true => "",
        false => " stroke-dasharray=\"6 4\"",
    };
    page.open(format_args!(
        "fill=\"none\" stroke=\"{colour}\" stroke-width=\"{stroke}\"{dashes}"
    ));
}

/// Each joint from the end of its parent's wire to the end of its own. A stripe in the box's colour parts them from the lines that they
/// cross.
fn joints(page: &mut Page, layout: &Layout, net: &Drawn, joints: &[&Joint]) {
    if joints.is_empty() {
        return;
    }
    let courses: Vec<String> = joints
        .iter()
        .map(|joint| course(layout, net, joint))
        .collect();
    let stripe = layout.stroke() + 4;
    page.open(format_args!(
        "fill=\"none\" stroke=\"{BOX}\" stroke-width=\"{stripe}\""
    ));
    for course in &courses {
        page.path(format_args!("class=\"stripe\""), course);
    }
    page.close();
    let number = net.number;
    let class = if net.placed {
        "joint"
    } else {
        "unplaced-joint"
    };
    lines(page, layout, net);
    for (joint, course) in joints.iter().zip(&courses) {
        let [from, to] = joint.wires.map(|wire| net.wires[wire].channel);
        let about = format_args!(
            "class=\"{class}\" data-net=\"{number}\" data-from=\"{from}\" data-to=\"{to}\""
        );
        page.path(about, course);
    }
    page.close();
}

/// The two ends of a joint's line.
fn tips(layout: &Layout, net: &Drawn, joint: &Joint) -> [Point; 2] {
    [0, 1].map(|which| {
        let wire = &net.wires[joint.wires[which]];
        layout.tip(joint.ends[which], layout.offset(wire.place))
    })
}

/// A straight line, or a curve that leaves each wire in the wire's direction.
fn course(layout: &Layout, net: &Drawn, joint: &Joint) -> String {
    let [from, to] = tips(layout, net, joint);
    if from.x == to.x || from.y == to.y {
        return format!("M{} {}L{} {}", from.x, from.y, to.x, to.y);
    }
    let one = toward(joint.ends[0].side, from, to);
    let other = toward(joint.ends[1].side, to, from);
    format!(
        "M{} {}C{} {} {} {} {} {}",
        from.x, from.y, one.x, one.y, other.x, other.y, to.x, to.y
    )
}

/// From a point on a side of a box, six tenths of the way to the other point, in the direction of the wire that ends there.
fn toward(side: Side, from: Point, to: Point) -> Point {
    match side {
        Side::Left | Side::Right => Point {
            x: from.x + (to.x - from.x) * 6 / 10,
            y: from.y,
        },
        Side::Top | Side::Bottom => Point {
            x: from.x,
            y: from.y + (to.y - from.y) * 6 / 10,
        },
    }
}

fn wires(page: &mut Page, layout: &Layout, net: &Drawn) {
    lines(page, layout, net);
    for wire in &net.wires {
        let offset = layout.offset(wire.place);
        let [from, to] = wire.ends.map(|end| layout.tip(end, offset));
        let (class, name, place) = match wire.place {
            Place::Track(track) => ("wire", "track", usize::from(track)),
            Place::Lane(lane) => ("unplaced", "lane", lane),
        };
        let (number, channel) = (net.number, wire.channel);
        let about = format_args!(
            "class=\"{class}\" data-net=\"{number}\" data-channel=\"{channel}\" data-{name}=\"{place}\""
        );
        page.line(about, from, to);
    }
    page.close();
}

/// A dot where a joint meets a wire.
fn dots(page: &mut Page, layout: &Layout, net: &Drawn) {
    let mut points: Vec<Point> = net
        .joints
        .iter()
        .flat_map(|joint| tips(layout, net, joint))
        .collect();
    points.sort();
    points.dedup();
    page.open(format_args!("fill=\"{}\"", net.colour));
    for point in points {
        page.dot(format_args!("class=\"dot\""), point, layout.stroke());
    }
    page.close();
}
