//! Checks the joints: every one of the sheet is drawn once, from wire to wire, and no other.

use super::frame::Frame;
use super::grid::meeting;
use super::nets::{colours, dashed, Expected, Lines};
use super::picture::Picture;
use super::shape::{Area, Point, Shape};
use std::collections::{BTreeMap, BTreeSet};

/// Pairs of channels under net numbers.
type Drawn<'a> = BTreeMap<(i64, i64, i64), &'a Shape>;

fn key(net: i64, one: i64, other: i64) -> (i64, i64, i64) {
    (net, one.min(other), one.max(other))
}

pub fn check(
    picture: &Picture,
    frame: &Frame,
    nets: &[Expected],
    lines: &Lines,
) -> Result<(), String> {
    stripes(picture)?;
    let mut drawn = Drawn::new();
    for shape in picture.of_classes(&["joint", "unplaced-joint"]) {
        let net = shape.number("data-net")?;
        let [from, to] = channels(shape)?;
        let twice = drawn.insert(key(net, from, to), shape);
        ensure!(twice.is_none(), "a joint of net {net} twice");
    }
    let mut dots = BTreeSet::new();
    for net in nets {
        for &(one, other) in &net.joints {
            let shape = drawn.remove(&key(net.number, one, other));
            let name = format!("the joint of {one} and {other} in net {}", net.number);
            let shape = shape.ok_or(format!("{name} is not drawn"))?;
            let right = (shape.class == "joint") == net.placed && dashed(shape) != net.placed;
            ensure!(right, "{name} has wrong dashes");
            for end in ends(frame, net.number, shape, lines)? {
                dots.insert((net.number, end));
            }
        }
    }
    ensure!(drawn.is_empty(), "joints of no net: {:?}", drawn.keys());
    check_dots(picture, nets, dots)
}

fn channels(joint: &Shape) -> Result<[i64; 2], String> {
    Ok([joint.number("data-from")?, joint.number("data-to")?])
}

/// Each joint has one stripe of its course, drawn before it.
fn stripes(picture: &Picture) -> Result<(), String> {
    let mut under = Vec::new();
    for shape in picture.of_classes(&["stripe", "joint", "unplaced-joint"]) {
        let course = shape.get("d");
        if shape.class == "stripe" {
            under.push(course);
        } else {
            let place = under.iter().position(|&stripe| stripe == course);
            under.remove(place.ok_or("a joint without a stripe under it")?);
        }
    }
    ensure!(under.is_empty(), "a stripe under no joint");
    Ok(())
}

/// The two ends of a joint's line, which runs inside the box where its channels meet, from the end of the one wire to the end of the
/// other.
fn ends(frame: &Frame, net: i64, joint: &Shape, lines: &Lines) -> Result<[Point; 2], String> {
    let channels = channels(joint)?;
    let boxes = channels.map(|channel| frame.channels[channel as usize].boxes);
    let place = meeting(boxes[0], boxes[1]).ok_or("channels that do not meet")?;
    let strokes = joint.strokes()?;
    let [points] = &strokes[..] else {
        return Err("a joint of many strokes".into());
    };
    let ends = [points[0], points[points.len() - 1]];
    for (at, end) in ends.into_iter().enumerate() {
        let wire = lines[&(net, channels[at])];
        let due = if boxes[at][0] == place {
            wire[0]
        } else {
            wire[1]
        };
        let channel = channels[at];
        ensure!(
            end == due,
            "a joint of net {net} does not end on its wire in channel {channel}"
        );
    }
    let area = frame.boxes[&place];
    let inside = |point: &Point| area.contains(Area::around(&[*point]));
    ensure!(
        points.iter().all(inside),
        "a joint of net {net} leaves its box"
    );
    Ok(ends)
}

/// A dot in the net's colour at each end of a joint, and nowhere else.
fn check_dots(
    picture: &Picture,
    nets: &[Expected],
    mut due: BTreeSet<(i64, Point)>,
) -> Result<(), String> {
    let colours = colours(picture, nets)?;
    for dot in picture.of_class("dot") {
        let centre = dot.centre()?;
        let colour = dot.get("fill").unwrap_or("none");
        let owner = nets
            .iter()
            .find(|net| due.contains(&(net.number, centre)) && colours[&net.number] == colour);
        let owner = owner.ok_or(format!("a dot that is not due at {centre:?}"))?;
        due.remove(&(owner.number, centre));
    }
    ensure!(due.is_empty(), "no dots at {due:?}");
    Ok(())
}
