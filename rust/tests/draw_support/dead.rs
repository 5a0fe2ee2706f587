//! Checks the dead wires: those of the list below the width, each with its stripe and its two crosses, and their key in the legend.

use super::frame::Frame;
use super::picture::Picture;
use super::shape::{Area, Point, Shape};
use std::collections::BTreeSet;
use trackrouter::sheet::Sheet;

/// Channel and track.
type Wire = (i64, i64);

pub fn check(picture: &Picture, frame: &Frame, sheet: &Sheet, dead: &[u8]) -> Result<(), String> {
    let wire = |item: &[u8]| {
        let channel = i64::from(item[0]) + 256 * i64::from(item[1]);
        (channel, i64::from(item[2]))
    };
    let width = i64::from(sheet.width());
    let below = |&(_, track): &Wire| track < width;
    let expected: BTreeSet<Wire> = dead.chunks(3).map(wire).filter(below).collect();
    for (class, test) in [("dead", stripe as Test), ("cross", cross)] {
        let mut drawn = BTreeSet::new();
        for shape in picture.of_class(class) {
            let wire = (shape.number("data-channel")?, shape.number("data-track")?);
            ensure!(
                expected.contains(&wire),
                "a {class} on {wire:?}, which is whole"
            );
            ensure!(drawn.insert(wire), "the {class} of {wire:?} twice");
            test(frame, wire, shape)?;
        }
        ensure!(drawn == expected, "not each dead wire has its {class}");
    }
    key(picture, !expected.is_empty())
}

type Test = fn(&Frame, Wire, &Shape) -> Result<(), String>;

/// The ends of a track, and whether its channel is level.
fn track(frame: &Frame, (channel, track): Wire) -> ([Point; 2], bool) {
    let channel = &frame.channels[channel as usize];
    (channel.tracks[track as usize], channel.level)
}

/// From box to box, with the track in its middle and no other track in it.
fn stripe(frame: &Frame, wire: Wire, shape: &Shape) -> Result<(), String> {
    let ([one, other], level) = track(frame, wire);
    let area = shape.rect()?;
    let along = match level {
        true => (area.left, area.right) == (one.x, other.x),
        false => (area.bottom, area.top) == (one.y, other.y),
    };
    let middle = match level {
        true => area.top + area.bottom == 2 * one.y,
        false => area.left + area.right == 2 * one.x,
    };
    ensure!(
        along && middle,
        "the stripe of {wire:?} is not on its track"
    );
    let tracks = &frame.channels[wire.0 as usize].tracks;
    let within = |&&[end, _]: &&[Point; 2]| match level {
        true => (area.top..=area.bottom).contains(&end.y),
        false => (area.left..=area.right).contains(&end.x),
    };
    let covered = tracks.iter().filter(within).count();
    ensure!(
        covered == 1,
        "the stripe of {wire:?} covers {covered} tracks"
    );
    ensure!(
        shape.get("fill") == Some("#f4c7c3"),
        "the colour of {wire:?}"
    );
    Ok(())
}

/// Two crosses on the track, one near each end.
fn cross(frame: &Frame, wire: Wire, shape: &Shape) -> Result<(), String> {
    let (ends, level) = track(frame, wire);
    let strokes = shape.strokes()?;
    ensure!(strokes.len() == 4, "{wire:?} has not two crosses");
    let mut near = Vec::new();
    for pair in strokes.chunks(2) {
        let middle = crossing(pair).ok_or(format!("{wire:?} has no cross"))?;
        let apart = ends.map(|end| match level {
            true => (middle.x - end.x).abs(),
            false => (middle.y - end.y).abs(),
        });
        let on_track = match level {
            true => middle.y == ends[0].y,
            false => middle.x == ends[0].x,
        };
        let inside = apart[0] + apart[1] == 110 && apart[0].min(apart[1]) < 14;
        ensure!(on_track && inside, "a cross of {wire:?} is out of place");
        near.push(apart[0] < apart[1]);
    }
    ensure!(near == [true, false], "both crosses of {wire:?} at one end");
    let seen = shape.get("stroke") == Some("#1c2430") && shape.get("fill") == Some("none");
    ensure!(seen, "the colour of the crosses of {wire:?}");
    Ok(())
}

/// The middle of two strokes that are the diagonals of a square.
fn crossing(strokes: &[Vec<Point>]) -> Option<Point> {
    let [one, other] = strokes else { return None };
    let ([a, b], [c, d]) = (&one[..], &other[..]) else {
        return None;
    };
    let side = b.x - a.x;
    let falls = side > 4 && b.y - a.y == side;
    let rises = d.x - c.x == side && c.y - d.y == side;
    let square = (a.x, b.y) == (c.x, c.y);
    let middle = Point {
        x: (a.x + b.x) / 2,
        y: (a.y + b.y) / 2,
    };
    (falls && rises && square).then_some(middle)
}

/// The key of dead wires, below those of the nets, exactly if one is drawn: a stripe, a cross on it, and the words beside them.
fn key(picture: &Picture, due: bool) -> Result<(), String> {
    let swatches: Vec<&Shape> = picture.of_class("dead-swatch").collect();
    let keys: Vec<&Shape> = picture.of_class("dead-key").collect();
    if !due {
        ensure!(
            swatches.is_empty() && keys.is_empty(),
            "a key of no dead wire"
        );
        return Ok(());
    }
    let ([stripe, cross], [key]) = (&swatches[..], &keys[..]) else {
        return Err("the key of dead wires is not there once".into());
    };
    ensure!(key.text == "dead wire", "the key says '{}'", key.text);
    ensure!(
        stripe.get("fill") == Some("#f4c7c3") && cross.get("stroke") == Some("#1c2430"),
        "the key has other colours"
    );
    let (area, at) = (stripe.rect()?, key.text_point()?);
    let middle = crossing(&cross.strokes()?).ok_or("the key has no cross")?;
    let inside = Area::around(&cross.strokes()?.concat());
    let beside = area.top + area.bottom == 2 * at.y && area.right < at.x;
    ensure!(
        beside && area.contains(inside) && middle.y == at.y,
        "the words of the key are not beside its stripe"
    );
    Ok(())
}
