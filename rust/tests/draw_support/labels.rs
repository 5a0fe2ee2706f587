//! Checks the texts: none on another or on a box, each where it belongs.

use super::frame::Frame;
use super::nets::Lines;
use super::picture::Picture;
use super::shape::{Area, Point, Shape};
use std::collections::{BTreeMap, BTreeSet};

pub fn check(picture: &Picture, frame: &Frame, lines: &Lines) -> Result<(), String> {
    let mut texts = Vec::new();
    for shape in picture.shapes.iter().filter(|shape| shape.tag == "text") {
        texts.push((shape, shape.space()?));
    }
    texts.sort_by_key(|(_, space)| space.left);
    for (place, (shape, space)) in texts.iter().enumerate() {
        let behind = texts[place + 1..].iter();
        for (other, other_space) in behind.take_while(|(_, other)| other.left < space.right) {
            let apart = !space.overlaps(*other_space);
            ensure!(apart, "'{}' lies on '{}'", shape.text, other.text);
        }
        for (at, area) in &frame.boxes {
            let apart = !space.overlaps(area.hundredfold());
            ensure!(apart, "'{}' lies on the box at {at:?}", shape.text);
        }
    }
    net_numbers(picture, lines)?;
    channel_numbers(picture, frame)
}

/// Each line has its net's number on it, on a plate of its own that touches no line on another track.
fn net_numbers(picture: &Picture, lines: &Lines) -> Result<(), String> {
    let labels: Vec<&Shape> = picture.of_class("label").collect();
    let plates: Vec<&Shape> = picture.of_class("plate").collect();
    let (label_count, plate_count) = (labels.len(), plates.len());
    ensure!(
        label_count == plate_count,
        "{plate_count} plates for {label_count} labels"
    );
    let mut in_channel: BTreeMap<i64, Vec<[Point; 2]>> = BTreeMap::new();
    for (&(_, channel), &ends) in lines {
        in_channel.entry(channel).or_default().push(ends);
    }
    let mut covered: BTreeMap<i64, Vec<Area>> = BTreeMap::new();
    let mut labelled = BTreeSet::new();
    for (label, plate) in labels.into_iter().zip(plates) {
        let (net, channel) = (label.number("data-net")?, label.number("data-channel")?);
        let name = format!("the label of net {net} in channel {channel}");
        let own = *lines.get(&(net, channel)).ok_or("a label on no line")?;
        let space = label.space()?;
        let plate = plate.rect()?.hundredfold();
        ensure!(label.text == net.to_string(), "{name} is '{}'", label.text);
        ensure!(
            within(label.text_point()?, own),
            "{name} is not on its line"
        );
        ensure!(plate.contains(space), "{name} passes its plate");
        let others = in_channel[&channel].iter().filter(|&&ends| ends != own);
        let mut crossed = others.filter(|&&ends| crosses(plate, ends));
        ensure!(crossed.next().is_none(), "{name} lies on another net");
        let before = covered.entry(channel).or_default();
        let apart = before.iter().all(|other| !plate.overlaps(*other));
        ensure!(apart, "{name} lies on another plate");
        before.push(plate);
        ensure!(labelled.insert((net, channel)), "{name} stands twice");
    }
    // Where nets hold one wire, there may be no room for all their numbers.
    for (&(net, channel), ends) in lines {
        let holders = in_channel[&channel].iter().filter(|&its| its == ends);
        let due = labelled.contains(&(net, channel)) || holders.count() > 1;
        ensure!(due, "no label for net {net} in channel {channel}");
    }
    Ok(())
}

fn within(point: Point, [one, other]: [Point; 2]) -> bool {
    let between = |a: i64, b: i64, middle: i64| a.min(b) <= middle && middle <= a.max(b);
    between(one.x, other.x, point.x) && between(one.y, other.y, point.y)
}

fn crosses(space: Area, [one, other]: [Point; 2]) -> bool {
    let line = Area {
        left: one.x.min(other.x),
        top: one.y.min(other.y),
        right: one.x.max(other.x),
        bottom: one.y.max(other.y),
    };
    space.overlaps(line.hundredfold())
}

/// Each channel has its number, on no band, and nearer to its own bands than to any other.
fn channel_numbers(picture: &Picture, frame: &Frame) -> Result<(), String> {
    let texts: Vec<&Shape> = picture.of_class("channel").collect();
    ensure!(
        texts.len() == frame.channels.len(),
        "{} channels with a number",
        texts.len()
    );
    let mut bands = Vec::new();
    for shape in picture.of_classes(&["band", "lanes"]) {
        bands.push((shape.number("data-channel")?, shape.rect()?.hundredfold()));
    }
    for (number, text) in texts.into_iter().enumerate() {
        let number = number as i64;
        let words = format!("channel {number}");
        ensure!(
            text.text == words && text.number("data-channel")? == number,
            "channel {number} has '{}'",
            text.text
        );
        let space = text.space()?;
        let gap = |(_, band): &&(i64, Area)| gap(space, *band);
        let own = bands
            .iter()
            .filter(|band| band.0 == number)
            .map(|band| gap(&band))
            .min();
        let nearest = bands
            .iter()
            .filter(|band| band.0 != number)
            .map(|band| gap(&band))
            .min();
        ensure!(
            own > Some(0) && own < nearest,
            "the number of channel {number} is not beside its band"
        );
    }
    Ok(())
}

/// The larger of the distances in x and in y; 0 if they touch.
fn gap(one: Area, other: Area) -> i64 {
    let x = (other.left - one.right).max(one.left - other.right);
    let y = (other.top - one.bottom).max(one.top - other.bottom);
    x.max(y).max(0)
}
