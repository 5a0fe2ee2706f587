//! Checks the lines of the nets along the channels: every one of sheet and ticket is drawn once, in its place, and no other.

use super::frame::Frame;
use super::picture::Picture;
use super::shape::{Point, Shape};
use std::collections::{BTreeMap, BTreeSet};
use trackrouter::sheet::Sheet;

/// What is to be drawn of a net.
pub struct Expected {
    pub number: i64,
    /// Channel and track; no track for an unplaced net.
    pub wires: Vec<(i64, Option<i64>)>,
    /// Pairs of channels.
    pub joints: Vec<(i64, i64)>,
    pub placed: bool,
}

pub fn expected(sheet: &Sheet, ticket: Option<&[u8]>) -> Vec<Expected> {
    let mut nets = Vec::new();
    for (net, part) in sheet.parts() {
        let bytes = ticket.map(|ticket| &ticket[part]);
        let placed = bytes.is_some_and(|bytes| bytes.iter().all(|&track| track != 255));
        let track = |place: usize| {
            bytes
                .filter(|_| placed)
                .map(|bytes| i64::from(bytes[place]))
        };
        let channels = net.channels().map(i64::from).enumerate();
        let joints = net.joints();
        nets.push(Expected {
            number: i64::from(net.number()),
            wires: channels
                .map(|(place, channel)| (channel, track(place)))
                .collect(),
            joints: joints
                .map(|(one, other)| (i64::from(one), i64::from(other)))
                .collect(),
            placed,
        });
    }
    nets
}

/// The line of a net in a channel: its ends at the channel's first and second box.
pub type Lines = BTreeMap<(i64, i64), [Point; 2]>;

pub fn dashed(shape: &Shape) -> bool {
    shape.get("stroke-dasharray").is_some()
}

pub fn check(picture: &Picture, frame: &Frame, nets: &[Expected]) -> Result<Lines, String> {
    let mut drawn = BTreeMap::new();
    for shape in picture.of_classes(&["wire", "unplaced"]) {
        let key = (shape.number("data-net")?, shape.number("data-channel")?);
        let twice = drawn.insert(key, shape);
        ensure!(twice.is_none(), "net {} twice in channel {}", key.0, key.1);
    }
    let mut lines = Lines::new();
    let mut lanes = BTreeSet::new();
    for net in nets {
        for &(channel, track) in &net.wires {
            let key = (net.number, channel);
            let shape = drawn
                .remove(&key)
                .ok_or(format!("no line of net {} in channel {channel}", key.0))?;
            let ends = frame.ends_in(channel as usize, shape)?;
            let tracks = &frame.channels[channel as usize].tracks;
            match track {
                Some(track) => {
                    ensure!(
                        shape.class == "wire" && !dashed(shape),
                        "net {} is dashed",
                        net.number
                    );
                    ensure!(
                        shape.number("data-track")? == track,
                        "net {} has another track",
                        net.number
                    );
                    ensure!(
                        ends == tracks[track as usize],
                        "net {} is not on its track {track} in channel {channel}",
                        net.number
                    );
                }
                None => {
                    ensure!(
                        shape.class == "unplaced" && dashed(shape),
                        "net {} is not dashed",
                        net.number
                    );
                    ensure!(!tracks.contains(&ends), "net {} has no track", net.number);
                    ensure!(
                        lanes.insert((channel, ends)),
                        "two unplaced nets on one line in channel {channel}"
                    );
                }
            }
            lines.insert(key, ends);
        }
    }
    ensure!(drawn.is_empty(), "lines of no net: {:?}", drawn.keys());
    Ok(lines)
}

/// The one colour of each net's wires and joints; different nets have different ones as far as there are 64.
pub fn colours(picture: &Picture, nets: &[Expected]) -> Result<BTreeMap<i64, String>, String> {
    let mut colours = BTreeMap::new();
    for class in ["wire", "unplaced", "joint", "unplaced-joint"] {
        for shape in picture.of_class(class) {
            let net = shape.number("data-net")?;
            let colour = shape.get("stroke").unwrap_or("none").to_string();
            let known = colours.entry(net).or_insert(colour.clone());
            ensure!(*known == colour, "net {net} has two colours");
        }
    }
    let different: BTreeSet<_> = colours.values().collect();
    ensure!(
        different.len() == colours.len() || nets.len() > 64,
        "two nets with one colour"
    );
    Ok(colours)
}
