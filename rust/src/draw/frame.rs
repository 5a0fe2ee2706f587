//! What stands behind the nets: the channels with their tracks and numbers, the stripes of dead wires, and the boxes.

use super::dead;
use super::layout::{is_level, Layout, BOX, CHANNEL_TEXT};
use super::page::{Anchor, Page, Point};
use super::wiring::{Place, Wiring};
use super::words::channel_words;
use crate::chip::End;
use alloc::string::String;
use alloc::vec::Vec;
use core::fmt::Write;

struct Channel {
    number: u16,
    ends: [End; 2],
    /// How many of its lanes are drawn: up to the last one in use.
    lanes: usize,
}

pub fn draw(page: &mut Page, layout: &Layout, wiring: &Wiring) {
    let channels = channels(layout, wiring);
    bands(page, layout, &channels);
    dead::stripes(page, layout, &wiring.dead);
    guides(page, layout, &channels);
    boxes(page, layout);
    numbers(page, layout, &channels);
}

fn channels(layout: &Layout, wiring: &Wiring) -> Vec<Channel> {
    let channel = |number| {
        let ends = layout.chip.ends(number)?;
        let lanes = 0;
        Some(Channel {
            number,
            ends,
            lanes,
        })
    };
    let mut channels: Vec<Channel> = (0..).map_while(channel).collect();
    for wire in wiring.nets.iter().flat_map(|net| &net.wires) {
        if let Place::Lane(lane) = wire.place {
            let channel = &mut channels[usize::from(wire.channel)];
            channel.lanes = channel.lanes.max(lane + 1);
        }
    }
    channels
}

impl Channel {
    /// From the lower or left edge of its boxes to the far side of its band.
    fn to(&self, layout: &Layout) -> i64 {
        match self.lanes {
            0 => layout.tracks_to(),
            lanes => layout.lanes_from() + lanes as i64 * layout.pitch,
        }
    }
}

/// A band for the tracks of each channel, and another for its lanes if it has any.
fn bands(page: &mut Page, layout: &Layout, channels: &[Channel]) {
    page.open(format_args!("fill=\"#e3e8ef\""));
    for channel in channels {
        let number = channel.number;
        let area = layout.band(channel.ends, layout.tracks_from(), layout.tracks_to());
        let about = format_args!("class=\"band\" data-channel=\"{number}\"");
        page.rect(about, area);
    }
    page.close();
    page.open(format_args!("fill=\"#faf3e3\""));
    for channel in channels.iter().filter(|channel| channel.lanes > 0) {
        let number = channel.number;
        let area = layout.band(channel.ends, layout.lanes_from(), channel.to(layout));
        let about = format_args!("class=\"lanes\" data-channel=\"{number}\"");
        page.rect(about, area);
    }
    page.close();
}

/// A faint line for each track, from track 0 on.
fn guides(page: &mut Page, layout: &Layout, channels: &[Channel]) {
    page.open(format_args!("fill=\"none\" stroke=\"#c2cbd6\""));
    for channel in channels {
        let number = channel.number;
        let mut course = String::new();
        for track in 0..layout.width {
            let offset = layout.offset(Place::Track(track));
            let [from, to] = channel.ends.map(|end| layout.tip(end, offset));
            let _ = write!(course, "M{} {}L{} {}", from.x, from.y, to.x, to.y);
        }
        let about = format_args!("class=\"guide\" data-channel=\"{number}\"");
        page.path(about, &course);
    }
    page.close();
}

fn boxes(page: &mut Page, layout: &Layout) {
    page.open(format_args!(
        "fill=\"{BOX}\" stroke=\"#7d8794\" stroke-width=\"2\""
    ));
    for row in 0..layout.chip.rows {
        for column in 0..layout.chip.columns {
            let about = format_args!("class=\"box\" data-column=\"{column}\" data-row=\"{row}\"");
            page.rect(about, layout.square(column, row));
        }
    }
    page.close();
}

/// The number of a channel: above a band from left to right, to the right of any other.
fn numbers(page: &mut Page, layout: &Layout, channels: &[Channel]) {
    page.open(format_args!(
        "fill=\"#4a5563\" font-size=\"{CHANNEL_TEXT}\""
    ));
    for channel in channels {
        let [one, other] = channel.ends.map(|end| layout.tip(end, channel.to(layout)));
        let (x, y) = ((one.x + other.x) / 2, (one.y + other.y) / 2);
        let (at, anchor) = match is_level(channel.ends) {
            true => (
                Point {
                    x,
                    y: y - CHANNEL_TEXT * 2 / 3,
                },
                Anchor::Middle,
            ),
            false => (
                Point {
                    x: x + CHANNEL_TEXT / 3,
                    y,
                },
                Anchor::Start,
            ),
        };
        let number = channel.number;
        let about = format_args!("class=\"channel\" data-channel=\"{number}\"");
        page.text(about, at, anchor, &channel_words(number.into()));
    }
    page.close();
}
