//! The sizes of the picture, and where boxes, channels, tracks and lanes stand on the page.

use super::page::{text_width, Area, Point};
use super::wiring::Place;
use super::words::channel_words;
use crate::chip::{Chip, End, Side};
use crate::sheet::Sheet;
use alloc::string::ToString;

/// Free space along the edges of the page.
pub const MARGIN: i64 = 20;

/// The length of a channel, from box to box: its number fits between the boxes.
pub const LENGTH: i64 = 110;

/// The colour of a box.
pub const BOX: &str = "#f6f8fa";

/// The size of the channels' numbers.
pub const CHANNEL_TEXT: i64 = 13;

pub struct Layout {
    pub chip: Chip,
    pub width: u8,
    /// The most digits of a net number.
    pub digits: usize,
    /// The distance of neighbouring tracks, and of lanes.
    pub pitch: i64,
    /// From a box's lower left corner to its track 0, on both sides.
    inset: i64,
    /// The side of a box.
    pub side: i64,
    /// The upper left corner of the chip.
    pub left: i64,
    pub top: i64,
}

impl Layout {
    pub fn new(sheet: &Sheet, lanes: usize) -> Layout {
        let width = i64::from(sheet.width());
        let largest = sheet.nets().iter().map(|net| net.number()).max();
        let digits = largest.unwrap_or(0).to_string().len();
        let pitch = (24 - width).clamp(13, 20);
        let tracks = (width - 1) * pitch;
        let inset = (pitch * 5 / 4).max((60 - tracks) / 2);
        let beside = if lanes == 0 {
            0
        } else {
            pitch / 2 + lanes as i64 * pitch
        };
        let mut layout = Layout {
            chip: sheet.chip(),
            width: sheet.width(),
            digits,
            pitch,
            inset,
            side: 2 * inset + tracks + beside,
            left: 0,
            top: 0,
        };
        layout.left = MARGIN + text_width("row 15".len(), layout.axis_text()) + 10;
        layout.top = MARGIN + 2 * layout.title_text();
        layout
    }

    /// The distance from a box to the next.
    fn step(&self) -> i64 {
        self.side + LENGTH
    }

    pub fn chip_width(&self) -> i64 {
        i64::from(self.chip.columns) * self.step() - LENGTH
    }

    pub fn chip_height(&self) -> i64 {
        i64::from(self.chip.rows) * self.step() - LENGTH
    }

    /// Where the numbers of the channels of the last column end.
    pub fn right(&self) -> i64 {
        let words = channel_words(self.chip.channels());
        let band = self.left + self.chip_width() - self.tracks_from();
        band + CHANNEL_TEXT / 3 + text_width(words.len(), CHANNEL_TEXT)
    }

    // Large pictures have large texts beside the chip, so that they can be read before one looks closer.

    pub fn title_text(&self) -> i64 {
        (self.chip_width() / 36).clamp(16, 72)
    }

    pub fn axis_text(&self) -> i64 {
        (self.side / 10).clamp(12, 40)
    }

    pub fn note_text(&self) -> i64 {
        (self.chip_width() / 64).clamp(12, 40)
    }

    /// The thickness of a net's lines.
    pub fn stroke(&self) -> i64 {
        (self.pitch / 4).clamp(3, 4)
    }

    pub fn square(&self, column: u8, row: u8) -> Area {
        let from_top = i64::from(self.chip.rows) - 1 - i64::from(row);
        Area {
            left: self.left + i64::from(column) * self.step(),
            top: self.top + from_top * self.step(),
            width: self.side,
            height: self.side,
        }
    }

    /// From the lower or left edge of a channel's boxes to a place in it. Track 0 is the lowest or the leftmost; lanes are beyond the
    /// tracks.
    pub fn offset(&self, place: Place) -> i64 {
        match place {
            Place::Track(track) => self.inset + i64::from(track) * self.pitch,
            Place::Lane(lane) => self.lanes_from() + self.pitch / 2 + lane as i64 * self.pitch,
        }
    }

    // From the same edge to where the band of the tracks begins and ends, and to where the lanes begin.

    pub fn tracks_from(&self) -> i64 {
        self.inset - self.pitch / 2
    }

    pub fn tracks_to(&self) -> i64 {
        self.tracks_from() + i64::from(self.width) * self.pitch
    }

    pub fn lanes_from(&self) -> i64 {
        self.tracks_to() + self.pitch / 2
    }

    /// The point on the edge of a box where a channel ends, so far from the lower or left end of this edge.
    pub fn tip(&self, end: End, offset: i64) -> Point {
        let square = self.square(end.column, end.row);
        let (right, bottom) = (square.left + square.width, square.top + square.height);
        let (x, y) = match end.side {
            Side::Left => (square.left, bottom - offset),
            Side::Right => (right, bottom - offset),
            Side::Top => (square.left + offset, square.top),
            Side::Bottom => (square.left + offset, bottom),
        };
        Point { x, y }
    }

    /// The part of a channel between two offsets.
    pub fn band(&self, ends: [End; 2], from: i64, to: i64) -> Area {
        let one = self.tip(ends[0], from);
        let other = self.tip(ends[1], to);
        Area {
            left: one.x.min(other.x),
            top: one.y.min(other.y),
            width: (one.x - other.x).abs(),
            height: (one.y - other.y).abs(),
        }
    }
}

/// Whether a channel runs from left to right.
pub fn is_level(ends: [End; 2]) -> bool {
    ends[0].row == ends[1].row
}
