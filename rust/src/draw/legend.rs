//! The legend to the right of the chip: each net's number beside its colour, and which are unplaced; below them what a dead wire looks like.

use super::dead::{cross, CROSS, STRIPE};
use super::layout::{Layout, MARGIN};
use super::page::{text_width, Anchor, Area, Page, Point};
use super::wiring::{Drawn, Wiring};
use alloc::format;
use alloc::string::String;

/// The words beside the sign of a dead wire.
const DEAD: &str = "dead wire";

pub struct Legend {
    keys: usize,
    size: i64,
    /// How many keys stand below each other, at most: the legend is no higher than the chip.
    lines: usize,
    column: i64,
    left: i64,
    top: i64,
}

impl Legend {
    pub fn new(layout: &Layout, wiring: &Wiring) -> Legend {
        let size = (layout.chip_height() / 40).clamp(13, 56);
        let dead = (!wiring.dead.is_empty()).then_some(DEAD.len());
        let words = wiring.nets.iter().map(|net| words(net).len());
        let longest = words.chain(dead).max();
        Legend {
            keys: wiring.nets.len() + usize::from(dead.is_some()),
            size,
            lines: (layout.chip_height() / line(size)) as usize,
            column: swatch(size) + text_width(longest.unwrap_or(0), size) + 2 * size,
            left: layout.right() + MARGIN,
            top: layout.top,
        }
    }

    /// The right edge of the page as far as the legend needs it.
    pub fn right(&self) -> i64 {
        match self.keys.div_ceil(self.lines) as i64 {
            0 => self.left,
            columns => self.left + columns * self.column - self.size + MARGIN,
        }
    }

    pub fn draw(&self, page: &mut Page, wiring: &Wiring) {
        let size = self.size;
        page.open(format_args!(
            "class=\"legend\" fill=\"#1c2430\" font-size=\"{size}\""
        ));
        for (place, net) in wiring.nets.iter().enumerate() {
            self.key(page, net, self.at(place));
        }
        if !wiring.dead.is_empty() {
            self.dead_key(page, self.at(wiring.nets.len()));
        }
        page.close();
    }

    /// Where the key at this place starts, in the middle of its line.
    fn at(&self, place: usize) -> Point {
        let (column, down) = (place / self.lines, place % self.lines);
        Point {
            x: self.left + column as i64 * self.column,
            y: self.top + down as i64 * line(self.size) + line(self.size) / 2,
        }
    }

    /// Where the words of the key that starts here stand.
    fn words_at(&self, at: Point) -> Point {
        Point {
            x: at.x + swatch(self.size),
            y: at.y,
        }
    }

    /// A stripe with a cross in its middle.
    fn dead_key(&self, page: &mut Page, at: Point) {
        let half = self.size / 3;
        let stripe = Area {
            left: at.x,
            top: at.y - half,
            width: 2 * self.size,
            height: 2 * half,
        };
        let about = format_args!("class=\"dead-swatch\" fill=\"{STRIPE}\"");
        page.rect(about, stripe);
        let middle = Point {
            x: at.x + self.size,
            y: at.y,
        };
        let about = format_args!(
            "class=\"dead-swatch\" fill=\"none\" stroke=\"{CROSS}\" stroke-width=\"2\""
        );
        page.path(about, &cross(middle, half));
        let about = format_args!("class=\"dead-key\"");
        page.text(about, self.words_at(at), Anchor::Start, DEAD);
    }

    fn key(&self, page: &mut Page, net: &Drawn, at: Point) {
        let end = Point {
            x: at.x + 2 * self.size,
            y: at.y,
        };
        let (number, colour, thick) = (net.number, net.colour, self.size / 3);
        let dashes = match net.placed {
            true => String::new(),
            false => format!(" stroke-dasharray=\"{} {}\"", self.size / 2, self.size / 3),
        };
        let about = format_args!("class=\"swatch\" data-net=\"{number}\" stroke=\"{colour}\" stroke-width=\"{thick}\"{dashes}");
        page.line(about, at, end);
        let about = format_args!("class=\"key\" data-net=\"{number}\"");
        page.text(about, self.words_at(at), Anchor::Start, &words(net));
    }
}

fn words(net: &Drawn) -> String {
    match net.placed {
        true => format!("net {}", net.number),
        false => format!("net {} unplaced", net.number),
    }
}

/// The height of a line.
fn line(size: i64) -> i64 {
    size * 8 / 5
}

/// The width of a net's colour with the space behind it.
fn swatch(size: i64) -> i64 {
    size * 5 / 2
}
