//! The text of an SVG. All coordinates are whole numbers, so that a picture has one text.

use alloc::string::String;
use core::fmt::{Arguments, Write};

/// A place on the page: x rises to the right, y downward.
#[derive(Clone, Copy, Debug, PartialEq, Eq, PartialOrd, Ord)]
pub struct Point {
    pub x: i64,
    pub y: i64,
}

#[derive(Clone, Copy, Debug, PartialEq, Eq)]
pub struct Area {
    pub left: i64,
    pub top: i64,
    pub width: i64,
    pub height: i64,
}

/// Where a text stands from its point; in height its middle is there.
#[derive(Clone, Copy, Debug, PartialEq, Eq)]
pub enum Anchor {
    Start,
    Middle,
    End,
}

pub struct Page(String);

impl Page {
    /// An empty page with its title, white.
    pub fn new(width: i64, height: i64, title: &str) -> Page {
        let mut page = Page(String::new());
        page.put(format_args!(
            "<svg xmlns=\"http://www.w3.org/2000/svg\" width=\"{width}\" height=\"{height}\" \
             viewBox=\"0 0 {width} {height}\" role=\"img\" font-family=\"sans-serif\">\n\
             <title>{title}</title>\n"
        ));
        let whole = Area {
            left: 0,
            top: 0,
            width,
            height,
        };
        page.rect(format_args!("class=\"page\" fill=\"#ffffff\""), whole);
        page
    }

    pub fn finish(mut self) -> String {
        self.put(format_args!("</svg>\n"));
        self.0
    }

    pub fn open(&mut self, attributes: Arguments) {
        self.put(format_args!("<g {attributes}>\n"));
    }

    pub fn close(&mut self) {
        self.put(format_args!("</g>\n"));
    }

    pub fn rect(&mut self, attributes: Arguments, area: Area) {
        self.put(format_args!(
            "<rect {attributes} x=\"{}\" y=\"{}\" width=\"{}\" height=\"{}\"/>\n",
            area.left, area.top, area.width, area.height
        ));
    }

    pub fn line(&mut self, attributes: Arguments, from: Point, to: Point) {
        self.put(format_args!(
            "<line {attributes} x1=\"{}\" y1=\"{}\" x2=\"{}\" y2=\"{}\"/>\n",
            from.x, from.y, to.x, to.y
        ));
    }

    pub fn path(&mut self, attributes: Arguments, course: &str) {
        self.put(format_args!("<path {attributes} d=\"{course}\"/>\n"));
    }

    pub fn dot(&mut self, attributes: Arguments, centre: Point, radius: i64) {
        self.put(format_args!(
            "<circle {attributes} cx=\"{}\" cy=\"{}\" r=\"{radius}\"/>\n",
            centre.x, centre.y
        ));
    }

    /// The words must be free of `&`, `<` and `>`.
    pub fn text(&mut self, attributes: Arguments, at: Point, anchor: Anchor, words: &str) {
        let anchor = match anchor {
            Anchor::Start => "start",
            Anchor::Middle => "middle",
            Anchor::End => "end",
        };
        // Digits and capitals are about 0.72 em high, so half of that below the point brings their middle to it.
        self.put(format_args!(
            "<text {attributes} x=\"{}\" y=\"{}\" dy=\"0.36em\" text-anchor=\"{anchor}\">{words}</text>\n",
            at.x, at.y
        ));
    }

    fn put(&mut self, piece: Arguments) {
        // Writing to a string cannot fail.
        let _ = self.0.write_fmt(piece);
    }
}

/// No narrower than so many characters in a common sans-serif font: a digit takes 0.64 of the size.
pub fn text_width(characters: usize, size: i64) -> i64 {
    (characters as i64 * size * 64 + 99) / 100
}
