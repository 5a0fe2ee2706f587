//! The text form of a sheet (docs/FORMATS.md).
//!
//! ```
//! let text = "chip 3 by 2\nkind subset\nwidth 2\nnet 1: 0 1-0\n";
//! let sheet = trackrouter::text::parse(text).unwrap();
//! assert_eq!(sheet.nets()[0].joints().next(), Some((1, 0)));
//! assert_eq!(trackrouter::text::write(&sheet), text);
//! ```

use crate::chip::Kind;
use crate::sheet::{Mark, Sheet};
use crate::{KINDS, KIND_ROWS};
use alloc::format;
use alloc::string::{String, ToString};
use alloc::vec::Vec;
use core::error::Error;
use core::fmt;

mod net;
mod order;
mod rows;
pub(crate) mod words;

use order::Order;
use words::{at, is_number, lines, number, quoted, Words};

// The first words of the lines.
const MARK: &str = "mark";
const CHIP: &str = "chip";
const KIND: &str = "kind";
const WIDTH: &str = "width";
const NET: &str = "net";

/// The lines in their order, and whether there must be one. There may be any number of nets.
const LINES: [(&str, bool); 5] = [
    (MARK, false),
    (CHIP, true),
    (KIND, true),
    (WIDTH, true),
    (NET, false),
];

/// The largest number of a field of one byte.
const BYTE: u32 = 255;

/// Where a text does not parse, and why.
#[derive(Clone, Debug, PartialEq, Eq)]
pub struct TextError {
    /// The line, from 1; 0 where the fault is in no line.
    pub line: usize,
    pub reason: String,
}

impl fmt::Display for TextError {
    fn fmt(&self, f: &mut fmt::Formatter<'_>) -> fmt::Result {
        match self.line {
            0 => write!(f, "{}", self.reason),
            line => write!(f, "line {line}: {}", self.reason),
        }
    }
}

impl Error for TextError {}

/// The sheet's text, in the one layout. `parse` gives every sheet that the library accepts back from it. A parent is named by its
/// channel; where a net has that channel twice, which the library refuses, the first is meant. The short mark has no line.
pub fn write(sheet: &Sheet) -> String {
    let chip = sheet.chip();
    let mut text = match sheet.mark() {
        Mark::Short => String::new(),
        mark => format!("mark {mark}\n"),
    };
    text += &format!("chip {} by {}\n", chip.columns, chip.rows);
    text += &format!("kind {}\nwidth {}\n", sheet.kind(), sheet.width());
    for net in sheet.nets() {
        text += &format!("net {}:", net.number());
        for entry in net.entries() {
            text += &match entry.parent {
                Some(parent) => {
                    let parent = net.entries()[usize::from(parent)].channel;
                    format!(" {}-{parent}", entry.channel)
                }
                None => format!(" {}", entry.channel),
            };
        }
        text.push('\n');
    }
    text
}

/// The sheet that the text says.
pub fn parse(text: &str) -> Result<Sheet, TextError> {
    let (mut columns, mut rows, mut kind, mut width) = (0, 0, Kind::Subset, 0);
    let mut mark = Mark::default();
    let mut nets = Vec::new();
    let mut order = Order::new(&LINES);
    for (line, word, mut words) in lines(text) {
        order.take(word).map_err(at(line))?;
        let said = match word {
            MARK => mark_of(&mut words).map(|said| mark = said),
            CHIP => chip(&mut words).map(|said| (columns, rows) = said),
            KIND => kind_of(&mut words).map(|said| kind = said),
            WIDTH => byte(&mut words, "width").map(|said| width = said),
            _ => net::net(&mut words, mark).map(|said| nets.push(said)),
        };
        said.and_then(|()| words.end()).map_err(at(line))?;
    }
    order.end().map_err(at(0))?;
    let mut sheet = Sheet::new(columns, rows, kind, width).with_mark(mark);
    nets.into_iter().for_each(|net| sheet.push(net));
    Ok(sheet)
}

/// A line of a sheet's text.
#[derive(Clone, Copy, Debug, PartialEq, Eq)]
pub enum Line {
    Mark,
    Chip,
    Kind,
    Width,
    /// That of the net at this list place, from 0.
    Net(usize),
}

/// The number of a line in a sheet's text, from 1.
pub fn line_of(text: &str, line: Line) -> Option<usize> {
    let (first, place) = match line {
        Line::Mark => (MARK, 0),
        Line::Chip => (CHIP, 0),
        Line::Kind => (KIND, 0),
        Line::Width => (WIDTH, 0),
        Line::Net(place) => (NET, place),
    };
    let mut found = lines(text).filter(|(_, word, _)| *word == first);
    found.nth(place).map(|(number, _, _)| number)
}

/// A number of one byte.
fn byte(words: &mut Words, what: &str) -> Result<u8, String> {
    words.number(what, BYTE).map(|number| number as u8)
}

/// What a mark line says: the two bytes, in hexadecimal. It takes all words.
fn mark_of(words: &mut Words) -> Result<Mark, String> {
    let said = words.collect::<Vec<&str>>().join(" ");
    if said.is_empty() {
        return Err("the mark is missing".into());
    }
    let mut marks = Mark::ALL.into_iter();
    let known = marks.find(|mark| mark.to_string() == said);
    known.ok_or_else(|| format!("mark {} is not {}", quoted(&said), Mark::both()))
}

/// What a chip line says: `A by B`.
fn chip(words: &mut Words) -> Result<(u8, u8), String> {
    let columns = byte(words, "number of columns")?;
    match words.take("word \"by\"")? {
        "by" => Ok((columns, byte(words, "number of rows")?)),
        other => Err(format!("{} stands where \"by\" is due", quoted(other))),
    }
}

/// What a kind line says: a kind by its word or number, and behind kind 3 its rows.
fn kind_of(words: &mut Words) -> Result<Kind, String> {
    match kind_number(words.take("kind")?)? {
        KIND_ROWS => rows::rows(words).map(Kind::Rows),
        number => Ok(number.into()),
    }
}

fn kind_number(word: &str) -> Result<u8, String> {
    if is_number(word) {
        return number("kind", word, BYTE).map(|kind| kind as u8);
    }
    let known = KINDS.iter().position(|&known| known == word);
    known.map(|kind| kind as u8).ok_or_else(|| {
        let kinds = KINDS.join(", ");
        format!("kind {} is not {kinds} or a number", quoted(word))
    })
}
