//! Lines, words, numbers and wires, as the text of a sheet, the lines of a ticket and the text of a list have them.

use super::TextError;
use crate::chip::Wire;
use alloc::format;
use alloc::string::{String, ToString};

const BLANKS: [char; 2] = [' ', '\t'];

/// The most characters of a word that a reason shows.
const SHOWN: usize = 40;

/// The words that a line has left.
pub(crate) struct Words<'a> {
    pub(crate) rest: &'a str,
}

impl<'a> Words<'a> {
    pub(crate) fn of(rest: &'a str) -> Words<'a> {
        Words { rest }
    }

    /// The next word, which the line must have.
    pub(crate) fn take(&mut self, what: &str) -> Result<&'a str, String> {
        self.next().ok_or_else(|| format!("the {what} is missing"))
    }

    /// The next word as a number.
    pub(crate) fn number(&mut self, what: &str, most: u32) -> Result<u32, String> {
        number(what, self.take(what)?, most)
    }

    /// No word is left.
    pub(crate) fn end(mut self) -> Result<(), String> {
        match self.next() {
            Some(word) => Err(format!("{} is one word too many", quoted(word))),
            None => Ok(()),
        }
    }
}

impl<'a> Iterator for Words<'a> {
    type Item = &'a str;

    fn next(&mut self) -> Option<&'a str> {
        let start = self.rest.trim_start_matches(BLANKS);
        let end = start.find(BLANKS).unwrap_or(start.len());
        let (word, rest) = start.split_at(end);
        self.rest = rest;
        (!word.is_empty()).then_some(word)
    }
}

/// The lines that say something: the line's number from 1, its first word, and the words behind it. Comments are left out, and so is
/// the byte order mark that some editors put first.
pub(crate) fn lines(text: &str) -> impl Iterator<Item = (usize, &str, Words<'_>)> {
    let text = text.strip_prefix('\u{feff}').unwrap_or(text);
    text.lines().zip(1..).filter_map(|(line, number)| {
        let mut words = Words::of(line.split('#').next()?);
        Some((number, words.next()?, words))
    })
}

/// The number that a word of decimal digits says; `what` names it in the reason.
pub(crate) fn number(what: &str, word: &str, most: u32) -> Result<u32, String> {
    if !is_number(word) {
        return Err(format!("{what} {} is no number", quoted(word)));
    }
    match word.parse() {
        Ok(number) if number <= most => Ok(number),
        _ => Err(format!("{what} {} is over {most}", cut(word))),
    }
}

/// The wire that a word says: `CHANNEL.TRACK`.
pub(crate) fn wire(word: &str) -> Result<Wire, String> {
    let (channel, track) = match word.split_once('.') {
        Some((channel, track)) if is_number(channel) && is_number(track) => (channel, track),
        _ => return Err(format!("{} is no CHANNEL.TRACK", quoted(word))),
    };
    Ok(Wire {
        channel: number("channel", channel, 65_535)? as u16,
        track: number("track", track, 255)? as u8,
    })
}

pub(crate) fn is_number(word: &str) -> bool {
    !word.is_empty() && word.bytes().all(|byte| byte.is_ascii_digit())
}

/// A word in quotation marks, signs that do not print as escapes, so that a reason stays one line.
pub(crate) fn quoted(word: &str) -> String {
    format!("{:?}", cut(word))
}

/// The start of a word that is too long to show.
pub(crate) fn cut(word: &str) -> String {
    match word.char_indices().nth(SHOWN) {
        Some((end, _)) => word[..end].to_string() + "...",
        None => word.to_string(),
    }
}

/// A reason with the line where it applies.
pub(crate) fn at(line: usize) -> impl Fn(String) -> TextError {
    move |reason| TextError { line, reason }
}
