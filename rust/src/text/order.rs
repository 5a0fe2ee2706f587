//! The order of the lines in a sheet's text.

use super::words::quoted;
use alloc::format;
use alloc::string::String;
use alloc::vec;
use alloc::vec::Vec;

/// The lines in the order in which they stand: their first words, and whether there must be such a line. Only the last may stand more
/// than once.
pub type Lines = [(&'static str, bool)];

/// The lines that have been.
pub struct Order<'a> {
    lines: &'a Lines,
    taken: Vec<bool>,
    /// The place of the first line that may follow.
    next: usize,
}

impl<'a> Order<'a> {
    pub fn new(lines: &'a Lines) -> Order<'a> {
        Order {
            lines,
            taken: vec![false; lines.len()],
            next: 0,
        }
    }

    /// Takes the line that starts with this word, if it may stand here.
    pub fn take(&mut self, word: &str) -> Result<(), String> {
        let place = self.lines.iter().position(|line| line.0 == word);
        let place = place.ok_or_else(|| self.unknown(word))?;
        if place < self.next {
            return Err(match self.taken[place] {
                true => format!("the {word} line stands twice"),
                false => format!("the {word} line stands too late"),
            });
        }
        if let Some(missing) = self.missing(place) {
            return Err(format!(
                "the {missing} line is missing before this {word} line"
            ));
        }
        self.taken[place] = true;
        self.next = (place + 1).min(self.lines.len() - 1);
        Ok(())
    }

    /// No line follows.
    pub fn end(self) -> Result<(), String> {
        match self.missing(self.lines.len()) {
            Some(missing) => Err(format!("the {missing} line is missing")),
            None => Ok(()),
        }
    }

    /// The first line that must stand before this place and does not.
    fn missing(&self, place: usize) -> Option<&'static str> {
        let mut before = self.lines[..place].iter().zip(&self.taken);
        before.find_map(|(&(word, needed), taken)| (needed && !taken).then_some(word))
    }

    fn unknown(&self, word: &str) -> String {
        let words: Vec<&str> = self.lines.iter().map(|line| line.0).collect();
        let (last, others) = words.split_last().expect("there are lines");
        let (word, others) = (quoted(word), others.join(", "));
        format!("{word} starts no line: {others} and {last} do")
    }
}

#[cfg(test)]
mod tests {
    use super::*;

    /// The reason for which lines in this order are wrong; empty if they are right.
    fn reason(lines: &Lines, words: &str) -> String {
        let mut order = Order::new(lines);
        let mut words = words.split_whitespace();
        let taken = words.try_for_each(|word| order.take(word));
        taken.and_then(|()| order.end()).err().unwrap_or_default()
    }

    #[test]
    fn a_line_that_need_not_stand() {
        let lines = [("a", false), ("b", true), ("c", false), ("d", false)];
        for right in ["b", "a b", "b c", "a b c d d", "b d d d"] {
            assert_eq!(reason(&lines, right), "", "{right}");
        }
        for (wrong, why) in [
            ("", "the b line is missing"),
            ("a", "the b line is missing"),
            ("a c", "the b line is missing before this c line"),
            ("b a", "the a line stands too late"),
            ("b d c", "the c line stands too late"),
            ("a a b", "the a line stands twice"),
            ("b d b", "the b line stands twice"),
            ("b e", "\"e\" starts no line: a, b, c and d do"),
        ] {
            assert_eq!(reason(&lines, wrong), why, "{wrong}");
        }
    }
}
