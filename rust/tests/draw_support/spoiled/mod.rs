//! Pictures spoiled by hand: the check refuses each, and for the right reason.

mod dead;
mod lines;
mod shapes;
mod texts;

use super::check;
use super::sheets::{sheet_m7, sheet_t};
use trackrouter::draw::svg;
use trackrouter::sheet::Sheet;

struct Case {
    sheet: Sheet,
    dead: &'static [u8],
    ticket: &'static [u8],
    text: String,
}

fn case(sheet: Sheet, ticket: &'static [u8]) -> Case {
    under(sheet, &[], ticket)
}

/// A case with dead wires.
fn under(sheet: Sheet, dead: &'static [u8], ticket: &'static [u8]) -> Case {
    let text = svg(&sheet, dead, Some(ticket)).expect("a picture");
    assert!(check(&sheet, dead, Some(ticket), &text).is_ok());
    Case {
        sheet,
        dead,
        ticket,
        text,
    }
}

fn t() -> Case {
    case(sheet_t(0, 3), &[0, 0, 1, 1, 2, 2])
}

/// T with 5.1 dead under net 2, and 0.1.
fn broken() -> Case {
    let dead = &[5, 0, 1, 0, 0, 1];
    under(sheet_t(0, 3), dead, &[0, 0, 1, 1, 2, 2])
}

/// m7 with net 3 unplaced.
fn m7() -> Case {
    case(sheet_m7(), &[0, 1, 255, 255])
}

/// T by rows, with the ticket of sheets/t_rows.
fn rows() -> Case {
    let bytes = include_bytes!("../../../../sheets/t_rows.sheet");
    let sheet = Sheet::read(bytes).expect("a sheet");
    case(sheet, &[0, 1, 0, 1, 2, 0])
}

impl Case {
    /// The only line of this class that has all these pieces.
    fn line(&self, class: &str, pieces: &[&str]) -> String {
        let class = format!(" class=\"{class}\" ");
        let has_all =
            |line: &&str| line.contains(&class) && pieces.iter().all(|piece| line.contains(piece));
        let lines: Vec<&str> = self.text.lines().filter(has_all).collect();
        assert_eq!(lines.len(), 1, "{class} {pieces:?}");
        format!("{}\n", lines[0])
    }

    /// Of this text in its place the check says these words.
    fn text_refused(&self, spoiled: &str, words: &str) {
        assert_ne!(spoiled, self.text);
        let answer = check(&self.sheet, self.dead, Some(self.ticket), spoiled);
        let wrong = answer
            .err()
            .unwrap_or_else(|| panic!("not refused: {words}"));
        assert!(wrong.contains(words), "{wrong} (not {words})");
    }

    /// The same with `from` written as `to`, wherever it stands.
    fn refused(&self, from: &str, to: &str, words: &str) {
        self.text_refused(&self.text.replace(from, to), words);
    }

    /// The same within one line.
    fn line_refused(&self, line: &str, from: &str, to: &str, words: &str) {
        assert!(line.contains(from), "{line}");
        self.refused(line, &line.replace(from, to), words);
    }
}

/// An attribute of a line, with its name.
fn attribute(line: &str, name: &str) -> Option<String> {
    let start = line.find(&format!(" {name}=\""))? + 1;
    let length = line[start + name.len() + 2..].find('"')?;
    Some(line[start..start + name.len() + 3 + length].to_string())
}

/// The value of an attribute of a line.
fn value(line: &str, name: &str) -> String {
    let attribute = attribute(line, name).expect(name);
    attribute[name.len() + 2..attribute.len() - 1].to_string()
}

/// The first places and the ends of the numbers in a text.
fn numbers(text: &str) -> Vec<(usize, usize)> {
    let digit = |place: usize| text.as_bytes()[place].is_ascii_digit();
    let from = |&place: &usize| digit(place) && !digit(place - 1);
    let to = |start: usize| (start..text.len()).find(|&end| !digit(end));
    (1..text.len())
        .filter(from)
        .map(|start| (start, to(start).unwrap_or(text.len())))
        .collect()
}

/// The text with one of its numbers, counted from 0, so much larger.
fn raised(text: &str, place: usize, by: i64) -> String {
    let (start, end) = numbers(text)[place];
    let number: i64 = text[start..end].parse().expect("a number");
    format!("{}{}{}", &text[..start], number + by, &text[end..])
}

/// The attributes that place a shape.
const PLACING: [&str; 11] = [
    "x", "y", "width", "height", "x1", "x2", "y1", "y2", "cx", "cy", "d",
];

/// The line with each number raised that places its shape, one at a time, with the attribute's name.
fn moved(line: &str, by: i64) -> Vec<(&'static str, String)> {
    let mut lines = Vec::new();
    for name in PLACING {
        let Some(old) = attribute(line, name) else {
            continue;
        };
        // The digit in a name like x1 is no coordinate.
        let value = &old[name.len() + 1..];
        for place in 0..numbers(value).len() {
            let new = format!(" {name}={}", raised(value, place, by));
            lines.push((name, line.replace(&format!(" {old}"), &new)));
        }
    }
    lines
}
