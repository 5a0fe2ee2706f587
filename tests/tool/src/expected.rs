//! What is expected of a run.

use crate::failure::shown;

/// What one of the two outputs must be.
pub enum Text {
    Is(Vec<u8>),
    /// One line that begins with the first piece and has the others.
    Line(Vec<String>),
    /// It begins with the first piece and has the others.
    Has(Vec<String>),
}

impl Text {
    pub fn line(pieces: &[&str]) -> Text {
        Text::Line(pieces.iter().map(|piece| piece.to_string()).collect())
    }

    pub fn has(pieces: &[&str]) -> Text {
        Text::Has(pieces.iter().map(|piece| piece.to_string()).collect())
    }

    pub fn holds(&self, output: &[u8]) -> bool {
        let text = String::from_utf8_lossy(output);
        let has = |pieces: &[String]| {
            text.starts_with(&pieces[0]) && pieces.iter().all(|piece| text.contains(piece))
        };
        match self {
            Text::Is(bytes) => bytes == output,
            Text::Line(pieces) => is_line(output) && has(pieces),
            Text::Has(pieces) => has(pieces),
        }
    }

    /// Another expectation, which no right output meets.
    pub fn spoil(&mut self) {
        match self {
            Text::Is(bytes) => bytes.push(b'!'),
            Text::Line(pieces) | Text::Has(pieces) => pieces.push("!?".to_string()),
        }
    }

    pub fn shown(&self) -> String {
        match self {
            Text::Is(bytes) => shown(bytes),
            Text::Line(pieces) => format!("one line with {pieces:?}"),
            Text::Has(pieces) => format!("text with {pieces:?}"),
        }
    }
}

/// Whether the output is exactly one line of a length that one can read, with no
/// control character in it.
pub fn is_line(output: &[u8]) -> bool {
    let Some((b'\n', line)) = output.split_last() else {
        return false;
    };
    (1..2_000).contains(&line.len()) && !line.iter().any(u8::is_ascii_control)
}

pub struct Expected {
    pub status: i32,
    pub stdout: Text,
    pub stderr: Text,
}

/// The words for no, from 1 on.
const WORDS: [&str; 21] = [
    "length",
    "mark",
    "chip",
    "crowd",
    "directory",
    "channel",
    "twice",
    "joint",
    "name",
    "size",
    "track",
    "switch",
    "clash",
    "space",
    "unroutable",
    "spent",
    "stranger",
    "parameter",
    "list",
    "repeat",
    "broken",
];

pub fn word(number: u32) -> &'static str {
    WORDS[number as usize - 1]
}

/// The line of a refusal by a verb.
pub fn refusal(verb: &str, number: u32) -> Text {
    let begin = format!("trackrouter: {number} {}: ", word(number));
    let as_old = ["refit", "remove", "draw"].contains(&verb);
    let hint = match number {
        10 | 11 | 12 | 13 if as_old => "; trackrouter explain --old says where\n",
        14 => "",
        15 if verb == "least" => "at any width from 1 to 32\n",
        15 => "at this width\n",
        16 => "; a larger --budget may help",
        17 => "; trackrouter unpack shows its nets\n",
        19 | 20 => "; trackrouter explain --dead says where\n",
        21 if as_old => "; trackrouter explain --old --dead says where\n",
        21 => "; trackrouter explain --dead says where\n",
        _ => "; trackrouter explain says where\n",
    };
    Text::line(&[&begin, hint])
}
