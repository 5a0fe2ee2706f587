//! All that a call gives back.

use sheets::{Answer, Told};
use std::fmt;

#[derive(Clone, Debug, PartialEq, Eq, Hash)]
pub enum Outcome {
    Counts {
        number: u32,
        nets: u32,
        entries: u32,
    },
    Part {
        offset: usize,
        length: usize,
    },
    Number(u32),
    Answer {
        answer: Answer,
        /// The whole output after the call.
        output: Vec<u8>,
    },
    Written {
        number: u32,
        /// The whole output after the call.
        output: Vec<u8>,
    },
}

impl Outcome {
    /// The outcome told by a case whose output was lent with these bytes.
    pub fn told(told: &Told, before: &[u8]) -> Self {
        match told {
            &Told::Counts {
                number,
                nets,
                entries,
            } => Outcome::Counts {
                number,
                nets,
                entries,
            },
            &Told::Part { offset, length } => Outcome::Part { offset, length },
            &Told::Number(number) => Outcome::Number(number),
            Told::Answer { answer, written } => Outcome::Answer {
                answer: *answer,
                output: overwritten(before, written),
            },
            Told::Ticket { number, written } => Outcome::Written {
                number: *number,
                output: overwritten(before, written),
            },
        }
    }

    /// The number; a part has none.
    pub fn number(&self) -> Option<u32> {
        match self {
            Outcome::Counts { number, .. } | Outcome::Number(number) => Some(*number),
            Outcome::Answer { answer, .. } => Some(answer.number),
            Outcome::Written { number, .. } => Some(*number),
            Outcome::Part { .. } => None,
        }
    }

    /// What Route, Least or Refit gave.
    pub fn answer(&self) -> (Answer, &[u8]) {
        match self {
            Outcome::Answer { answer, output } => (*answer, output),
            _ => panic!("this call has no answer"),
        }
    }

    /// What Remove or Standard gave.
    pub fn written(&self) -> (u32, &[u8]) {
        match self {
            Outcome::Written { number, output } => (*number, output),
            _ => panic!("this call has not a number and an output alone"),
        }
    }
}

/// An output of these bytes after a call that wrote those.
fn overwritten(before: &[u8], written: &[u8]) -> Vec<u8> {
    let mut output = before.to_vec();
    output[..written.len()].copy_from_slice(written);
    output
}

pub fn hex(bytes: &[u8]) -> String {
    let digits: Vec<String> = bytes.iter().map(|byte| format!("{byte:02X}")).collect();
    format!("({} bytes) {}", bytes.len(), digits.join(" "))
}

impl fmt::Display for Outcome {
    fn fmt(&self, f: &mut fmt::Formatter) -> fmt::Result {
        match self {
            Outcome::Counts {
                number,
                nets,
                entries,
            } => write!(f, "number {number} nets {nets} entries {entries}"),
            Outcome::Part { offset, length } => write!(f, "offset {offset} length {length}"),
            Outcome::Number(number) => write!(f, "number {number}"),
            Outcome::Answer { answer, output } => write!(
                f,
                "number {} width {} trials {} moved {} output {}",
                answer.number,
                answer.width,
                answer.trials,
                answer.moved,
                hex(output)
            ),
            Outcome::Written { number, output } => {
                write!(f, "number {number} output {}", hex(output))
            }
        }
    }
}
