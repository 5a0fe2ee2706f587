//! A disagreement, with all that is needed to repeat the call.

use crate::board::Board;
use crate::call::Call;
use crate::outcome::hex;
use sheets::Ask;
use std::fmt::{self, Write};

#[derive(Debug)]
pub struct Failure(String);

impl Failure {
    pub fn new(what: impl Into<String>, call: &str) -> Self {
        Failure(format!("{}\n{call}", what.into()))
    }

    /// What a whole run has not seen.
    pub fn missing(lines: &[String]) -> Self {
        Failure(format!("coverage: {}", lines.join("\ncoverage: ")))
    }

    /// Adds a line such as one side's answer.
    pub fn with(mut self, label: &str, value: impl fmt::Display) -> Self {
        write!(self.0, "\n{label}: {value}").expect("text takes text");
        self
    }
}

impl fmt::Display for Failure {
    fn fmt(&self, f: &mut fmt::Formatter) -> fmt::Result {
        f.write_str(&self.0)
    }
}

/// The call and its inputs, a line each.
pub fn describe<'a, 'b>(
    board: impl Into<Board<'b>>,
    call: impl Into<Call<'a>>,
    before: &[u8],
) -> String {
    let (board, call) = (board.into(), call.into());
    let mut text = format!("call: {}\nsheet: {}", call.name(), hex(board.sheet));
    let mut line = |label: &str, value: String| {
        text.push_str(&format!("\n{label}: {value}"));
    };
    if call.takes_list() {
        line("dead wires", hex(board.dead));
    }
    match call {
        Call::Listed(Ask::Read) | Call::Standard { .. } => {}
        Call::Listed(Ask::Record { place }) => line("place", place.to_string()),
        Call::Listed(Ask::Check { ticket }) => line("ticket", hex(ticket)),
        Call::Listed(Ask::Route { budget, .. } | Ask::Least { budget, .. }) => {
            line("budget", budget.to_string());
        }
        Call::Listed(Ask::Refit { old, budget, .. }) => {
            line("old ticket", hex(old));
            line("budget", budget.to_string());
        }
        Call::Listed(Ask::Remove { ticket, net, .. }) => {
            line("ticket", hex(ticket));
            line("net", net.to_string());
        }
    }
    if call.room().is_some() {
        line("output before", hex(before));
    }
    text
}
