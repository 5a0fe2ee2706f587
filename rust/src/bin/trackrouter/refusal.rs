//! A refusal's line on standard error.

use crate::{print, Status};
use trackrouter::{number, word, Refusal};

/// What was asked, as far as the line differs by it.
#[derive(Clone, Copy, PartialEq, Eq)]
pub enum Asked {
    /// Read, Record, Standard, Check, Route, and what the tool does without a call.
    Plain,
    Least,
    /// The ticket is judged as Refit's old one: Refit, Remove, and pictures.
    Old,
}

/// The number of an answer; 0 if it is no refusal.
pub fn number_of<T>(answer: &Result<T, Refusal>) -> u32 {
    answer.as_ref().err().map_or(0, |refusal| refusal.number)
}

/// The number with its word, if it has one.
pub fn named(number: u32) -> String {
    match word(number) {
        "" => number.to_string(),
        word => format!("{number} {word}"),
    }
}

/// Says the number, its word, the condition, and what may help.
pub fn refused(number: u32, asked: Asked) -> Status {
    let condition = condition(number, asked);
    let help = help(number, asked);
    print::say(&format!("{}: {condition}{help}", named(number)));
    Status::Refused
}

fn condition(number: u32, asked: Asked) -> &'static str {
    match number {
        number::LENGTH => "the sheet has under 12 or over 8,728 bytes",
        number::MARK => "the sheet's last two bytes or its length field are wrong",
        number::CHIP => "A, B, kind or W is outside its values",
        number::CROWD => "there are more than 64 nets",
        number::DIRECTORY => {
            "records and directory do not fit together, or a net has not 1 to 32 entries"
        }
        number::PARAMETER => "a sign or a shift of kind 3 is outside its values",
        number::CHANNEL => "there is no such channel",
        number::TWICE => "a channel stands twice in one net",
        number::JOINT => "a parent breaks its rule",
        number::NAME => "two nets have one number",
        number::LIST => {
            "the list of dead wires is not of whole items, or has an unknown channel or a track over 31"
        }
        number::REPEAT => "a wire stands twice in the list of dead wires",
        number::SIZE => "the ticket's length is not the entry count",
        number::TRACK if asked == Asked::Old => {
            "a track is not below W, and its net is not unplaced"
        }
        number::TRACK => "a track is not below W",
        number::SWITCH => "a joint's tracks are not partners",
        number::BROKEN => "a net is on a dead wire",
        number::CLASH => "a wire is held by two nets",
        number::STRANGER => "the sheet has no net of this number",
        number::SPACE => "the output is shorter than what the call writes",
        number::UNROUTABLE if asked == Asked::Least => {
            "there is no right ticket at any width from 1 to 32"
        }
        number::UNROUTABLE => "there is no right ticket at this width",
        number::SPENT => "the whole run needs more trials than the budget",
        _ => "this tool has no word for the number",
    }
}

fn help(number: u32, asked: Asked) -> &'static str {
    match number {
        number::LENGTH
        | number::MARK
        | number::CHIP
        | number::CROWD
        | number::DIRECTORY
        | number::PARAMETER
        | number::CHANNEL
        | number::TWICE
        | number::JOINT
        | number::NAME => "; trackrouter explain says where",
        number::LIST | number::REPEAT => "; trackrouter explain --dead says where",
        number::BROKEN => match asked {
            Asked::Old => "; trackrouter explain --old --dead says where",
            Asked::Plain | Asked::Least => "; trackrouter explain --dead says where",
        },
        number::SIZE | number::TRACK | number::SWITCH | number::CLASH => match asked {
            Asked::Old => "; trackrouter explain --old says where",
            Asked::Plain | Asked::Least => "; trackrouter explain says where",
        },
        number::STRANGER => "; trackrouter unpack shows its nets",
        number::SPENT => "; a larger --budget may help, up to 4294967295",
        _ => "",
    }
}
