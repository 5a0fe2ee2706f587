//! `--wrong CALL.FIELD`: makes one answer wrong, so that the run must fail.

mod by_lists;
mod by_marks;
mod by_rims;
mod by_rows;
mod fields;

use crate::battery::MOST;
use crate::board::Board;
use crate::call::Call;
use crate::explained::Explained;
use crate::item::List;
use crate::outcome::Outcome;
use sheets::Mark;
use trackrouter::explain::Subject;

#[derive(Clone, Debug)]
pub struct Wrong {
    call: String,
    field: String,
}

impl Wrong {
    pub fn parse(text: &str) -> Result<Self, String> {
        match text.split_once('.') {
            Some((call, field)) if fields::known(call, field) => Ok(Wrong {
                call: call.to_string(),
                field: field.to_string(),
            }),
            _ => Err(format!("no such field: {text}")),
        }
    }

    /// The wrong programs of 02 M-106, as `--wrong` names them.
    pub fn programs() -> Vec<String> {
        let all = by_marks::fields().into_iter();
        all.map(|(call, field)| format!("{call}.{field}")).collect()
    }

    /// Changes the model's answer if this is its call, or if it is of a long run.
    pub fn spoil(&self, call: Call, outcome: &mut Outcome) {
        if self.call == "long" {
            self.spoil_long(outcome);
        } else if self.call == call.name() {
            self.spoil_field(outcome);
        }
    }

    pub fn is(&self, call: &str, field: &str) -> bool {
        self.call == call && self.field == field
    }

    fn spoil_field(&self, outcome: &mut Outcome) {
        match outcome {
            Outcome::Counts {
                number,
                nets,
                entries,
            } => match &*self.field {
                "nets" => *nets ^= 1,
                "entries" => *entries ^= 1,
                _ => *number ^= 1,
            },
            Outcome::Part { offset, length } => match &*self.field {
                "offset" => *offset ^= 1,
                _ => *length ^= 1,
            },
            Outcome::Number(number) => *number ^= 1,
            Outcome::Answer { answer, output } => match &*self.field {
                "width" => answer.width ^= 1,
                "trials" => answer.trials ^= 1,
                "moved" => answer.moved ^= 1,
                "output" | "tracks" => spoil_first(output),
                _ => answer.number ^= 1,
            },
            Outcome::Written { number, output } => match &*self.field {
                "output" | "tracks" => spoil_first(output),
                _ => *number ^= 1,
            },
        }
    }

    /// What a library would answer that keeps trials in 16 bits, or that spoils
    /// its output in long runs alone.
    fn spoil_long(&self, outcome: &mut Outcome) {
        let Outcome::Answer { answer, .. } = outcome else {
            return;
        };
        if answer.trials <= MOST {
            return;
        }
        match &*self.field {
            "trials" => answer.trials &= 0xFFFF,
            _ if answer.number == 0 => self.spoil_field(outcome),
            _ => {}
        }
    }

    /// Changes what a call gave on a standard form.
    pub fn spoil_form(&self, outcome: &mut Outcome) {
        if self.is("form", "answer") || self.is("form", "tracks") {
            self.spoil_field(outcome);
        }
    }

    /// Changes what a list tells: that of dead wires, of Standard, of the second mark,
    /// or of the rim.
    pub fn spoil_list(&self, list: List, outcome: &mut Outcome) {
        let named = match list {
            List::Dead => self.is("dead", "list"),
            List::Forms => self.is("form", "list"),
            List::Marks => self.is("mark", "list"),
            List::Rim => self.is("rim", "list"),
            List::Other => false,
        };
        if named {
            self.spoil_field(outcome);
        }
    }

    /// Changes what the list tells of a call on the second thread.
    pub fn spoil_told(&self, board: Board, call: Call, outcome: &mut Outcome) {
        let named = match &*self.field {
            "form" => call.name() == "standard",
            "rows" => by_rows::is_kind_3(board.sheet),
            "dead" => !board.dead.is_empty(),
            "marks" => Mark::of(board.sheet) == Some(Mark::Long),
            _ => true,
        };
        if self.call == "threads" && named {
            self.spoil_field(outcome);
        }
    }

    /// Changes what the way back must give.
    pub fn spoil_back(&self, outcome: &mut Outcome) {
        if self.call == "back" {
            self.spoil_field(outcome);
        }
    }

    pub fn spoil_explained(&self, explained: &mut Explained) {
        if self.call != "explain" {
            return;
        }
        let other = |place: &mut Option<usize>| *place = place.map(|place| place ^ 1);
        match &*self.field {
            "of" => explained.of = explained.of.map(other_subject),
            "record" => other(&mut explained.record),
            "entry" => other(&mut explained.entry),
            "item" => other(&mut explained.item),
            "offset" => other(&mut explained.offset),
            "row" if explained.number == 18 => other(&mut explained.offset),
            "row" => {}
            _ => explained.number ^= 1,
        }
    }

    /// What the coverage is to forget.
    pub fn forgotten(&self) -> Option<&str> {
        (self.call == "coverage").then_some(&*self.field)
    }
}

fn spoil_first(output: &mut [u8]) {
    output.iter_mut().take(1).for_each(|byte| *byte ^= 1);
}

fn other_subject(subject: Subject) -> Subject {
    match subject {
        Subject::Sheet => Subject::List,
        Subject::List => Subject::Ticket,
        Subject::Ticket => Subject::Sheet,
    }
}
