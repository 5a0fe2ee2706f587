//! The model made wrong on kind 3 alone.

use super::{spoil_first, Wrong};
use crate::call::Call;
use crate::outcome::Outcome;

/// Where the rows stand, if the kind is 3.
fn place(sheet: &[u8]) -> Option<std::ops::Range<usize>> {
    let end = sheet.len().checked_sub(12)?;
    let start = end.checked_sub(12)?;
    (sheet[end + 2] == 3).then_some(start..end)
}

pub fn is_kind_3(sheet: &[u8]) -> bool {
    place(sheet).is_some()
}

impl Wrong {
    /// The sheet that the model reads instead: with other rows, bad ones kept bad;
    /// or, with the old limit, one that is too short where it is too long. Standard
    /// reads the rows as they are.
    pub fn misread(&self, call: Call, sheet: &[u8]) -> Option<Vec<u8>> {
        if self.is("rows", "limit") {
            return (sheet.len() > 8588).then(Vec::new);
        }
        let mut other = sheet.to_vec();
        let rows = &mut other[place(sheet).filter(|_| call.name() != "standard")?];
        if self.is("rows", "order") {
            rows.rotate_left(2);
        } else if self.is("rows", "sign") {
            let signs = rows.iter_mut().step_by(2);
            signs.filter(|sign| **sign < 2).for_each(|sign| *sign ^= 1);
        } else if self.is("rows", "shift") {
            let shifts = rows.iter_mut().skip(1).step_by(2);
            let good = shifts.filter(|shift| !(31..224).contains(*shift));
            good.for_each(|shift| *shift = shift.wrapping_add(1));
        } else {
            return None;
        }
        Some(other)
    }

    /// Changes the model's form of kind 3, or its number 18.
    pub fn spoil_rows(&self, sheet: &[u8], call: Call, outcome: &mut Outcome) {
        let place = place(sheet).filter(|_| self.is("rows", "form"));
        if let (Outcome::Written { number: 0, output }, Some(place), "standard") =
            (&mut *outcome, place, call.name())
        {
            output[place].fill(0);
        }
        if self.is("rows", "number") {
            no_18(outcome);
        }
    }

    /// Changes the number that the list tells of a bad row.
    pub fn spoil_bad(&self, outcome: &mut Outcome) {
        if self.is("bad", "number") {
            no_18(outcome);
        }
    }

    /// Changes what a call gave on kind 3 with a published kind's rows.
    pub fn spoil_twin(&self, call: Call, outcome: &mut Outcome) {
        self.spoil_beside("twin", call, outcome);
    }

    /// Changes what a call gave on one of two sheets that are answered alike.
    pub fn spoil_beside(&self, named: &str, call: Call, outcome: &mut Outcome) {
        if self.call != named {
            return;
        }
        match (&*self.field, outcome) {
            ("tracks", Outcome::Answer { output, .. }) => spoil_first(output),
            ("form", Outcome::Written { output, .. }) if call.name() == "standard" => {
                spoil_first(output);
            }
            (field, outcome) if field == call.name() => self.spoil_field(outcome),
            _ => {}
        }
    }
}

/// 6 for 18.
fn no_18(outcome: &mut Outcome) {
    let number = match outcome {
        Outcome::Counts { number, .. } | Outcome::Number(number) => number,
        Outcome::Answer { answer, .. } => &mut answer.number,
        Outcome::Written { number, .. } => number,
        Outcome::Part { .. } => return,
    };
    if *number == 18 {
        *number = 6;
    }
}
