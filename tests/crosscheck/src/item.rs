//! A call of the lists written by hand, with what they tell of its outcome.

use crate::board::Board;
use crate::call::Call;
use sheets::{Case, Told};

/// The lists whose tellings `--wrong` can change.
#[derive(Clone, Copy)]
pub enum List {
    Dead,
    Forms,
    Marks,
    Rim,
    Other,
}

#[derive(Clone, Copy)]
pub struct Item<'a> {
    pub list: List,
    pub name: &'a str,
    pub board: Board<'a>,
    pub call: Call<'a>,
    pub told: &'a Told,
}

impl<'a> From<&'a Case> for Item<'a> {
    fn from(case: &'a Case) -> Self {
        Item {
            list: List::Other,
            name: &case.name,
            board: Board::new(&case.sheet, &case.dead),
            call: Call::Listed(&case.ask),
            told: &case.told,
        }
    }
}
