//! Asks the library and the model the same and compares everything.

use crate::board::Board;
use crate::call::Call;
use crate::coverage::{dead, removes, Coverage};
use crate::digest::{is_old, Digest};
use crate::failure::{describe, Failure};
use crate::item::Item;
use crate::lent::Manner;
use crate::marks::twins;
use crate::options::Options;
use crate::outcome::Outcome;
use crate::wrong::Wrong;
use crate::{back, by_library, by_model, explained};
use sheets::{Mark, Rng};

pub struct Judge {
    pub calls: u64,
    pub coverage: Coverage,
    pub digest: Digest,
    wrong: Option<Wrong>,
    trace: bool,
    /// Whether the library is one from before 02 M-106.
    old: bool,
    /// The last sheet of the first mark that was asked.
    last: Vec<u8>,
    /// Chance for guards and for what outputs hold before a call.
    rng: Rng,
}

impl Judge {
    pub fn new(options: &Options) -> Self {
        Judge {
            calls: 0,
            coverage: Coverage::default(),
            digest: Digest::default(),
            wrong: options.wrong.clone(),
            trace: options.trace,
            old: options.old,
            last: Vec::new(),
            rng: Rng::new(!options.seed),
        }
    }

    /// Whether `--wrong` names this field.
    pub fn spoils(&self, call: &str, field: &str) -> bool {
        self.wrong().is_some_and(|wrong| wrong.is(call, field))
    }

    /// What `--wrong` names.
    pub fn wrong(&self) -> Option<&Wrong> {
        self.wrong.as_ref()
    }

    /// Asks both; the outcome is the one they agree on.
    pub fn ask<'a, 'b>(
        &mut self,
        board: impl Into<Board<'b>>,
        call: impl Into<Call<'a>>,
    ) -> Result<Outcome, Failure> {
        let call = call.into();
        let before = self.output_before(call);
        self.compare(board, call, &before)
    }

    /// Asks both and compares with what the list tells.
    pub fn item(&mut self, item: &Item) -> Result<(), Failure> {
        let before = self.output_before(item.call);
        let outcome = self.compare(item.board, item.call, &before);
        let outcome = outcome.map_err(|failure| failure.with("case", item.name))?;
        let mut told = Outcome::told(item.told, &before);
        if let Some(wrong) = &self.wrong {
            wrong.spoil_list(item.list, &mut told);
        }
        if outcome == told {
            return Ok(());
        }
        let call = describe(item.board, item.call, &before);
        let failure = Failure::new("library and model disagree with the list", &call);
        Err(failure
            .with("case", item.name)
            .with("list", told)
            .with("both", outcome))
    }

    /// Asks both, with an output that holds these bytes before the call.
    pub fn compare<'a, 'b>(
        &mut self,
        board: impl Into<Board<'b>>,
        call: impl Into<Call<'a>>,
        before: &[u8],
    ) -> Result<Outcome, Failure> {
        let call = call.into();
        let board = board.into().lent(call);
        let expected = self.by_model(board, call, before);
        if self.trace {
            eprintln!("{}", describe(board, call, before));
        }
        for manner in self.manners(board, call) {
            let (got, changed) = match self.old && !is_old(board.sheet) {
                false => by_library::ask(board, call, before, manner),
                true => (expected.clone(), None),
            };
            if changed.is_some() || got != expected {
                let what = match changed {
                    Some(bytes) => format!("the library changed {bytes}"),
                    None => "the library and the model disagree".to_string(),
                };
                let failure = Failure::new(what, &describe(board, call, before));
                return Err(failure.with("model", expected).with("library", got));
            }
            self.calls += 1;
            self.coverage.note(board.sheet, call.name(), &got);
            self.digest.note(board, call, before, &got);
        }
        self.coverage.note_kinds(board, call, &expected);
        self.explain(board, call, before, &expected)?;
        self.way_back(board, call, before, &expected)?;
        if self.wants_twin(board) {
            twins::beside(self, board, call, before, &expected)?;
        }
        Ok(expected)
    }

    /// Whether the twin of a sheet of the first mark is asked too: at the first call on
    /// each sheet, else by chance. A sheet that is refused has none.
    fn wants_twin(&mut self, board: Board) -> bool {
        if Mark::of(board.sheet) != Some(Mark::Short) {
            return false;
        }
        let new = self.last != board.sheet;
        if new {
            self.last = board.sheet.to_vec();
        }
        new || self.rng.chance(1, 16)
    }

    /// The model's answer, changed if `--wrong` names it.
    fn by_model(&self, board: Board, call: Call, before: &[u8]) -> Outcome {
        let Some(wrong) = &self.wrong else {
            return by_model::ask(board, call, before);
        };
        let by_rule = wrong.by_rule(board, call, before);
        let by_rule = by_rule.or_else(|| wrong.by_list(board, call, before));
        if let Some(given) = by_rule.or_else(|| wrong.by_mark(board, call, before)) {
            return given;
        }
        let sheet = wrong.misread(call, board.sheet);
        let dead = wrong.misread_list(call, board);
        let seen = Board {
            sheet: sheet.as_deref().unwrap_or(board.sheet),
            dead: dead.as_deref().unwrap_or(board.dead),
        };
        let mut answer = by_model::ask(seen, call, before);
        wrong.spoil(call, &mut answer);
        wrong.spoil_rows(board.sheet, call, &mut answer);
        answer
    }

    /// Where Refit placed just one net and moved none: whether Remove of that net
    /// gives back the old ticket.
    fn way_back(
        &mut self,
        board: Board,
        call: Call,
        before: &[u8],
        outcome: &Outcome,
    ) -> Result<(), Failure> {
        let Some((removal, mut told)) = back::way(board, call, outcome) else {
            return Ok(());
        };
        if let Some(wrong) = &self.wrong {
            wrong.spoil_back(&mut told);
        }
        let before_removal = self.output_before(&removal);
        let left = self.compare(board, &removal, &before_removal);
        let left = left.map_err(|failure| failure.with("asked", "on the way back from a refit"))?;
        if left == told {
            self.coverage.see(board.sheet, "remove", removes::BACK);
            if !board.dead.is_empty() {
                self.coverage.see(board.sheet, "remove", dead::BACK);
            }
            return Ok(());
        }
        let call = describe(board, call, before);
        let failure = Failure::new("Remove does not lead back to the old ticket", &call);
        Err(failure
            .with("both", outcome)
            .with("then", describe(board, &removal, &before_removal))
            .with("the way back", told)
            .with("both", left))
    }

    /// Whether `explain` has the number that both gave.
    fn explain(
        &self,
        board: Board,
        call: Call,
        before: &[u8],
        outcome: &Outcome,
    ) -> Result<(), Failure> {
        let mut explained = explained::ask(board, call);
        if let Some(wrong) = &self.wrong {
            wrong.spoil_explained(&mut explained);
        }
        if explained.agrees(board, call, outcome) {
            return Ok(());
        }
        let call = describe(board, call, before);
        let failure = Failure::new("the explanation disagrees with the library", &call);
        Err(failure
            .with("explanation", explained)
            .with("library", outcome))
    }

    /// One manner, and where a buffer is empty another with the null pointer; for an
    /// empty list chance decides.
    fn manners(&mut self, board: Board, call: Call) -> Vec<Manner> {
        let guard = match self.rng.below(4) {
            0 => 0,
            1 => 255,
            _ => self.rng.byte(),
        };
        let manner = Manner {
            guard,
            margin: self.rng.between(32, 47),
            null: false,
            null_list: self.rng.chance(1, 2),
        };
        let null = Manner {
            null: true,
            ..manner
        };
        let empty_ticket = call.ticket().is_some_and(<[u8]>::is_empty);
        if board.sheet.is_empty() || empty_ticket || call.room() == Some(0) {
            vec![manner, null]
        } else {
            vec![manner]
        }
    }

    /// Chance bytes of the output's length.
    pub fn output_before<'a>(&mut self, call: impl Into<Call<'a>>) -> Vec<u8> {
        let room = call.into().room().unwrap_or(0);
        (0..room).map(|_| self.rng.byte()).collect()
    }
}
