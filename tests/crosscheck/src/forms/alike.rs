//! What a sheet and its standard form have in common: the form, the counts, and
//! what the other calls answer.

use super::{apart, formed};
use crate::coverage::standards;
use crate::failure::{describe, Failure};
use crate::judge::Judge;
use crate::listing::Listing;
use crate::outcome::{hex, Outcome};
use crate::relist;
use sheets::dead::shuffled;
use sheets::{Ask, Raw, Rng};

/// A form is its own form.
pub fn own_form(judge: &mut Judge, form: &[u8], rng: &mut Rng) -> Result<(), Failure> {
    let mut again = formed(judge, form, rng)?;
    if judge.spoils("form", "again") {
        again[0] ^= 1;
    }
    if again == form {
        judge.coverage.see(form, "standard", standards::AGAIN);
        return Ok(());
    }
    let what = "a form is not its own form";
    Err(apart(what, (form, form), (form, &again)))
}

/// Read gives 0 on both, and the same counts.
pub fn counts(judge: &mut Judge, bytes: &[u8], form: &[u8]) -> Result<(), Failure> {
    let of_sheet = judge.ask(bytes, &Ask::Read)?;
    let mut of_form = judge.ask(form, &Ask::Read)?;
    if judge.spoils("form", "counts") {
        of_form = Outcome::Counts {
            number: 0,
            nets: 65,
            entries: 0,
        };
    }
    if of_sheet.number() == Some(0) && of_form == of_sheet {
        judge.coverage.see(bytes, "standard", standards::COUNTED);
        return Ok(());
    }
    let call = describe(bytes, &Ask::Read, &[]);
    let failure = Failure::new("a sheet and its form have different counts", &call);
    Err(failure
        .with("both", of_sheet)
        .with("form", hex(form))
        .with("both", of_form))
}

/// Route, Least, Refit, Remove and Check answer alike on both, under the same list.
pub fn answers(
    judge: &mut Judge,
    raw: Raw,
    form: &[u8],
    dead: &[u8],
    rng: &mut Rng,
) -> Result<(), Failure> {
    let sheet = Listing::new(raw).under(dead);
    let form = Listing::form(form).under(&shuffled(dead, rng));
    relist::answered_alike(judge, rng, [&sheet, &form])
}
