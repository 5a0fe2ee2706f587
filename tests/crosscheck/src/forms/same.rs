//! Relistings have one form, other nets or rows another.

use super::{apart, formed};
use crate::coverage::{rows, standards};
use crate::failure::Failure;
use crate::judge::Judge;
use sheets::{forms, row_forms, Design, Rng};

/// How many more listings of a design there are.
const LISTINGS: usize = 3;

type Change = fn(&Design, &mut Rng) -> Option<Design>;

/// Changes of one thing, and what a run has seen with each.
const CHANGES: [(&str, Change); 4] = [
    (standards::JOINT, forms::joint_moved),
    (standards::CHANNEL, forms::channel_changed),
    (standards::NUMBER, forms::number_changed),
    (rows::ROW, row_forms::row_changed),
];

/// The form of a design's listing, to which those of others are equal.
pub fn relistings(
    judge: &mut Judge,
    design: &Design,
    bytes: &[u8],
    rng: &mut Rng,
) -> Result<Vec<u8>, Failure> {
    let mut form = formed(judge, bytes, rng)?;
    if judge.spoils("form", "output") {
        form[0] ^= 1;
    }
    for _ in 0..LISTINGS {
        let other = design.relist(rng).bytes();
        let form_other = formed(judge, &other, rng)?;
        if form_other != form {
            let what = "two relistings have different forms";
            return Err(apart(what, (bytes, &form), (&other, &form_other)));
        }
        if other != bytes {
            judge.coverage.see(bytes, "standard", standards::RELISTED);
            if rows::has_own_rows(bytes) {
                judge.coverage.see(bytes, "standard", rows::RELISTED);
            }
        }
    }
    Ok(form)
}

/// The forms of designs that differ from this one in one thing are not its form.
pub fn other_nets(
    judge: &mut Judge,
    design: &Design,
    form: &[u8],
    rng: &mut Rng,
) -> Result<(), Failure> {
    for (kind, change) in CHANGES {
        let Some(other) = change(design, rng) else {
            continue;
        };
        let bytes = other.relist(rng).bytes();
        let mut form_other = formed(judge, &bytes, rng)?;
        if judge.spoils("form", "other") {
            form_other = form.to_vec();
        }
        if form_other == form {
            let what = "different nets or rows have one form";
            return Err(apart(what, (form, form), (&bytes, &form_other)));
        }
        judge.coverage.see(&bytes, "standard", kind);
    }
    Ok(())
}
