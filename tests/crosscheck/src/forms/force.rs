//! Small sheets whose form brute force settles.

use super::{apart, formed};
use crate::coverage::standards;
use crate::failure::Failure;
use crate::judge::Judge;
use model::brute_standard;
use model::sheet::parse;
use model::standard::Listed;
use sheets::{Raw, Record, Rng};

/// The form is what brute force settles, where it can.
pub fn settled(judge: &mut Judge, raw: &Raw, rng: &mut Rng) -> Result<(), Failure> {
    let bytes = raw.bytes();
    let sheet = parse(&bytes).expect("a good sheet");
    let Some(records) = brute_standard::records(&sheet) else {
        return Ok(());
    };
    let mut told = laid_out(raw, &records);
    if judge.spoils("form", "force") {
        told[0] ^= 1;
    }
    let form = formed(judge, &bytes, rng)?;
    if form == told {
        judge.coverage.see(&bytes, "standard", standards::FORCE);
        return Ok(());
    }
    let what = "the form is not what brute force settles";
    Err(apart(what, (&bytes, &form), (&bytes, &told)))
}

/// The sheet with these records.
fn laid_out(raw: &Raw, records: &[Listed]) -> Vec<u8> {
    let record = |listed: &Listed| Record::new(listed.number, &listed.entries);
    let records = records.iter().map(record).collect();
    let laid_out = Raw::new(raw.columns, raw.rows, raw.kind, raw.width, records);
    let laid_out = laid_out.marked(raw.form);
    laid_out.with_row_bytes(&raw.row_bytes).bytes()
}
