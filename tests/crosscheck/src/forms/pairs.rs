//! "The same nets, channels and joints exactly if their standard forms are equal
//! bytes": on pairs of tiny designs, which by chance are often the same. Most of
//! them are of kind 3; their rows are the same only if all bytes are. Those of two
//! marks have two forms.

use super::{apart, formed};
use crate::coverage::{rows, standards};
use crate::failure::Failure;
use crate::judge::Judge;
use sheets::{forms, row_forms, Design, Mark, Rng, Rows};
use std::collections::{BTreeMap, BTreeSet};

const DESIGNS: usize = 600;

/// Under each net number the channels, and the joints in either order.
type Nets = BTreeMap<u32, (BTreeSet<u16>, BTreeSet<(u16, u16)>)>;

fn nets(design: &Design) -> Nets {
    let either = |&(a, b): &(u16, u16)| [(a, b), (b, a)];
    let sets = |net: &sheets::Net| {
        let channels = net.channels.iter().copied().collect();
        (channels, net.joints.iter().flat_map(either).collect())
    };
    let nets = design.nets.iter();
    nets.map(|net| (net.number, sets(net))).collect()
}

/// A tiny design in a chance listing, with its form.
struct Tiny {
    mark: Mark,
    nets: Nets,
    rows: Option<Rows>,
    bytes: Vec<u8>,
    form: Vec<u8>,
}

/// How many pairs were right.
pub fn run(judge: &mut Judge, rng: &mut Rng) -> Result<usize, Failure> {
    let mut all: Vec<Tiny> = Vec::new();
    for place in 0..DESIGNS {
        let by_rows = place % 3 > 0;
        let design = match by_rows {
            true => row_forms::tiny_by_rows(rng),
            false => forms::tiny(rng),
        };
        let bytes = design.relist(rng).bytes();
        all.push(Tiny {
            mark: design.mark,
            nets: nets(&design),
            rows: by_rows.then_some(design.rows),
            form: formed(judge, &bytes, rng)?,
            bytes,
        });
    }
    if judge.spoils("form", "pair") {
        all.iter_mut().for_each(|tiny| tiny.form.clear());
    }
    for (place, other) in all.iter().enumerate() {
        for one in &all[..place] {
            pair(judge, one, other)?;
        }
    }
    Ok(DESIGNS * (DESIGNS - 1) / 2)
}

fn pair(judge: &mut Judge, one: &Tiny, other: &Tiny) -> Result<(), Failure> {
    let same = one.mark == other.mark && one.nets == other.nets && one.rows == other.rows;
    if same == (one.form == other.form) {
        if same && one.bytes != other.bytes {
            judge.coverage.see(&one.bytes, "standard", standards::PAIR);
            if one.rows.is_some() {
                judge.coverage.see(&one.bytes, "standard", rows::PAIR);
            }
        }
        return Ok(());
    }
    let what = match same {
        true => "the same nets have different forms",
        false => "different nets or rows have one form",
    };
    Err(apart(
        what,
        (&one.bytes, &one.form),
        (&other.bytes, &other.form),
    ))
}
