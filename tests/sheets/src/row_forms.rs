//! Sheets of kind 3 for the standard form, 02 M-102: "the standard form keeps"
//! their rows.

use crate::design::Design;
use crate::forms::{example, tiny};
use crate::paper::T_WILTON_ROWS;
use crate::raw::{Raw, Record, ROOT};
use crate::rng::Rng;
use crate::rows::{any_row, bytes, minus, plus, Rows, ENDS, SUBSET, WILTON};

/// A sheet and its standard form, by hand.
pub struct Formed {
    pub name: &'static str,
    pub sheet: Vec<u8>,
    pub form: Vec<u8>,
}

/// Rows that are all unlike, and unlike their remainders at W 4.
const EXAMPLE_ROWS: Rows = [
    plus(-32),
    minus(31),
    plus(7),
    minus(-1),
    plus(30),
    minus(-4),
];

/// `forms::example` as kind 3, W 4.
pub fn row_example() -> Raw {
    let mut raw = example();
    raw.kind = 3;
    raw.with_row_bytes(&bytes(&EXAMPLE_ROWS))
}

/// The form of `row_example`: the nets as in that of `example`, whose bytes are
/// worked out beside the test of M-101, then the rows. Length 86.
#[rustfmt::skip]
const EXAMPLE_FORM: [u8; 86] = [
    0x07, 0x00, 0x02, 0x00, 0x01, 0x00, 0xFF, 0xFF, 0x08, 0x00, 0x00, 0x00,
    0x2C, 0x01, 0x08, 0x00, 0x00, 0x00, 0xFF, 0xFF, 0x06, 0x00, 0x00, 0x00,
    0x07, 0x00, 0x00, 0x00, 0x03, 0x00, 0x02, 0x00, 0x09, 0x00, 0x01, 0x00,
    0x02, 0x00, 0x04, 0x00, 0x04, 0x00, 0x04, 0x00, 0x0B, 0x00, 0x03, 0x00,
    0x00, 0x02, 0x01, 0x00, 0x05, 0x00, 0xFF, 0xFF,
    0x00, 0x00, 0x0C, 0x00, 0x30, 0x00,
    0x00, 0xE0, 0x01, 0x1F, 0x00, 0x07, 0x01, 0xFF, 0x00, 0x1E, 0x01, 0xFC,
    0x03, 0x03, 0x03, 0x04, 0x03, 0x00, 0x38, 0x00, 0x56, 0x00, 0x57, 0x48,
];

/// Nothing but rows: a chip of 2 by 16, W 32, the rows `ENDS`. Length 24.
const NO_NETS: [u8; 24] = [
    0x00, 0xE0, 0x01, 0x1F, 0x01, 0xE0, 0x00, 0x1F, 0x01, 0xFF, 0x00, 0xFE, 0x02, 0x10, 0x03, 0x20,
    0x00, 0x00, 0x00, 0x00, 0x18, 0x00, 0x57, 0x48,
];

pub fn formed() -> Vec<Formed> {
    let turned = vec![
        Record::new(3, &[(5, ROOT), (0, 0)]),
        Record::new(1, &[(0, ROOT), (1, 0)]),
        Record::new(2, &[(5, ROOT), (1, 0)]),
    ];
    let turned = Raw::new(3, 2, 3, 2, turned).with_row_bytes(&bytes(&WILTON));
    let none = Raw::new(2, 16, 3, 32, Vec::new()).with_row_bytes(&bytes(&ENDS));
    let of = |name, raw: Raw, form: &[u8]| Formed {
        name,
        sheet: raw.bytes(),
        form: form.to_vec(),
    };
    vec![
        of("example by rows", row_example(), &EXAMPLE_FORM),
        of("T turned round, by rows", turned, &T_WILTON_ROWS),
        of("no nets, by rows", none, &NO_NETS),
    ]
}

/// A tiny design of kind 3 with one of few rows, some of which act alike at its
/// width 1.
pub fn tiny_by_rows(rng: &mut Rng) -> Design {
    let mut rows = SUBSET;
    rows[rng.below(2)] = *rng.pick(&[plus(0), plus(-1), minus(0)]);
    tiny(rng).with_rows(rows)
}

/// The design with another row in one column: its sign alone, its shift by the
/// width (which acts alike there) or by one, or any. `None` if the kind is not 3.
pub fn row_changed(design: &Design, rng: &mut Rng) -> Option<Design> {
    if design.kind != 3 {
        return None;
    }
    let mut other = design.clone();
    let row = &mut other.rows[rng.below(6)];
    let old = *row;
    let width = i16::from(design.width);
    match rng.below(4) {
        0 => row.minus = !row.minus,
        1 => row.shift = moved(row.shift, width),
        2 => row.shift = moved(row.shift, 1),
        _ => *row = any_row(rng),
    }
    (*row != old).then_some(other)
}

/// A shift that is `by` more, or less where it would be no shift.
fn moved(shift: i8, by: i16) -> i8 {
    let more = i16::from(shift) + by;
    let less = i16::from(shift) - by;
    (if more <= 31 { more } else { less.max(-32) }) as i8
}
