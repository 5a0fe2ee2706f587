//! What `--wrong` can name.

/// The fields of each call, in the model's answer; then those of the other
/// checks: the ticket before Refit, to which Remove leads back, standard forms
/// beside each other, the model's answer to kind 3, its boxes and the list of the
/// rim, dead wires, what calls gave on kind 3 with a published kind's rows and on twins
/// of the second mark, the list of that mark and relistings across marks, the list's
/// number of a bad row, the explanation, the model's answer in a long run, the list's
/// answer on a second thread, what the calls have given.
const FIELDS: [(&str, &[&str]); 21] = [
    ("read", &["number", "nets", "entries"]),
    ("record", &["offset", "length"]),
    ("check", &["number"]),
    ("route", &["number", "width", "trials", "moved", "output"]),
    ("least", &["number", "width", "trials", "moved", "output"]),
    ("refit", &["number", "width", "trials", "moved", "output"]),
    ("remove", &["number", "output"]),
    ("standard", &["number", "output"]),
    ("back", &["output"]),
    (
        "form",
        &[
            "output", "other", "pair", "again", "counts", "answer", "tracks", "force", "list",
        ],
    ),
    (
        "rows",
        &["sign", "shift", "order", "form", "number", "limit"],
    ),
    (
        "rim",
        &[
            "straight", "search", "inner", "rows", "corner", "end", "own", "list",
        ],
    ),
    ("dead", &super::by_lists::FIELDS),
    ("twin", &BESIDE),
    ("wide", &BESIDE),
    ("mark", &["list", "relisted"]),
    ("bad", &["number"]),
    (
        "explain",
        &["number", "of", "record", "entry", "item", "offset", "row"],
    ),
    ("long", &["trials", "output"]),
    ("threads", &["number", "form", "rows", "dead", "marks"]),
    (
        "coverage",
        &[
            "number",
            "moved",
            "unroutable",
            "removed",
            "form",
            "rows",
            "width",
            "rim",
            "dead",
            "list",
            "mark",
            "edge",
            "halves",
            "twin",
            "length",
        ],
    ),
];

/// The calls, and the tracks and the form, on one of two sheets that are answered alike.
const BESIDE: [&str; 10] = [
    "read", "record", "check", "route", "least", "refit", "remove", "standard", "tracks", "form",
];

/// Of these, or of the wrong programs of 02 M-106.
pub fn known(call: &str, field: &str) -> bool {
    let mut all = FIELDS.iter();
    let here = all.any(|(name, fields)| *name == call && fields.contains(&field));
    here || super::by_marks::known(call, field)
}
