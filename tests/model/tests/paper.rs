//! The model against what the paper prints and what follows by hand.

mod common;

use common::hold;

#[test]
fn marked_cases() {
    hold(&sheets::paper::marked());
}

#[test]
fn others() {
    hold(&sheets::paper::others());
}

#[test]
fn printed_lines_of_t() {
    let lines = model::lines::least_lines(&sheets::paper::T);
    assert_eq!(lines, sheets::paper::T_LINES);
}

/// 02 M-106: widened numbers are printed alike, and long ones whole.
#[test]
fn printed_lines_of_long_numbers() {
    let lines = model::lines::least_lines(&sheets::paper::T_LONG);
    assert_eq!(lines, sheets::paper::T_LINES);
    let sheet = sheets::marks::t(2, [4_294_967_295, 65_536, 65_535]).bytes();
    let told = "answer 0 width 3 trials 16\n\
                4294967295 0.2 1.2\n65536 1.1 5.1\n65535 0.0 5.0\n";
    assert_eq!(model::lines::least_lines(&sheet), told);
}

#[test]
fn a_refusal_prints_the_first_line_only() {
    let lines = model::lines::least_lines(&[]);
    assert_eq!(lines, "answer 1 width 0 trials 0\n");
}

#[test]
fn boxes() {
    hold(&sheets::boxes::cases());
    hold(&sheets::boxes::other_end());
}

#[test]
fn boxes_by_rows() {
    hold(&sheets::boxes::row_cases());
    hold(&sheets::boxes::row_calls());
}

/// 02 M-106: the second mark, by hand, and the lists above under it.
#[test]
fn second_mark() {
    hold(&sheets::marks::cases());
    let mut all = sheets::boxes::cases();
    all.extend(sheets::boxes::other_end());
    all.extend(sheets::boxes::row_cases());
    all.extend(sheets::boxes::row_calls());
    let long = sheets::case::long(&all);
    assert_eq!(long.len(), all.len());
    hold(&long);
}

#[test]
fn refusals() {
    hold(&sheets::refusals::cases());
}
