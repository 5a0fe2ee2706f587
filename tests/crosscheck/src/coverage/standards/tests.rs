//! That the kinds of Standard are told apart.

use super::*;
use sheets::paper::{same_channel, t_raw};
use sheets::{extremes, forms, Raw};

/// The kinds of a call that writes this form, or none, into `more` bytes more
/// than the sheet has, or fewer.
fn kinds(sheet: &Raw, more: isize, number: u32, form: Option<&Raw>) -> Vec<&'static str> {
    let bytes = sheet.bytes();
    let room = bytes.len().checked_add_signed(more).expect("a length");
    let mut output = vec![7; room];
    if let Some(form) = form {
        output[..bytes.len()].copy_from_slice(&form.bytes());
    }
    let outcome = Outcome::Written { number, output };
    super::kinds(&bytes, Call::Standard { room }, &outcome)
}

#[test]
fn forms_are_told_apart() {
    let t = t_raw(0, 2);
    let mut turned = t.clone();
    turned.records.reverse();
    turned.settle();
    assert_eq!(kinds(&t, 0, 0, Some(&t)), [SAME]);
    assert_eq!(kinds(&turned, 0, 0, Some(&t)), [CHANGED]);
    assert_eq!(kinds(&turned, 5, 0, Some(&t)), [CHANGED, LONGER]);
    let none = Raw::new(3, 2, 0, 2, Vec::new());
    assert_eq!(kinds(&none, 0, 0, Some(&none)), [SAME, NONE]);
    let full = extremes::alike(64, 32, 0, 32).list();
    assert!(kinds(&full, 0, 0, Some(&full)).contains(&FULL));
    let fewer = extremes::alike(63, 32, 0, 32).list();
    assert!(!kinds(&fewer, 0, 0, Some(&fewer)).contains(&FULL));
}

/// The example's tree has three orders; T's trees have one.
#[test]
fn orders_are_told_apart() {
    let example = forms::example();
    let sheet = parse(&example.bytes()).expect("a good sheet");
    let orders = |form: &[u8]| orders_differ(&sheet, form);
    assert!(orders(&model::standard::form(&sheet)));
    for (name, way) in near_forms::WAYS {
        let either = ["breadth first", "depth first"].contains(&name);
        assert_eq!(orders(&way(&sheet)), !either, "{name}");
    }
}

#[test]
fn refusals_are_told_apart() {
    let none: [&str; 0] = [];
    let t = t_raw(0, 2);
    assert_eq!(kinds(&t, -1, 14, None), [ONE_LESS, ENTRIES]);
    assert_eq!(kinds(&t, -2, 14, None), [ENTRIES]);
    assert_eq!(kinds(&t, 6 - 54, 14, None), [ENTRIES]);
    assert_eq!(kinds(&t, 5 - 54, 14, None), none);
    let mut same_name = same_channel(2, 0, 2);
    same_name.records[1].number = 1;
    assert_eq!(kinds(&same_name, -1, 9, None), [SHORT[9]]);
    assert_eq!(kinds(&same_name, 0, 9, None), none);
    assert!(SHORT[9].starts_with("gave 9 "));
    let bad_row = t_raw(0, 2).by_rows().with_row_bytes(&[2; 12]);
    assert_eq!(kinds(&bad_row, -1, 18, None), [SHORT[5]]);
    assert!(SHORT[5].starts_with("gave 18 "));
}
