//! The calls on the paper's sheet T: m1, m2, m6, m12 and a refit; the version of the library; what a refusal shows.

use trackrouter::*;

const T: [u8; 54] = *include_bytes!("../../sheets/t.sheet");

fn at_width(w: u8) -> [u8; 54] {
    let mut sheet = T;
    sheet[45] = w;
    sheet
}

fn refusal(number: u32, trials: u32) -> Refusal {
    Refusal { number, trials }
}

/// A stale library is noticed here.
#[test]
fn the_library_fits_this_package() {
    assert_eq!(version(), VERSION);
}

#[test]
fn sheets() {
    let counts = Counts {
        nets: 3,
        entries: 6,
    };
    assert_eq!(read(&T), Ok(counts));
    assert_eq!(record(&T, 2), &T[24..36]);
    assert_eq!(record(&T, 3), &[] as &[u8]);
    assert_eq!(read(&[]), Err(refusal(number::LENGTH, 0)));
    assert_eq!(read(&at_width(33)), Err(refusal(number::CHIP, 0)));
}

#[test]
fn tickets() {
    assert_eq!(check(&at_width(3), &[], &[0, 0, 1, 1, 2, 2]), Ok(()));
    assert_eq!(check(&T, &[], &[0; 5]), Err(refusal(number::SIZE, 0)));
}

/// Net 1 has channels 0 and 1, net 2 has 1 and 5, net 3 has 0 and 5.
#[test]
fn old_tickets() {
    // Unroutable, or spent without a trial: no fault of the ticket.
    assert_eq!(check_old(&T, &[], &[UNPLACED; 6]), Ok(()));
    assert_eq!(
        check_old(&T, &[], &[0, 0, 1, 1, UNPLACED, UNPLACED]),
        Ok(())
    );
    assert_eq!(check_old(&at_width(3), &[], &[0, 0, 1, 1, 2, 2]), Ok(()));
    let wide = at_width(33);
    for (sheet, ticket, number) in [
        (&wide, [UNPLACED; 6], number::CHIP),
        (&T, [0, 0, 1, 1, 0, UNPLACED], number::TRACK),
        (&T, [0, 1, UNPLACED, UNPLACED, 1, 1], number::SWITCH),
        (&T, [0, 0, UNPLACED, UNPLACED, 0, 0], number::CLASH),
    ] {
        assert_eq!(check_old(sheet, &[], &ticket), Err(refusal(number, 0)));
    }
    assert_eq!(check_old(&T, &[], &[0; 5]), Err(refusal(number::SIZE, 0)));
}

#[test]
fn routes() {
    let mut out = [0xAA; 7];
    let unroutable = refusal(number::UNROUTABLE, 10);
    assert_eq!(route(&T, &[], 10, &mut out), Err(unroutable));
    assert_eq!(route(&T, &[], 9, &mut out), Err(refusal(number::SPENT, 9)));
    assert_eq!(out, [0xAA; 7]);
    let found = Routed {
        width: 3,
        trials: 16,
        moved: 0,
        ticket: &[0, 0, 1, 1, 2, 2],
    };
    assert_eq!(least(&T, &[], 16, &mut out), Ok(found));
    assert_eq!(out, [0, 0, 1, 1, 2, 2, 0xAA]);
    assert_eq!(
        route(&T, &[], 10, &mut out[..5]),
        Err(refusal(number::SPACE, 0))
    );
    let refitted = Routed { trials: 6, ..found };
    let old = [0, 0, 1, 1, UNPLACED, UNPLACED];
    assert_eq!(refit(&at_width(3), &[], &old, 6, &mut out), Ok(refitted));
}

#[test]
fn a_refusal_shows_its_word() {
    let refusal = read(&at_width(33)).unwrap_err();
    assert_eq!(refusal.to_string(), "3 (chip)");
    assert_eq!(
        format!("{refusal:?}"),
        r#"Refusal { number: 3, word: "chip", trials: 0 }"#
    );
}
