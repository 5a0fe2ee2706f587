//! Remove on the paper's sheet T: by hand, on every ticket, and as the way back from Refit. Net 1 has channels 0 and 1, net 2 has 1 and 5,
//! net 3 has 0 and 5.

use trackrouter::*;

const T: [u8; 54] = *include_bytes!("../../sheets/t.sheet");

/// T in an inner box, with channels 3, 4 and 17 for 0, 1 and 5.
const INNER: [u8; 54] = *include_bytes!("../../sheets/t_wilton.sheet");

const UP: u8 = UNPLACED;

/// The sheet with this kind and width.
fn with(mut sheet: [u8; 54], kind: u8, width: u8) -> [u8; 54] {
    sheet[44] = kind;
    sheet[45] = width;
    sheet
}

fn t(kind: u8, width: u8) -> [u8; 54] {
    with(T, kind, width)
}

/// T at W 3, in an inner box at W 2 for the two kinds that have a ticket there, and on the rim at W 2, where no kind has one.
fn sheets() -> [[u8; 54]; 4] {
    [t(0, 3), with(INNER, 1, 2), with(INNER, 2, 2), t(1, 2)]
}

fn number_of<T>(answer: Result<T, Refusal>) -> u32 {
    answer.err().map_or(0, |refusal| {
        assert_eq!(refusal.trials, 0);
        refusal.number
    })
}

#[test]
fn by_hand() {
    let sheet = t(0, 3);
    for (ticket, net, left) in [
        ([0, 0, 1, 1, 2, 2], 1, [UP, UP, 1, 1, 2, 2]),
        ([0, 0, 1, 1, 2, 2], 2, [0, 0, UP, UP, 2, 2]),
        ([0, 0, 1, 1, 2, 2], 3, [0, 0, 1, 1, UP, UP]),
        // Another net is unplaced, and the net itself.
        ([0, 0, UP, UP, 2, 2], 3, [0, 0, UP, UP, UP, UP]),
        ([0, 0, UP, UP, 2, 2], 2, [0, 0, UP, UP, 2, 2]),
        ([UP; 6], 1, [UP; 6]),
    ] {
        let mut out = [0xAA; 8];
        assert_eq!(remove(&sheet, &ticket, net, &mut out), Ok(&left[..]));
        assert_eq!(out[6..], [0xAA; 2]);
        let mut exact = [0xAA; 6];
        assert_eq!(remove(&sheet, &ticket, net, &mut exact), Ok(&left[..]));
    }
}

/// A net is found by its number, wherever its record stands: here net 7 is the first record, net 2 the second, net 0 the third.
#[test]
fn by_number() {
    let mut sheet = t(0, 3);
    (sheet[0], sheet[24]) = (7, 0);
    let ticket = [0, 0, 1, 1, 2, 2];
    let mut out = [0; 6];
    let left = remove(&sheet, &ticket, 7, &mut out);
    assert_eq!(left, Ok(&[UP, UP, 1, 1, 2, 2][..]));
    let left = remove(&sheet, &ticket, 0, &mut out);
    assert_eq!(left, Ok(&[0, 0, 1, 1, UP, UP][..]));
    for net in [1, 3, 0x1_0002, 0x200_0000] {
        assert_eq!(number_of(remove(&sheet, &ticket, net, &mut out)), 17);
    }
}

/// The first number in the order of the table, where the net and the room are bad too.
#[test]
fn refusals() {
    let two_nets = {
        let mut sheet = t(0, 3);
        sheet[24] = 1;
        sheet
    };
    for (sheet, ticket, first) in [
        (&two_nets, &[0; 5][..], number::NAME),
        (&t(0, 33), &[0, 0, 1, 1, 2, 2], number::CHIP),
        (&t(0, 3), &[0; 5], number::SIZE),
        (&t(0, 3), &[0, 0, 1, 1, 2, 2, 2], number::SIZE),
        (&t(0, 3), &[0, 0, 1, 1, UP, 2], number::TRACK),
        (&t(0, 3), &[0, 1, UP, UP, 2, 3], number::TRACK),
        (&t(0, 3), &[0, 1, 1, 1, UP, UP], number::SWITCH),
        // The ticket without net 3 would be right.
        (&t(0, 3), &[0, 0, 1, 1, 1, 1], number::CLASH),
    ] {
        for (net, room) in [(3, 6), (3, 5), (4, 6), (4, 0)] {
            let mut out = [0xAA; 6];
            let answer = remove(sheet, ticket, net, &mut out[..room]);
            assert_eq!(number_of(answer), first, "{ticket:?}");
            assert_eq!(out, [0xAA; 6]);
        }
    }
    for (net, room, first) in [
        (4, 6, number::STRANGER),
        (4, 5, number::STRANGER),
        (0, 0, number::STRANGER),
        (u32::MAX, 6, number::STRANGER),
        (3, 5, number::SPACE),
        (3, 0, number::SPACE),
    ] {
        let mut out = [0xAA; 6];
        let answer = remove(&t(0, 3), &[0, 0, 1, 1, 2, 2], net, &mut out[..room]);
        assert_eq!(number_of(answer), first);
        assert_eq!(out, [0xAA; 6]);
    }
    let refusal = remove(&T, &[UP; 6], 9, &mut [0; 6]).unwrap_err();
    assert_eq!(refusal.to_string(), "17 (stranger)");
}

#[test]
fn no_nets() {
    let sheet = [3, 2, 0, 2, 0, 0, 0, 0, 12, 0, 0x57, 0x48];
    assert_eq!(number_of(remove(&sheet, &[], 0, &mut [])), number::STRANGER);
    assert_eq!(number_of(remove(&sheet, &[0], 0, &mut [])), number::SIZE);
}

/// Every ticket of T with bytes 0 to 2 and 255.
fn tickets() -> impl Iterator<Item = [u8; 6]> {
    let byte = |code: usize, place: u32| [0, 1, 2, UP][code / 4_usize.pow(place) % 4];
    let ticket = move |code| [0, 1, 2, 3, 4, 5].map(|place| byte(code, place));
    (0..4_usize.pow(6)).map(ticket)
}

/// Refused exactly as Refit's old ticket; else the net's two bytes are 255, the others as before, and the result is taken again.
#[test]
fn every_ticket() {
    let mut taken = 0;
    for sheet in sheets() {
        for ticket in tickets() {
            let old = check_old(&sheet, &[], &ticket);
            for net in 1..=3 {
                let mut out = [0xAA; 6];
                let left = remove(&sheet, &ticket, net, &mut out);
                if let Err(refusal) = old {
                    assert_eq!(left, Err(refusal), "{ticket:?}");
                    assert_eq!(out, [0xAA; 6]);
                    continue;
                }
                let mut expected = ticket;
                let first = 2 * (net as usize - 1);
                expected[first..first + 2].fill(UP);
                assert_eq!(left, Ok(&expected[..]), "{ticket:?}");
                assert_eq!(check_old(&sheet, &[], &out), Ok(()));
                taken += 1;
            }
        }
    }
    // No net placed, one, two, all three. Any two nets share a channel: at W 2, one leaves the other one track.
    let at_3 = 1 + 3 * 3 + 3 * 6 + 6;
    let at_2 = 1 + 3 * 2 + 3 * 2 + 2;
    let on_the_rim = 1 + 3 * 2 + 3 * 2;
    assert_eq!(taken, 3 * (at_3 + at_2 + at_2 + on_the_rim));
}

/// Where Refit places one net and moves none, taking that net out gives the old ticket back.
#[test]
fn the_way_back() {
    let mut ways = 0;
    for sheet in sheets() {
        for old in tickets() {
            let unplaced = |net: &u32| old[2 * (*net as usize - 1)] == UP;
            let mut new = (1..=3).filter(unplaced);
            let (Some(net), None) = (new.next(), new.next()) else {
                continue;
            };
            let mut full = [0; 6];
            match refit(&sheet, &[], &old, 1_000, &mut full) {
                Ok(refitted) => assert_eq!(refitted.moved, 0),
                Err(_) => continue,
            }
            let mut back = [0; 6];
            assert_eq!(remove(&sheet, &full, net, &mut back), Ok(&old[..]));
            ways += 1;
        }
    }
    // Two nets are placed, and one track is left for the third; on the rim at W 2 there is none.
    assert_eq!(ways, 3 * 6 + 3 * 2 + 3 * 2);
}
