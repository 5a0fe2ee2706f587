//! The calls under lists of dead wires, on the paper's sheet T and by hand. Net 1 has channels 0 and 1, net 2 has 1 and 5, net 3 has 0 and
//! 5; partners have equal tracks, and each two nets share a channel, so the three have different tracks.

use trackrouter::chip::Wire;
use trackrouter::*;

const T: [u8; 54] = *include_bytes!("../../sheets/t.sheet");

const UP: u8 = UNPLACED;

fn at_width(width: u8) -> [u8; 54] {
    let mut sheet = T;
    sheet[45] = width;
    sheet
}

/// Channel 5, track 1, and the like.
fn list<const N: usize>(wires: [(u16, u8); N]) -> Vec<u8> {
    let item = |(channel, track)| Wire { channel, track }.bytes();
    wires.into_iter().flat_map(item).collect()
}

fn refusal(number: u32, trials: u32) -> Refusal {
    Refusal { number, trials }
}

/// The list in its order and from back to front.
fn both_ways(dead: &[u8]) -> [Vec<u8>; 2] {
    let back = dead.chunks(3).rev().collect::<Vec<_>>().concat();
    [dead.to_vec(), back]
}

/// A call's answer with exactly the trials that it needs, and that it is spent with one less.
fn needs(
    call: impl for<'a> Fn(u32, &'a mut [u8]) -> Result<Routed<'a>, Refusal>,
    trials: u32,
    expected: Result<(u32, u32, [u8; 6]), u32>,
) {
    let mut out = [0xAA; 7];
    let answer = call(trials, &mut out);
    match expected {
        Ok((width, moved, ticket)) => {
            let found = Routed {
                width,
                trials,
                moved,
                ticket: &ticket,
            };
            assert_eq!(answer, Ok(found));
            assert_eq!(out[6], 0xAA);
        }
        Err(number) => {
            assert_eq!(answer, Err(refusal(number, trials)));
            assert_eq!(out, [0xAA; 7]);
        }
    }
    if let Some(less) = trials.checked_sub(1) {
        let spent = Err(refusal(number::SPENT, less));
        assert_eq!(call(less, &mut out), spent);
    }
}

/// 5.1 dies under net 2: Check gives 21, Remove takes net 2 out, and Refit moves net 1.
///
/// Round 0: net 1 stays on 0; net 2 finds 1.0 held, 5.1 dead and takes 2; net 3 finds 0.0 held, 5.1 dead and 5.2 held; then tracks 1 and 2
/// of net 1 are changes: 9 trials. Round 1: the same 7, then net 1 takes 1, net 2 takes 0, and net 3 finds 5.0 held, 0.1 held and takes 2:
/// 5 more.
#[test]
fn a_wire_dies() {
    let sheet = at_width(3);
    let dead = list([(5, 1)]);
    let ticket = [0, 0, 1, 1, 2, 2];
    assert_eq!(check(&sheet, &[], &ticket), Ok(()));
    let broken = Err(refusal(number::BROKEN, 0));
    assert_eq!(check(&sheet, &dead, &ticket), broken);
    assert_eq!(check_old(&sheet, &dead, &ticket), broken);
    let mut out = [0xAA; 6];
    let refused = refit(&sheet, &dead, &ticket, u32::MAX, &mut out);
    assert_eq!(refused, Err(refusal(number::BROKEN, 0)));
    let mut left = [0; 6];
    assert_eq!(
        remove(&sheet, &ticket, 2, &mut left),
        Ok(&[0, 0, UP, UP, 2, 2][..])
    );
    assert_eq!(check_old(&sheet, &dead, &left), Ok(()));
    let new = [1, 1, 0, 0, 2, 2];
    needs(
        |budget, out| refit(&sheet, &dead, &left, budget, out),
        21,
        Ok((3, 1, new)),
    );
    assert_eq!(check(&sheet, &dead, &new), Ok(()));
}

/// Net 1 on 0 leaves net 2 only 2, and then net 3 nothing: 7 trials. On 1, net 2 takes 0, and net 3 takes 2 after two: 5 more. At width 1
/// each channel is overloaded, and so is channel 5 at width 2, with one whole track for two nets.
#[test]
fn route_and_least() {
    let ticket = [1, 1, 0, 0, 2, 2];
    // 5.3 and 5.31 are not below the width.
    for dead in both_ways(&list([(5, 1), (5, 31), (5, 3)])) {
        let three = at_width(3);
        needs(
            |budget, out| route(&three, &dead, budget, out),
            12,
            Ok((3, 0, ticket)),
        );
        for width in [1, 2, 3, 32] {
            let sheet = at_width(width);
            needs(
                |budget, out| least(&sheet, &dead, budget, out),
                12,
                Ok((3, 0, ticket)),
            );
        }
        let mut out = [0; 6];
        let overloaded = Err(refusal(number::UNROUTABLE, 0));
        assert_eq!(route(&T, &dead, 0, &mut out), overloaded);
    }
}

/// In Least an item counts from the width on at which its track is below: 5.2 at width 3, not at width 2, where the 10 trials are m1's. At
/// width 3 nets 2 and 3 cannot have 2, so net 1 has it: 7 trials with net 1 on 0, 7 on 1, and 4 on 2.
#[test]
fn an_item_at_the_width_tried() {
    let dead = list([(5, 2)]);
    needs(
        |budget, out| route(&T, &dead, budget, out),
        10,
        Err(number::UNROUTABLE),
    );
    needs(
        |budget, out| least(&T, &dead, budget, out),
        28,
        Ok((3, 0, [2, 2, 0, 0, 1, 1])),
    );
}

/// Whole tracks count: with 0.0 and 0.1 dead, channel 0 has two from width 4 on. There net 1 takes 2 (3 trials), net 2 takes 0, and net 3
/// takes 3 (4 trials).
#[test]
fn overloaded_by_dead_wires() {
    let dead = list([(0, 1), (0, 0)]);
    let mut out = [0xAA; 6];
    for (width, number) in [
        (1, number::UNROUTABLE),
        (2, number::UNROUTABLE),
        (3, number::UNROUTABLE),
        (4, number::SPENT),
    ] {
        let refused = Err(refusal(number, 0));
        assert_eq!(route(&at_width(width), &dead, 0, &mut out), refused);
        let old = [UP; 6];
        let refitted = refit(&at_width(width), &dead, &old, 0, &mut out);
        assert_eq!(refitted, refused);
    }
    needs(
        |budget, out| least(&T, &dead, budget, out),
        8,
        Ok((4, 0, [2, 2, 0, 0, 3, 3])),
    );
    let all: Vec<u8> = (0..32).flat_map(|track| [0, 0, track]).collect();
    let never = Err(refusal(number::UNROUTABLE, 0));
    assert_eq!(least(&T, &all, u32::MAX, &mut out), never);
}

/// 1.1 and 5.1 leave no net track 1, and no channel is overloaded: net 1 on 0 takes 7 trials, 1 is dead, and 2 takes 7.
#[test]
fn unroutable_by_dead_wires() {
    let dead = list([(5, 1), (1, 1)]);
    let sheet = at_width(3);
    needs(
        |budget, out| route(&sheet, &dead, budget, out),
        15,
        Err(number::UNROUTABLE),
    );
}

/// Every answer of a call that takes a list, as a number.
fn numbers(sheet: &[u8], dead: &[u8], ticket: &[u8]) -> [u32; 5] {
    let number = |refusal: Option<Refusal>| refusal.map_or(0, |refusal| refusal.number);
    let mut out = [0xAA; 6];
    let answers = [
        check(sheet, dead, ticket).err(),
        route(sheet, dead, 0, &mut out).err(),
        least(sheet, dead, 0, &mut out[..5]).err(),
        refit(sheet, dead, ticket, 0, &mut out).err(),
        check_dead(sheet, dead).err(),
    ];
    assert_eq!(out, [0xAA; 6]);
    answers.map(number)
}

/// 19, then 20, after 9 and before 10; nothing else is looked at.
#[test]
fn bad_lists() {
    let tickets: [&[u8]; 5] = [
        &[],
        &[9; 6],
        &[0, 1, 0, 0, 0, 0],
        &[0; 6],
        &[0, 0, 1, 1, 2, 2],
    ];
    let bad: [(&[u8], u32); 13] = [
        (&[0], 19),
        (&[0, 0], 19),
        (&[0, 0, 0, 1], 19),
        (&[0, 0, 0, 0, 0, 0, 1], 19),
        (&[7, 0, 0], 19),
        (&[0, 1, 0], 19),
        (&[255, 255, 0], 19),
        (&[0, 0, 32], 19),
        (&[0, 0, 255], 19),
        (&[0, 0, 0, 0, 0, 0, 0, 0, 32], 19),
        (&[0, 0, 0, 0, 0, 0], 20),
        (&[5, 0, 31, 0, 0, 0, 5, 0, 31], 20),
        (&[2, 0, 0, 2, 0, 0], 20),
    ];
    for (dead, number) in bad {
        for width in [1, 3, 32] {
            for ticket in tickets {
                let given = numbers(&at_width(width), dead, ticket);
                assert_eq!(given, [number; 5], "{dead:?}");
            }
        }
        // The sheet comes first.
        let mut name = T;
        name[24] = 1;
        assert_eq!(numbers(&name, dead, &[]), [number::NAME; 5]);
        assert_eq!(numbers(&at_width(33), dead, &[]), [number::CHIP; 5]);
    }
    // Channel 6 and track 31 are the last.
    let last = list([(6, 31)]);
    assert_eq!(check_dead(&T, &last), Ok(()));
    assert_eq!(check(&at_width(3), &last, &[0, 0, 1, 1, 2, 2]), Ok(()));
}

/// 21 after 12 and before 13, for the placed nets of Refit.
#[test]
fn broken_tickets() {
    let sheet = at_width(3);
    let dead = list([(0, 2), (5, 1)]);
    let short = [0, 0, 1, 1, 1];
    let size = Err(refusal(number::SIZE, 0));
    assert_eq!(check(&sheet, &dead, &short), size);
    assert_eq!(check_old(&sheet, &dead, &short), size);
    for (ticket, by_check, by_refit) in [
        ([0, 0, 1, 1, 3, 3], number::TRACK, number::TRACK),
        ([0, 0, 1, 1, 2, 0], number::SWITCH, number::SWITCH),
        ([0, 0, 1, 1, 1, 1], number::BROKEN, number::BROKEN),
        ([0, 0, 0, 0, 0, 0], number::CLASH, number::CLASH),
        ([0, 0, UP, UP, 2, 2], number::TRACK, number::BROKEN),
        ([2, 2, UP, UP, UP, UP], number::TRACK, number::BROKEN),
        ([0, 0, UP, UP, UP, UP], number::TRACK, number::OK),
    ] {
        let given = [
            check(&sheet, &dead, &ticket).err(),
            check_old(&sheet, &dead, &ticket).err(),
        ];
        let given = given.map(|refusal| refusal.map_or(0, |refusal| refusal.number));
        assert_eq!(given, [by_check, by_refit], "{ticket:?}");
    }
    // At W 2, 0.2 is no wire of the chip; 15 and 14 are no fault of the ticket.
    assert_eq!(check_old(&T, &dead, &[0, 0, UP, UP, UP, UP]), Ok(()));
    assert_eq!(
        check_old(&T, &list([(0, 2)]), &[0, 0, 1, 1, UP, UP]),
        Ok(())
    );
}

/// All wires of the largest chip but the last. A net through the last channel tries all its tracks.
#[test]
fn the_longest_list() {
    let sheet = |nets: &[u8], directory: &[u8]| {
        let mut sheet = [nets, directory, &[16, 16, 1, 32]].concat();
        sheet.extend([directory.len() as u8 / 2, 0, nets.len() as u8, 0]);
        sheet.extend([sheet.len() as u8 + 4, 0, 0x57, 0x48]);
        sheet
    };
    let net = sheet(&[1, 0, 1, 0, 223, 1, 255, 255], &[0, 0]);
    let none = sheet(&[], &[]);
    let wires = (0..480).flat_map(|channel| (0..32).map(move |track| (channel, track)));
    let all: Vec<u8> = wires
        .flat_map(|(channel, track)| Wire { channel, track }.bytes())
        .collect();
    assert_eq!(all.len(), MAX_DEAD);
    let but_last = &all[..MAX_DEAD - DEAD_ITEM];
    let mut out = [0xAA; 1];
    let routed = route(&net, but_last, 32, &mut out).expect("a ticket");
    assert_eq!((routed.trials, routed.ticket), (32, &[31][..]));
    let refused = route(&net, &all, 32, &mut out);
    assert_eq!(refused, Err(refusal(number::UNROUTABLE, 0)));
    assert_eq!(check(&none, &all, &[]), Ok(()));
    assert_eq!(least(&none, &all, 0, &mut []).expect("no nets").width, 1);
    let longer = [&all[..], &all[..3]].concat();
    assert_eq!(check_dead(&none, &longer), Err(refusal(number::REPEAT, 0)));
    let longer = [&all[..], &[0]].concat();
    assert_eq!(check_dead(&none, &longer), Err(refusal(number::LIST, 0)));
}
