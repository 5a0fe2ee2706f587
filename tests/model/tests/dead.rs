//! 02 M-105, dead wires, against what follows by hand. The refusals 19 to 21 are in
//! `dead_refused`, chance lists in `dead_brute` and `dead_same`.

mod lists;

use lists::{block, list, Wire};
use model::Answer;
use sheets::paper::{same_channel, t_raw, T, T_LINES};
use sheets::{Design, Grid, Net, Raw};

const PLENTY: u32 = 1_000_000;
const UP: u8 = 255;

fn found(width: u32, trials: u32, moved: u32) -> Answer {
    Answer {
        number: 0,
        width,
        trials,
        moved,
    }
}

fn none(number: u32, trials: u32) -> Answer {
    Answer {
        number,
        trials,
        ..Answer::default()
    }
}

/// The call's answer, with just enough budget and with plenty; with one trial less
/// it is spent. Success writes the ticket and nothing after it, others nothing.
fn gives(told: Answer, ticket: &[u8], call: impl Fn(u32, &mut [u8]) -> Answer) {
    let kept = [77; 9];
    let mut after = kept;
    after[..ticket.len()].copy_from_slice(ticket);
    for budget in [told.trials, PLENTY] {
        let mut out = kept;
        assert_eq!((call(budget, &mut out), out), (told, after));
    }
    if told.trials > 0 {
        let (budget, mut out) = (told.trials - 1, kept);
        assert_eq!(call(budget, &mut out), none(16, budget));
        assert_eq!(out, kept);
    }
}

fn routes(sheet: &[u8], dead: &[Wire], told: Answer, ticket: &[u8]) {
    let dead = list(dead);
    gives(told, ticket, |b, out| model::route(sheet, &dead, b, out));
    if told.number == 0 {
        assert_eq!(model::check(sheet, &dead, ticket), 0);
    }
}

fn least(sheet: &[u8], dead: &[Wire], told: Answer, ticket: &[u8]) {
    let dead = list(dead);
    gives(told, ticket, |b, out| model::least(sheet, &dead, b, out));
}

fn refits(sheet: &[u8], dead: &[Wire], old: &[u8], told: Answer, ticket: &[u8]) {
    let dead = list(dead);
    gives(told, ticket, |b, out| {
        model::refit(sheet, &dead, old, b, out)
    });
}

/// Sheet T, kind 0: a net has one track on all its channels, and any two nets share
/// a channel, so that the three tracks differ.
fn t(width: u8) -> Vec<u8> {
    t_raw(0, width).bytes()
}

/// A sheet on T's chip with these nets, numbered from 1.
fn listed(width: u8, nets: &[&[u16]]) -> Vec<u8> {
    let chain = |(number, channels): (u32, &&[u16])| Net::chain(number, channels);
    let nets = (1..).zip(nets).map(chain).collect();
    Design::new(Grid::new(3, 2), 0, width, nets).list().bytes()
}

/// Net 1 finds 1.0 broken (1) and takes track 1 (2). Net 2 finds 1.0 broken (3), 1.1
/// held (4) and takes 2 (5). Net 3 has 0.0 and 5.0 whole and free (6).
#[test]
fn a_broken_wire_is_a_trial() {
    routes(&t(3), &[(1, 0)], found(3, 6, 0), &[1, 1, 2, 2, 0, 0]);
}

/// Net 1 takes 0 (1); net 2 finds 0 held (2) and takes 1 (3); net 3 finds 0.0 held
/// (4), 5.1 held (5), 0.2 broken (6). Net 2 takes 2 (7); net 3 finds 0.0 held (8)
/// and takes 1 (9).
#[test]
fn a_broken_wire_sends_back() {
    routes(&t(3), &[(0, 2)], found(3, 9, 0), &[0, 0, 2, 2, 1, 1]);
}

/// No net can have track 0, so two tracks are left for three nets. Channels 0 and 1
/// have two whole tracks for two nets: not overloaded.
/// Net 1: 0 broken (1), 1 (2); net 2: 0 broken (3), 1 held (4), 2 (5); net 3: three
/// (8). Net 1: 2 (9); net 2: 0 (10), 1 (11); net 3: three (14); net 2: 2 held (15).
#[test]
fn unroutable_without_these_wires() {
    routes(&t(3), &[(0, 0), (1, 0)], none(15, 15), &[]);
    let (old, told) = ([UP; 6], none(15, 15));
    refits(&t(3), &[(0, 0), (1, 0)], &old, told, &[]);
    // In round 0 net 1 has to keep 1: trials 1 to 8, and 2 is a change (9). Round 1
    // is the plain search, another 15.
    let old = [1, 1, UP, UP, UP, UP];
    refits(&t(3), &[(0, 0), (1, 0)], &old, none(15, 24), &[]);
}

/// Channel 0 carries nets 1 and 3. With one whole track it is overloaded, with two it
/// is not, however many there were.
#[test]
fn overload_looks_at_whole_tracks() {
    for width in [2, 3, 8, 32] {
        for left in [0, 1] {
            let dead = block(0, 0, left..width);
            routes(&t(width), &dead, none(15, 0), &[]);
            refits(&t(width), &dead, &[UP; 6], none(15, 0), &[]);
        }
        let mut dead = block(0, 0, 0..width);
        dead.remove(usize::from(width) / 2);
        routes(&t(width), &dead, none(15, 0), &[]);
    }
    // Tracks 0 and 7 are whole. Net 1 takes 0 (1), net 2 finds 0 held (2) and takes
    // 1 (3), net 3 finds 0 held (4), 1 to 6 broken (10) and takes 7 (11).
    let told = found(8, 11, 0);
    routes(&t(8), &block(0, 0, 1..7), told, &[0, 0, 1, 1, 7, 7]);
}

/// Each channel by itself: four tracks are broken in other channels than the loaded
/// one, and two nets in 0 have its two tracks.
#[test]
fn other_channels_do_not_count() {
    let sheet = same_channel(2, 0, 2).bytes();
    let dead = [(1, 0), (1, 1), (2, 0), (2, 1), (6, 0), (6, 1)];
    routes(&sheet, &dead, found(2, 3, 0), &[0, 1]);
    routes(&sheet, &[(0, 0)], none(15, 0), &[]);
    routes(&sheet, &[(0, 1)], none(15, 0), &[]);
}

/// Without nets nothing is broken or overloaded, not even with every wire dead.
#[test]
fn no_nets() {
    let sheet = Raw::new(3, 2, 0, 2, Vec::new()).bytes();
    for dead in [vec![], block(0, 6, 0..32), block(0, 6, 0..2)] {
        routes(&sheet, &dead, found(2, 0, 0), &[]);
        least(&sheet, &dead, found(1, 0, 0), &[]);
        refits(&sheet, &dead, &[], found(2, 0, 0), &[]);
    }
}

/// Widths 1 and 2 are overloaded: in 0 no track and one are whole. At 3 net 1 finds
/// 0.0 broken (1) and takes 1 (2), net 2 takes 0 (3), net 3 finds 0.0 broken (4), 0.1
/// held (5) and takes 2 (6).
#[test]
fn least_with_a_broken_wire() {
    for width in [1, 2, 3, 32] {
        let told = found(3, 6, 0);
        least(&t(width), &[(0, 0)], told, &[1, 1, 0, 0, 2, 2]);
    }
}

/// At width 2 the wire 0.2 is ignored: channel 0 is not overloaded, and m1's 10
/// trials are made. At 3 there are those of `a_broken_wire_sends_back`. Wires from 3
/// on are not met at all.
#[test]
fn least_ignores_at_the_width_tried() {
    for width in [1, 2, 3, 32] {
        let mut dead = vec![(0, 2)];
        let told = found(3, 10 + 9, 0);
        least(&t(width), &dead, told, &[0, 0, 2, 2, 1, 1]);
        dead.extend(block(0, 6, 3..32));
        least(&t(width), &dead, told, &[0, 0, 2, 2, 1, 1]);
        let told = found(3, 16, 0);
        least(&t(width), &dead[1..], told, &[0, 0, 1, 1, 2, 2]);
    }
}

/// Track 2 is broken everywhere. At 2 there are m1's 10 trials. At 3 net 1 takes 0
/// (1), net 2 finds 0 held (2), takes 1 (3), net 3 finds nothing (6), net 2 finds 2
/// broken (7); net 1 takes 1 (8), net 2 takes 0 (9), net 3 finds nothing (12), net 2
/// finds 1 held and 2 broken (14), net 1 2 broken (15). At 4 net 1 takes 0 (1), net 2
/// 1 (3), net 3 finds 0, 1, 2 not fitting and takes 3 (7).
#[test]
fn least_goes_on_to_a_whole_track() {
    let dead = block(0, 6, 2..3);
    let told = found(4, 10 + 15 + 7, 0);
    least(&t(2), &dead, told, &[0, 0, 1, 1, 3, 3]);
    routes(&t(3), &dead, none(15, 15), &[]);
    routes(&t(4), &dead, found(4, 7, 0), &[0, 0, 1, 1, 3, 3]);
}

/// One net in channel 0. With no whole track every width is overloaded; with track
/// 31 alone width 32 is the first that is not, and its last track fits.
#[test]
fn least_to_the_last_track() {
    let sheet = same_channel(1, 0, 1).bytes();
    least(&sheet, &block(0, 0, 0..32), none(15, 0), &[]);
    least(&sheet, &block(0, 0, 0..31), found(32, 32, 0), &[31]);
}

/// One net with 0 and 1, of which 0 has the odd tracks whole and 1 the even ones. At
/// width 1 channel 0 is overloaded; from 2 on each width w makes w trials in vain:
/// 2 + 3 + … + 32 = 527.
#[test]
fn least_at_no_width() {
    let sheet = listed(5, &[&[0, 1]]);
    let dead: Vec<Wire> = (0..32).map(|t| (u16::from(t % 2 == 1), t)).collect();
    least(&sheet, &dead, none(15, 527), &[]);
    routes(&sheet, &dead, none(15, 5), &[]);
}

/// m7's nets at W 3. Without the list net 3 takes 2 in round 0. With 0.2 broken,
/// round 0: net 1 keeps 0 (1); net 2: 0 is a change (2), keeps 1 (3); net 3: 0.0 held
/// (4), 1.1 held (5), 0.2 broken (6); net 2: 2 is a change (7); net 1: 1 and 2 too
/// (9). Round 1: net 1 keeps 0 (10), net 2 moves to 0 (11), net 3 finds 0 held (12)
/// and takes 1 (13).
#[test]
fn refit_moves_for_a_broken_wire() {
    let sheet = listed(3, &[&[0], &[1], &[0, 1]]);
    let old = [0, 1, UP, UP];
    refits(&sheet, &[], &old, found(3, 6, 0), &[0, 1, 2, 2]);
    refits(&sheet, &[(0, 2)], &old, found(3, 13, 1), &[0, 0, 1, 1]);
    // 0.2 and 1.2 broken: the same, 1.2 is a change in round 0 and not reached in 1.
    let dead = [(0, 2), (1, 2)];
    refits(&sheet, &dead, &old, found(3, 13, 1), &[0, 0, 1, 1]);
}

/// A full old ticket that is on no broken wire stays, though Route would give
/// another: each net finds its own track after those that are changes or broken.
#[test]
fn refit_keeps_what_is_whole() {
    let old = [2, 2, 0, 0, 1, 1];
    let told = found(3, 3 + 1 + 2, 0);
    refits(&t(3), &[(1, 1), (0, 0)], &old, told, &old);
}

/// In a box of four channels the wire that breaks is not the one of the home's own
/// track: with kind 2, left 0 is top 1. Channels 3 and 17 are left of and on top of
/// (1, 1) on a 4 by 4 chip.
#[test]
fn a_broken_wire_round_a_corner() {
    let net = vec![Net::chain(1, &[3, 17])];
    let sheet = Design::new(Grid::new(4, 4), 2, 2, net).list().bytes();
    routes(&sheet, &[(17, 0)], found(2, 1, 0), &[0, 1]);
    routes(&sheet, &[(17, 1)], found(2, 2, 0), &[1, 0]);
    routes(&sheet, &[(3, 0)], found(2, 2, 0), &[1, 0]);
    routes(&sheet, &[(3, 0), (17, 1)], found(2, 2, 0), &[1, 0]);
    // One whole track in each channel, but they do not meet: no overload, 2 trials.
    routes(&sheet, &[(3, 0), (17, 0)], none(15, 2), &[]);
    // At width 1 left 0 is top 0; at 2 it is top 1.
    least(&sheet, &[(17, 0)], found(2, 1, 0), &[0, 1]);
    least(&sheet, &[(17, 1)], found(1, 1, 0), &[0, 0]);
}

/// T's channels are 0, 1 and 5. Broken wires in all others, and in these at or above
/// W, change nothing: m1, m3.
#[test]
fn wires_that_no_net_can_have() {
    let others = [block(2, 4, 0..32), block(6, 6, 0..32)].concat();
    for (width, told, ticket) in [
        (2, none(15, 10), &[][..]),
        (3, found(3, 6, 0), &[0, 0, 1, 1, 2, 2]),
    ] {
        let above = [0, 1, 5].map(|c| block(c, c, width..32)).concat();
        for dead in [&[][..], &others, &above, &[&others[..], &above].concat()] {
            routes(&t(width), dead, told, ticket);
            refits(&t(width), dead, &[UP; 6], told, ticket);
        }
        least(&t(width), &others, found(3, 16, 0), &[0, 0, 1, 1, 2, 2]);
    }
}

/// The program's list is empty.
#[test]
fn the_printed_lines() {
    assert_eq!(model::lines::least_lines(&T), T_LINES);
}
