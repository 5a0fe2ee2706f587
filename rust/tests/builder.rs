//! The builder: nets from channels and joints, and the bytes of a sheet.
#![cfg(feature = "alloc")]

mod chance;

use chance::Chance;
use std::collections::BTreeSet;
use trackrouter::chip::{Chip, Kind, Row, COLUMNS};
use trackrouter::sheet::{Entry, Mark, Net, NotATree, Sheet, TooLarge};
use trackrouter::{number, read, route, KIND_ROWS, KIND_SUBSET};

/// Each entry's channel, and its parent's place.
fn entries(net: &Net) -> Vec<(u16, Option<u16>)> {
    let pair = |entry: &Entry| (entry.channel, entry.parent);
    net.entries().iter().map(pair).collect()
}

fn t() -> Sheet {
    let mut sheet = Sheet::new(3, 2, KIND_SUBSET, 2);
    sheet.push(Net::chain(1, &[0, 1]).expect("a net"));
    sheet.push(Net::new(2, &[1, 5], &[(5, 1)]).expect("a net"));
    sheet.push(Net::new(3, &[0, 5], &[(0, 5)]).expect("a net"));
    sheet
}

fn hexadecimal(bytes: &str) -> Vec<u8> {
    let byte = |word| u8::from_str_radix(word, 16).expect("a byte");
    bytes.split_whitespace().map(byte).collect()
}

#[test]
fn the_paper_s_sheet() {
    let bytes = hexadecimal(
        "01 00 02 00 00 00 FF FF 01 00 00 00 02 00 02 00 01 00 FF FF 05 00 00 00 03 00 02 00 \
        00 00 FF FF 05 00 00 00 00 00 0C 00 18 00 03 02 00 02 03 00 24 00 36 00 57 48",
    );
    assert_eq!(bytes, include_bytes!("../../sheets/t.sheet"));
    assert_eq!(t().mark(), Mark::Short);
    assert_eq!(t().bytes(), Ok(bytes));
    let none = Sheet::new(3, 2, KIND_SUBSET, 2).bytes();
    assert_eq!(none, Ok(vec![3, 2, 0, 2, 0, 0, 0, 0, 12, 0, 0x57, 0x48]));
}

/// The paper's bytes with two more for each net number: so each record starts later by two for each before it, the directory by six.
#[test]
fn the_paper_s_sheet_of_the_long_mark() {
    let bytes = hexadecimal(
        "01 00 00 00 02 00 00 00 FF FF 01 00 00 00 02 00 00 00 02 00 01 00 FF FF 05 00 00 00 03 00 00 00 02 00 \
        00 00 FF FF 05 00 00 00 00 00 0E 00 1C 00 03 02 00 02 03 00 2A 00 3C 00 57 49",
    );
    assert_eq!(bytes, include_bytes!("../../sheets/t_long.sheet"));
    let long = t().with_mark(Mark::Long);
    assert_eq!(long.bytes().as_ref(), Ok(&bytes));
    assert_eq!(Sheet::read(&bytes).as_ref(), Ok(&long));
    assert_ne!(long, t());
    assert_eq!(long.with_mark(Mark::Short), t());
    let none = Sheet::new(3, 2, KIND_SUBSET, 2).with_mark(Mark::Long);
    let in_bytes = vec![3, 2, 0, 2, 0, 0, 0, 0, 12, 0, 0x57, 0x49];
    assert_eq!(none.bytes().as_ref(), Ok(&in_bytes));
    assert_eq!(Sheet::read(&in_bytes), Ok(none));
}

/// Nets through channel 0 alone: number, entry count 1, channel 0, no parent.
#[test]
fn net_numbers() {
    let sheet = |mark, numbers: &[u32]| {
        let mut sheet = Sheet::new(3, 2, KIND_SUBSET, 9).with_mark(mark);
        let net = |&number| Net::chain(number, &[0]).expect("a net");
        numbers.iter().for_each(|number| sheet.push(net(number)));
        sheet
    };
    for (number, short, long) in [
        (0, Some([0, 0]), [0, 0, 0, 0]),
        (258, Some([2, 1]), [2, 1, 0, 0]),
        (65_535, Some([255, 255]), [255, 255, 0, 0]),
        (65_536, None, [0, 0, 1, 0]),
        (65_537, None, [1, 0, 1, 0]),
        (0x1234_5678, None, [0x78, 0x56, 0x34, 0x12]),
        (4_294_967_295, None, [255; 4]),
    ] {
        let entry = [1, 0, 0, 0, 255, 255];
        let bytes = sheet(Mark::Short, &[number]).bytes();
        match short {
            Some(short) => assert_eq!(bytes.expect("bytes")[..8], [&short[..], &entry].concat()),
            None => assert_eq!(bytes, Err(TooLarge::Number(number))),
        }
        let bytes = sheet(Mark::Long, &[number]).bytes().expect("bytes");
        assert_eq!(bytes[..10], [&long[..], &entry].concat());
        assert_eq!(bytes.len(), 10 + 2 + 12);
        assert_eq!(Sheet::read(&bytes), Ok(sheet(Mark::Long, &[number])));
    }
    // Equal in their low halves, and in their high ones.
    let all = [1, 65_537, 4_294_901_761, 65_536, 0, 65_535, 4_294_967_295];
    let bytes = sheet(Mark::Long, &all).bytes().expect("bytes");
    assert_eq!(Sheet::read(&bytes), Ok(sheet(Mark::Long, &all)));
    let first = [1, 65_536, 4_294_967_295];
    let bytes = sheet(Mark::Short, &first).bytes();
    assert_eq!(bytes, Err(TooLarge::Number(65_536)));
}

/// sheets/t_rows.sheet: its ticket and trials by hand. Left to right 0 goes to 1, 1 to 2, 2 to 0; right to top 0 goes to 1, 1 to 2, 2 to
/// 0; left to top 0 goes to 2, 1 to 1, 2 to 0. On the rim, where channels 0, 1 and 13 meet below them, every track stays.
#[test]
fn a_sheet_with_rows() {
    let signs = [false, true, true, false, true, false];
    let shifts = [1, 3, 2, -1, -32, 31];
    let rows = [0, 1, 2, 3, 4, 5].map(|k| Row::new(signs[k], shifts[k]).expect("a row"));
    let mut sheet = Sheet::new(4, 4, rows, 3);
    sheet.push(Net::chain(1, &[3, 4]).expect("a net"));
    sheet.push(Net::chain(2, &[4, 17]).expect("a net"));
    sheet.push(Net::chain(3, &[3, 17]).expect("a net"));
    let bytes = sheet.bytes().expect("bytes");
    assert_eq!(bytes, include_bytes!("../../sheets/t_rows.sheet"));
    let partner = |from, to, track| sheet.fabric().partner(from, to, track);
    for (from, to, tracks) in [
        (3, 4, [1, 2, 0]),
        (4, 17, [1, 2, 0]),
        (3, 17, [2, 1, 0]),
        (0, 1, [0, 1, 2]),
        (1, 13, [0, 1, 2]),
        (0, 13, [0, 1, 2]),
    ] {
        assert_eq!(
            [0, 1, 2].map(|track| partner(from, to, track)),
            tracks.map(Some)
        );
    }
    assert_eq!(Sheet::read(&bytes), Ok(sheet));
    let mut out = [0; 6];
    let routed = route(&bytes, &[], 5, &mut out).expect("a ticket");
    assert_eq!((routed.trials, routed.ticket), (5, &[0, 1, 0, 1, 2, 0][..]));
}

/// What the library refuses with 18 is no row; kind 3 without rows is a sheet that it refuses with 5.
#[test]
fn rows_that_are_refused() {
    for shift in i8::MIN..=i8::MAX {
        let good = (-32..=31).contains(&shift);
        for (column, minus) in (0..6).flat_map(|column| [(column, false), (column, true)]) {
            assert_eq!(Row::new(minus, shift).is_some(), good);
            let mut bytes = Sheet::new(3, 2, Kind::Wilton.rows().expect("rows"), 2)
                .bytes()
                .expect("bytes");
            bytes[2 * column..2 * column + 2].copy_from_slice(&[minus.into(), shift as u8]);
            let number = read(&bytes).err().map_or(0, |refusal| refusal.number);
            assert_eq!(number, if good { 0 } else { number::PARAMETER });
        }
    }
    let without = Sheet::new(3, 2, KIND_ROWS, 2).bytes().expect("bytes");
    assert_eq!(without, [3, 2, 3, 2, 0, 0, 0, 0, 12, 0, 0x57, 0x48]);
    let refused = read(&without).expect_err("no rows");
    assert_eq!(refused.number, number::DIRECTORY);
    let heads = "left-right top-bottom left-top top-right right-bottom bottom-left";
    assert_eq!(COLUMNS.map(|column| column.to_string()).join(" "), heads);
}

#[test]
fn order_of_entries() {
    let net = |channels: &[u16], joints: &[(u16, u16)]| {
        entries(&Net::new(7, channels, joints).expect("a tree"))
    };
    // 12 is listed before 13; 11 has to wait for 13.
    let tree = [(10, None), (12, Some(0)), (13, Some(0)), (11, Some(2))];
    let joints = [(11, 13), (10, 13), (12, 10)];
    assert_eq!(net(&[10, 11, 12, 13], &joints), tree);
    assert_eq!(
        net(&[10, 11, 12, 13], &[(10, 12), (13, 10), (13, 11)]),
        tree
    );
    // 2 is listed first of those that are ready once 3 is taken.
    let tree = [(1, None), (3, Some(0)), (2, Some(1)), (4, Some(0))];
    assert_eq!(net(&[1, 2, 3, 4], &[(1, 4), (2, 3), (3, 1)]), tree);
    assert_eq!(net(&[9], &[]), [(9, None)]);
    let chain = Net::chain(7, &[5, 0, 9, 3]).expect("a chain");
    let line = [(5, None), (0, Some(0)), (9, Some(1)), (3, Some(2))];
    assert_eq!(entries(&chain), line);
    assert_eq!(chain.number(), 7);
    assert_eq!(chain.joints().collect::<Vec<_>>(), [(0, 5), (9, 0), (3, 9)]);
}

#[test]
fn no_trees() {
    use NotATree::*;
    let fault = |channels: &[u16], joints: &[(u16, u16)]| {
        Net::new(1, channels, joints).expect_err("no tree")
    };
    assert_eq!(fault(&[], &[]), Empty);
    assert_eq!(fault(&[], &[(1, 1)]), Empty);
    assert_eq!(fault(&[3, 4, 5, 4, 3], &[]), Twice(4));
    assert_eq!(fault(&[0, 1], &[(0, 1), (1, 7), (8, 1)]), Stranger(7));
    assert_eq!(fault(&[0, 1], &[(0, 1), (1, 0)]), Ring(1, 0));
    assert_eq!(fault(&[0, 1], &[(0, 1), (0, 1)]), Ring(0, 1));
    assert_eq!(fault(&[0, 1], &[(1, 1)]), Ring(1, 1));
    assert_eq!(fault(&[0, 1, 2, 3], &[(3, 1), (1, 2), (2, 3)]), Ring(2, 3));
    assert_eq!(fault(&[0, 1, 2], &[(0, 2)]), Apart(1));
    assert_eq!(fault(&[0, 1, 2, 3], &[(1, 2), (2, 3)]), Apart(1));
    assert_eq!(Net::chain(1, &[]), Err(Empty));
    assert_eq!(Net::chain(1, &[0, 1, 0]), Err(Twice(0)));
    for (fault, reason) in [
        (Empty, "the net has no channel"),
        (Twice(4), "channel 4 stands twice"),
        (
            Stranger(7),
            "a joint names channel 7, which the net does not have",
        ),
        (Ring(1, 0), "the joint of 1 and 0 closes a ring"),
        (Apart(1), "no joints lead to channel 1"),
    ] {
        assert_eq!(fault.to_string(), reason);
    }
}

/// The entries as the builder's comment has them, word by word.
fn by_the_rule(channels: &[u16], joints: &[(u16, u16)]) -> Vec<(u16, Option<u16>)> {
    let mut taken = vec![(channels[0], None)];
    let joined = |a, b| joints.contains(&(a, b)) || joints.contains(&(b, a));
    while taken.len() < channels.len() {
        let parent = |channel| {
            taken
                .iter()
                .position(|&(before, _)| joined(before, channel))
        };
        let fresh = |channel| taken.iter().all(|&(before, _)| before != channel);
        let ready = |&channel: &u16| Some((channel, Some(parent(channel)? as u16)));
        let mut listed = channels.iter().filter(|&&channel| fresh(channel));
        let next = listed.find_map(ready).expect("a tree");
        taken.push(next);
    }
    taken
}

#[test]
fn chance_trees() {
    let mut chance = Chance(5);
    for _ in 0..100 {
        let grown = chance::sheet(&mut chance);
        let Chip { columns, rows } = grown.chip();
        let mut sheet =
            Sheet::new(columns, rows, grown.kind(), grown.width()).with_mark(grown.mark());
        for net in grown.nets() {
            let mut channels: Vec<u16> = net.channels().collect();
            let mut joints: Vec<(u16, u16)> = net.joints().collect();
            chance.shuffle(&mut channels);
            chance.shuffle(&mut joints);
            for joint in &mut joints {
                if chance.below(2) == 0 {
                    *joint = (joint.1, joint.0);
                }
            }
            let built = Net::new(net.number(), &channels, &joints).expect("a tree");
            assert_eq!(entries(&built), by_the_rule(&channels, &joints));
            sheet.push(built);
        }
        let bytes = sheet.bytes().expect("bytes");
        assert!(read(&bytes).is_ok());
        assert_eq!(Sheet::read(&bytes), Ok(sheet));
    }
}

/// The channels that joints lead to from the first one.
fn reached(channels: &[u16], joints: &[(u16, u16)]) -> BTreeSet<u16> {
    let mut reached: BTreeSet<u16> = channels.iter().take(1).copied().collect();
    for _ in channels {
        for &(a, b) in joints {
            if reached.contains(&a) || reached.contains(&b) {
                reached.extend([a, b]);
            }
        }
    }
    reached
}

/// On any channels and joints: a tree is built, and what is said of no tree is true.
#[test]
fn any_channels_and_joints() {
    let mut chance = Chance(6);
    let mut seen = [0; 6];
    for _ in 0..30_000 {
        let channels: Vec<u16> = (0..chance.below(5))
            .map(|_| chance.below(9) as u16)
            .collect();
        let mut end = || match chance.below(20) {
            0 => 9,
            other => channels
                .get(other % channels.len().max(1))
                .copied()
                .unwrap_or(9),
        };
        let first = end();
        let mut joints = vec![(first, end())];
        (0..channels.len()).for_each(|_| joints.push((end(), end())));
        joints.truncate(chance.below(joints.len() + 1));
        let different: BTreeSet<u16> = channels.iter().copied().collect();
        let has = |channel| channels.contains(&channel);
        let known = joints.iter().all(|&(a, b)| has(a) && has(b));
        let whole = reached(&channels, &joints) == different;
        let case = match Net::new(1, &channels, &joints) {
            Ok(net) => {
                assert!(different.len() == channels.len() && known && whole);
                assert_eq!(joints.len() + 1, channels.len());
                assert_eq!(entries(&net), by_the_rule(&channels, &joints));
                0
            }
            Err(NotATree::Empty) => {
                assert!(channels.is_empty());
                1
            }
            Err(NotATree::Twice(channel)) => {
                assert!(channels.iter().filter(|&&one| one == channel).count() > 1);
                2
            }
            Err(NotATree::Stranger(channel)) => {
                assert!(!has(channel) && joints.iter().any(|&(a, b)| a == channel || b == channel));
                3
            }
            Err(NotATree::Ring(one, other)) => {
                let mut without = joints.clone();
                let closing = joints.iter().rposition(|&joint| joint == (one, other));
                without.remove(closing.expect("one of the joints"));
                assert!(reached(&[&[one], &channels[..]].concat(), &without).contains(&other));
                4
            }
            Err(NotATree::Apart(channel)) => {
                assert!(has(channel) && !reached(&channels, &joints).contains(&channel));
                5
            }
        };
        seen[case] += 1;
    }
    assert!(seen.iter().all(|&count| count > 500), "{seen:?}");
}

#[test]
fn too_large() {
    let sheet = |mark, nets: &[Net]| {
        let mut sheet = Sheet::new(3, 2, KIND_SUBSET, 2).with_mark(mark);
        nets.iter().for_each(|net| sheet.push(net.clone()));
        sheet.bytes().map(|bytes| bytes.len())
    };
    let chain = |length: u16| Net::chain(1, &(0..length).collect::<Vec<_>>()).expect("a chain");
    let short = |nets: &[Net]| sheet(Mark::Short, nets);
    assert_eq!(short(&[chain(16_379)]), Ok(65_534));
    assert_eq!(short(&[chain(16_380)]), Err(TooLarge::Sheet(65_538)));
    assert_eq!(short(&vec![chain(1); 6_552]), Ok(65_532));
    assert_eq!(short(&vec![chain(1); 6_553]), Err(TooLarge::Sheet(65_542)));
    let long = |nets: &[Net]| sheet(Mark::Long, nets);
    assert_eq!(long(&[chain(16_378)]), Ok(65_532));
    assert_eq!(long(&[chain(16_379)]), Err(TooLarge::Sheet(65_536)));
    assert_eq!(long(&vec![chain(1); 5_460]), Ok(65_532));
    assert_eq!(long(&vec![chain(1); 5_461]), Err(TooLarge::Sheet(65_544)));
    let all: Vec<u16> = (0..=65_535).rev().collect();
    let star: Vec<_> = all[1..].iter().map(|&channel| (channel, 65_535)).collect();
    for net in [Net::chain(1, &all), Net::new(1, &all, &star)] {
        let net = net.expect("a net of every channel");
        assert_eq!(net.channels().collect::<Vec<_>>(), all);
        let one = [net];
        assert_eq!(short(&one), Err(TooLarge::Sheet(262_162)));
        assert_eq!(long(&one), Err(TooLarge::Sheet(262_164)));
    }
    // With 12 bytes of rows the sheet of 65,534 bytes is too long, and one of 65,522 is not.
    let with_rows = |length| {
        let mut sheet = Sheet::new(3, 2, Kind::Subset.rows().expect("rows"), 2);
        sheet.push(chain(length));
        sheet.bytes().map(|bytes| bytes.len())
    };
    assert_eq!(with_rows(16_376), Ok(65_534));
    assert_eq!(with_rows(16_379), Err(TooLarge::Sheet(65_546)));
    let said = [TooLarge::Number(65_536), TooLarge::Sheet(65_538)].map(|fault| fault.to_string());
    assert_eq!(
        said[0],
        "net number 65536 is over 65535, the largest with mark 57 48; with mark 57 49 it fits"
    );
    assert_eq!(
        said[1],
        "the sheet has 65538 bytes, and its length field holds 65535"
    );
}

#[test]
fn entries_with_parents() {
    let entry = |channel, parent| Entry { channel, parent };
    let net = |entries: &[Entry]| Net::from_entries(1, entries.to_vec());
    assert!(net(&[entry(4, None), entry(0, Some(0)), entry(2, Some(0))]).is_some());
    assert!(net(&[entry(4, None), entry(0, None)]).is_some());
    assert_eq!(net(&[entry(4, Some(0))]), None);
    assert_eq!(net(&[entry(4, None), entry(0, Some(1))]), None);
}
