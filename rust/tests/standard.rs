//! Sheets in standard form: by hand from the request's sentence, and on every listing of small sheets.

use std::collections::BTreeSet;
use trackrouter::*;

const T: [u8; 54] = *include_bytes!("../../sheets/t.sheet");

/// An entry's channel, and its parent's place.
type Entry = (u16, u16);

/// The first entry's parent.
const NONE: u16 = NO_PARENT;

/// The last two bytes: net numbers of two bytes, and of four.
const SHORT: [u8; 2] = [0x57, 0x48];
const LONG: [u8; 2] = [0x57, 0x49];

/// The bytes of a sheet: its mark; A, B, kind and W; each net's number and entries.
fn marked(mark: [u8; 2], chip: [u8; 4], nets: &[(u32, &[Entry])]) -> Vec<u8> {
    let size = if mark == LONG { 4 } else { 2 };
    let (mut bytes, mut directory) = (Vec::new(), Vec::new());
    for (number, entries) in nets {
        directory.extend((bytes.len() as u16).to_le_bytes());
        bytes.extend(&number.to_le_bytes()[..size]);
        let fields = entries
            .iter()
            .flat_map(|&(channel, parent)| [channel, parent]);
        let words = [entries.len() as u16].into_iter().chain(fields);
        bytes.extend(words.flat_map(u16::to_le_bytes));
    }
    let counts = [nets.len(), bytes.len(), bytes.len() + directory.len() + 12];
    bytes.extend(directory);
    bytes.extend(chip);
    bytes.extend(
        counts
            .iter()
            .flat_map(|&count| (count as u16).to_le_bytes()),
    );
    bytes.extend(mark);
    bytes
}

/// A sheet of the short mark.
fn sheet(chip: [u8; 4], nets: &[(u32, &[Entry])]) -> Vec<u8> {
    marked(SHORT, chip, nets)
}

/// The sheet with these rows between its directory and its trailer.
fn by_rows(mut sheet: Vec<u8>, rows: [u8; 12]) -> Vec<u8> {
    let trailer = sheet.len() - 12;
    sheet.splice(trailer..trailer, rows);
    let length = sheet.len();
    sheet[length - 10] = KIND_ROWS;
    sheet[length - 4..length - 2].copy_from_slice(&(length as u16).to_le_bytes());
    sheet
}

/// The standard form, with exactly the room that it needs and with more; it is its own.
fn form(sheet: &[u8]) -> Vec<u8> {
    let mut exact = vec![0xAA; sheet.len()];
    let form = standard(sheet, &mut exact)
        .expect("an accepted sheet")
        .to_vec();
    assert_eq!(form.len(), sheet.len());
    let mut longer = [0xAA; MAX_SHEET + 1];
    assert_eq!(standard(sheet, &mut longer), Ok(&form[..]));
    assert!(longer[sheet.len()..].iter().all(|&byte| byte == 0xAA));
    assert_eq!(standard(&form, &mut longer), Ok(&form[..]));
    form
}

const CHIP: [u8; 4] = [3, 2, KIND_SUBSET, 2];

/// On 3 by 2, channel 0 meets 1, 4 and 5; 1 meets 6; 4 meets 2.
#[test]
fn by_hand() {
    // A chain from 2 to 6. From the home 0: 1, since 1 and 4 have a joint to 0; 4, since 4 and 6 are next; 2 before 6. Breadth first is
    // 0 1 4 6 2, depth first 0 1 6 4 2, and 2 has to wait for 4.
    let chain = [(2, NONE), (4, 0), (0, 1), (1, 2), (6, 3)];
    let grown = [(0, NONE), (1, 0), (4, 0), (2, 2), (6, 1)];
    // The records have different lengths, so the directory changes.
    for mark in [SHORT, LONG] {
        assert_eq!(
            form(&marked(
                mark,
                CHIP,
                &[(7, &chain), (3, &[(5, NONE), (0, 0)])]
            )),
            marked(mark, CHIP, &[(3, &[(0, NONE), (5, 0)]), (7, &grown)])
        );
    }
    for listing in [
        [(0, NONE), (1, 0), (6, 1), (4, 0), (2, 3)],
        [(0, NONE), (1, 0), (4, 0), (6, 1), (2, 2)],
        [(6, NONE), (1, 0), (0, 1), (4, 2), (2, 3)],
    ] {
        assert_eq!(
            form(&sheet(CHIP, &[(7, &listing)])),
            sheet(CHIP, &[(7, &grown)])
        );
    }
    // The tree of joints is kept where channels meet without one: 0, 1 and 5 meet each other in one box.
    for (listing, grown) in [
        ([(1, NONE), (5, 0), (0, 1)], [(0, NONE), (5, 0), (1, 1)]),
        ([(5, NONE), (1, 0), (0, 1)], [(0, NONE), (1, 0), (5, 1)]),
        ([(5, NONE), (0, 0), (1, 1)], [(0, NONE), (1, 0), (5, 0)]),
    ] {
        assert_eq!(
            form(&sheet(CHIP, &[(0, &listing)])),
            sheet(CHIP, &[(0, &grown)])
        );
    }
}

/// Chip, kind, W and mark are kept.
#[test]
fn the_trailer() {
    for chip in [[2, 2, 0, 1], [16, 16, 2, 32], [3, 2, 1, 7], [2, 16, 2, 5]] {
        for mark in [SHORT, LONG] {
            assert_eq!(form(&marked(mark, chip, &[])), marked(mark, chip, &[]));
            let nets: [(u32, &[Entry]); 2] = [(9, &[(1, NONE)]), (8, &[(0, NONE)])];
            let rising = [nets[1], nets[0]];
            assert_eq!(
                form(&marked(mark, chip, &nets)),
                marked(mark, chip, &rising)
            );
        }
    }
}

/// The forms of one sheet in both marks differ in two zeros behind each number, in offsets, in the length and in the mark.
#[test]
fn both_marks() {
    let nets: [(u32, &[Entry]); 2] = [(260, &[(5, NONE), (0, 0)]), (8, &[(1, NONE)])];
    let short = [
        &[8, 0, 1, 0, 1, 0, 255, 255][..],
        &[4, 1, 2, 0, 0, 0, 255, 255, 5, 0, 0, 0],
        &[0, 0, 8, 0],
        &[3, 2, 0, 2, 2, 0, 20, 0, 36, 0, 0x57, 0x48],
    ];
    let long = [
        &[8, 0, 0, 0, 1, 0, 1, 0, 255, 255][..],
        &[4, 1, 0, 0, 2, 0, 0, 0, 255, 255, 5, 0, 0, 0],
        &[0, 0, 10, 0],
        &[3, 2, 0, 2, 2, 0, 24, 0, 40, 0, 0x57, 0x49],
    ];
    assert_eq!(form(&marked(SHORT, CHIP, &nets)), short.concat());
    assert_eq!(form(&marked(LONG, CHIP, &nets)), long.concat());
    let rows = [0, 1, 1, 3, 1, 2, 0, 255, 1, 224, 0, 31];
    let [one, two, directory, _] = long;
    assert_eq!(
        form(&by_rows(marked(LONG, CHIP, &nets), rows)),
        [
            one,
            two,
            directory,
            &rows,
            &[3, 2, 3, 2, 2, 0, 24, 0, 52, 0, 0x57, 0x49]
        ]
        .concat()
    );
}

/// The 12 bytes of kind 3 are kept, whatever they are: sheets that differ in one of them have different forms.
#[test]
fn rows() {
    let nets: [(u32, &[Entry]); 2] = [(9, &[(5, NONE), (0, 0)]), (8, &[(1, NONE)])];
    let grown: [(u32, &[Entry]); 2] = [(8, &[(1, NONE)]), (9, &[(0, NONE), (5, 0)])];
    let rows = [0, 1, 1, 3, 1, 2, 0, 255, 1, 224, 0, 31];
    let mut forms = BTreeSet::new();
    for at in 0..12 {
        for byte in [0, 1] {
            let mut rows = rows;
            rows[at] = byte;
            let form = form(&by_rows(sheet(CHIP, &nets), rows));
            assert_eq!(form, by_rows(sheet(CHIP, &grown), rows));
            forms.insert(form);
        }
    }
    // The rows themselves come again wherever a byte is 0 or 1 already, which is so at seven places.
    assert_eq!(forms.len(), 24 - 7 + 1);
    assert_eq!(
        form(&by_rows(sheet(CHIP, &[]), rows)),
        by_rows(sheet(CHIP, &[]), rows)
    );
}

/// Numbers over 255 are compared whole. On 16 by 16, channel 256 meets 15 and 240.
#[test]
fn two_bytes() {
    let chip = [16, 16, KIND_WILTON, 4];
    let one: &[Entry] = &[(300, NONE)];
    let numbers = [256, 65_535, 1, 255, 0, 257];
    let rising = [0, 1, 255, 256, 257, 65_535];
    assert_eq!(
        form(&sheet(chip, &numbers.map(|number| (number, one)))),
        sheet(chip, &rising.map(|number| (number, one)))
    );
    assert_eq!(
        form(&sheet(chip, &[(1, &[(256, NONE), (240, 0), (15, 0)])])),
        sheet(chip, &[(1, &[(15, NONE), (256, 0), (240, 1)])])
    );
}

/// Long numbers are compared whole: by the low half 65,536 would come first, read with the high half first 1 would come behind 65,536, and
/// with either half alone two nets would have one number.
#[test]
fn four_bytes() {
    let one: &[Entry] = &[(0, NONE)];
    let numbers = [
        65_536,
        4_294_967_295,
        1,
        16_777_216,
        65_535,
        65_537,
        0,
        4_294_901_760,
        256,
        2_147_483_648,
    ];
    let rising = [
        0,
        1,
        256,
        65_535,
        65_536,
        65_537,
        16_777_216,
        2_147_483_648,
        4_294_901_760,
        4_294_967_295,
    ];
    let listed = |numbers: [u32; 10]| marked(LONG, CHIP, &numbers.map(|number| (number, one)));
    assert_eq!(form(&listed(numbers)), listed(rising));
    let mut falling = rising;
    falling.reverse();
    assert_eq!(form(&listed(falling)), listed(rising));
}

/// Every order of three nets and of the two entries in each.
#[test]
fn every_relisting_of_t() {
    let pairs = [(1, [0, 1]), (2, [1, 5]), (3, [0, 5])];
    let orders = [
        [0, 1, 2],
        [0, 2, 1],
        [1, 0, 2],
        [1, 2, 0],
        [2, 0, 1],
        [2, 1, 0],
    ];
    let mut listings = BTreeSet::new();
    for order in orders {
        for turned in 0..8 {
            let nets = order.map(|net| {
                let (number, mut pair) = pairs[net];
                pair.rotate_left(turned >> net & 1);
                (number, [(pair[0], NONE), (pair[1], 0)])
            });
            listings.insert(sheet(
                CHIP,
                &nets.each_ref().map(|(number, net)| (*number, &net[..])),
            ));
        }
    }
    assert_eq!(listings.len(), 48);
    assert!(listings.contains(&T[..]));
    assert!(listings.iter().all(|listing| form(listing) == T));
}

/// All lists of four entries in these channels.
fn lists(channels: [u16; 4]) -> Vec<[Entry; 4]> {
    let mut lists = Vec::new();
    for code in 0..4 * 4 * 4 * 4 {
        let places = [code % 4, code / 4 % 4, code / 16 % 4, code / 64];
        if BTreeSet::from(places).len() == 4 {
            for (second, third) in [(0, 0), (0, 1), (0, 2), (1, 0), (1, 1), (1, 2)] {
                let parents = [NONE, 0, second, third];
                let entry = |k: usize| (channels[places[k]], parents[k]);
                lists.push([0, 1, 2, 3].map(entry));
            }
        }
    }
    lists
}

/// Equal bytes exactly for equal joints: on 3 by 3 the four channels of the box in the middle meet each other, so that all trees are good.
#[test]
fn every_tree_of_a_box() {
    let joints = |list: &[Entry; 4]| -> BTreeSet<Entry> {
        let pair = |&(channel, parent): &Entry| {
            let other = list[usize::from(parent)].0;
            (channel.min(other), channel.max(other))
        };
        list[1..].iter().map(pair).collect()
    };
    let lists = lists([2, 3, 7, 10]);
    let chip = [3, 3, KIND_UNIVERSAL, 3];
    let forms: Vec<_> = lists
        .iter()
        .map(|list| (joints(list), form(&sheet(chip, &[(5, list)]))))
        .collect();
    for (one, one_form) in &forms {
        for (other, other_form) in &forms {
            assert_eq!(one == other, one_form == other_form);
        }
    }
    let different: BTreeSet<_> = forms.iter().map(|(_, form)| form).collect();
    assert_eq!((forms.len(), different.len()), (144, 16));
}

/// The number of each fault of T, before 14; then 14 for an output shorter than the sheet. Nothing is written.
#[test]
fn refusals() {
    let changed = |at: usize, byte: u8| {
        let mut sheet = T.to_vec();
        sheet[at] = byte;
        sheet
    };
    for (sheet, number) in [
        (Vec::new(), number::LENGTH),
        (vec![0; MAX_SHEET + 1], number::LENGTH),
        (changed(53, 0x4A), number::MARK),
        // The records are too short for this mark.
        (changed(53, 0x49), number::DIRECTORY),
        (changed(45, 33), number::CHIP),
        (changed(46, 65), number::CROWD),
        (changed(38, 11), number::DIRECTORY),
        (changed(32, 7), number::CHANNEL),
        (changed(8, 0), number::TWICE),
        (changed(22, 1), number::JOINT),
        (changed(24, 1), number::NAME),
    ] {
        for room in [0, 6, 53, 54, 60] {
            refused(&sheet, room, number);
        }
    }
    for room in [0, 1, 5, 6, 42, 53] {
        refused(&T, room, number::SPACE);
    }
    let with_rows = by_rows(T.to_vec(), [0; 12]);
    for room in [0, 6, 12, 54, 64] {
        refused(&with_rows, room, number::SPACE);
        let mut bad = with_rows.clone();
        bad[45] = 32;
        refused(&bad, room, number::PARAMETER);
    }
    assert!(
        standard(&with_rows, &mut [0; 65]).is_err_and(|refusal| refusal.number == number::SPACE)
    );
    assert_eq!(form(&with_rows), with_rows);
    refused(&sheet(CHIP, &[]), 11, number::SPACE);
    let long = include_bytes!("../../sheets/t_long.sheet");
    for room in [0, 6, 54, 59] {
        refused(long, room, number::SPACE);
    }
    assert_eq!(form(long), long);
    let refusal = standard(&T, &mut [0; 53]).unwrap_err();
    assert_eq!(refusal.to_string(), "14 (space)");
}

fn refused(sheet: &[u8], room: usize, number: u32) {
    let mut out = [0xAA; 64];
    let answer = standard(sheet, &mut out[..room]);
    assert_eq!(answer, Err(Refusal { number, trials: 0 }));
    assert_eq!(out, [0xAA; 64]);
}
