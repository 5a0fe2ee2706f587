//! Pictures read back and compared with their sheets, dead wires and tickets; and that the reading finds what is wrong.
#![cfg(feature = "alloc")]

mod chance;
#[path = "draw/dead.rs"]
mod dead;
mod draw_support;
#[path = "draw/rim.rs"]
mod rim;

use chance::Chance;
use draw_support::sheets::{inner_t, net, routed, sheet_m7, sheet_t};
use draw_support::{check, Picture};
use trackrouter::chip::{Kind, Row};
use trackrouter::draw::svg;
use trackrouter::sheet::{Mark, Sheet};

const T_TICKET: [u8; 6] = [0, 0, 1, 1, 2, 2];

/// The checked picture, twice the same.
fn drawn(sheet: &Sheet, ticket: Option<&[u8]>) -> Picture {
    drawn_under(sheet, &[], ticket)
}

/// The same with dead wires.
fn drawn_under(sheet: &Sheet, dead: &[u8], ticket: Option<&[u8]>) -> Picture {
    let text = svg(sheet, dead, ticket).expect("a picture");
    assert_eq!(svg(sheet, dead, ticket).as_ref(), Some(&text));
    match check(sheet, dead, ticket, &text) {
        Ok(picture) => picture,
        Err(wrong) => panic!("{wrong}"),
    }
}

fn count(picture: &Picture, class: &str) -> usize {
    picture.of_class(class).count()
}

/// T with m3's ticket, and T in an inner box with those that m4 and m5 had on the paper's chip before the rim ran straight; then without a
/// ticket.
#[test]
fn sheet_t_of_each_kind() {
    let cases: [(Sheet, [u8; 6]); 3] = [
        (sheet_t(0, 3), T_TICKET),
        (inner_t(2, 2), [0, 0, 1, 1, 1, 0]),
        (inner_t(1, 2), [0, 0, 1, 0, 1, 1]),
    ];
    for (sheet, ticket) in cases {
        let picture = drawn(&sheet, Some(&ticket));
        assert_eq!((count(&picture, "wire"), count(&picture, "joint")), (6, 3));
        assert!(!picture.title.contains(':'), "{}", picture.title);
        let picture = drawn(&sheet, None);
        assert_eq!(
            (
                count(&picture, "unplaced"),
                count(&picture, "unplaced-joint")
            ),
            (6, 3)
        );
    }
}

/// T by rows with the ticket of docs/FORMATS.md, and with the longest title, right or not. The title has the rows.
#[test]
fn sheet_t_by_rows() {
    let bytes = include_bytes!("../../sheets/t_rows.sheet");
    let sheet = Sheet::read(bytes).expect("a sheet");
    let right = drawn(&sheet, Some(&[0, 1, 0, 1, 2, 0]));
    let title = "chip 4 by 4, kind rows 1+i 3-i 2-i -1+i -32-i 31+i, width 3";
    assert_eq!(right.title, title);
    assert_eq!((count(&right, "wire"), count(&right, "joint")), (6, 3));
    // Left to right 0 goes to 1, not to 0.
    let wrong = drawn(&sheet, Some(&[0, 0, 0, 1, 2, 0]));
    assert_eq!(wrong.title, format!("{title}: 12 switch"));
    drawn(&sheet, None);
    let longest = [Row::new(true, -32).expect("a row"); 6];
    for (columns, rows) in [(2, 2), (2, 16), (16, 2)] {
        let mut sheet = Sheet::new(columns, rows, longest, 1);
        drawn(&sheet, Some(&[]));
        (0..2).for_each(|number| sheet.push(net(number, &[(0, None)])));
        let title = drawn(&sheet, Some(&[0, 0])).title;
        let rows = "rows -32-i -32-i -32-i -32-i -32-i -32-i";
        assert!(title.ends_with(&format!(", kind {rows}, width 1: 13 clash")));
    }
}

#[test]
fn the_file_in_docs_is_t() {
    let file = include_str!("../../docs/t.svg");
    let text = svg(&sheet_t(0, 3), &[], Some(&T_TICKET));
    assert!(
        text.as_deref() == Some(file),
        "docs/t.svg is not the picture of T at W 3"
    );
    let picture = Picture::read(file).expect("a picture");
    assert!((500..=800).contains(&picture.width));
}

/// m7: net 3 is unplaced before, and net 2 has moved after.
#[test]
fn refit_before_and_after() {
    let before = drawn(&sheet_m7(), Some(&[0, 1, 255, 255]));
    assert_eq!((count(&before, "wire"), count(&before, "unplaced")), (2, 2));
    let after = drawn(&sheet_m7(), Some(&[0, 0, 1, 1]));
    assert_eq!((count(&after, "wire"), count(&after, "unplaced")), (4, 0));
}

#[test]
fn no_nets() {
    for (columns, rows) in [(2, 2), (16, 2), (2, 16), (16, 16)] {
        for (kind, width) in [(0, 1), (1, 32), (2, 7)] {
            drawn(&Sheet::new(columns, rows, kind, width), Some(&[]));
            drawn(&Sheet::new(columns, rows, kind, width), None);
        }
    }
}

/// 64 nets of 32 entries on 16 by 16 at W 32, for each kind and by its rows, routed by the library; then with nets unplaced.
#[test]
fn the_largest() {
    let mut chance = Chance(7919);
    for kind in [0, 1, 2].map(Kind::from) {
        let sheet = chance.sheet(Sheet::new(16, 16, kind, 32), 64, 32, 64);
        assert_eq!(sheet.entry_count(), 2048);
        let mut ticket = routed(&sheet).expect("a ticket at W 32");
        let picture = drawn(&sheet, Some(&ticket));
        assert_eq!(
            (count(&picture, "wire"), count(&picture, "joint")),
            (2048, 64 * 31)
        );
        // The ticket is as right by the rows of the kind.
        let mut by_rows = Sheet::new(16, 16, kind.rows().expect("rows"), 32);
        sheet
            .nets()
            .iter()
            .for_each(|net| by_rows.push(net.clone()));
        assert!(drawn(&by_rows, Some(&ticket)).title.ends_with(" width 32"));
        ticket[32..96].fill(255);
        drawn(&sheet, Some(&ticket));
        drawn(&sheet, None);
    }
}

/// The page of every accepted sheet has less than 32,768 units on each side, which renderers of bitmaps can hold: the most lanes are
/// needed when 64 unplaced nets share a channel.
#[test]
fn the_largest_page() {
    for (mark, last) in [(Mark::Short, 65_535), (Mark::Long, u32::MAX)] {
        let mut sheet = Sheet::new(16, 16, 0, 32).with_mark(mark);
        for number in last - 63..=last {
            sheet.push(net(number, &[(0, None), (1, Some(0))]));
        }
        let picture = drawn(&sheet, None);
        assert!(!picture.title.contains(':'), "{}", picture.title);
        assert!(picture.width < 32_768 && picture.height < 32_768);
    }
}

/// T of the long mark has T's picture; with long numbers these are on its wires, in its legend and nowhere cut.
#[test]
fn long_numbers() {
    let long = sheet_t(0, 3).with_mark(Mark::Long);
    let text = svg(&long, &[], Some(&T_TICKET));
    assert!(text == svg(&sheet_t(0, 3), &[], Some(&T_TICKET)));
    let mut sheet = Sheet::new(3, 2, 0, 3).with_mark(Mark::Long);
    sheet.push(net(u32::MAX, &[(0, None), (1, Some(0))]));
    sheet.push(net(65_536, &[(1, None), (5, Some(0))]));
    sheet.push(net(1, &[(0, None), (5, Some(0))]));
    let picture = drawn(&sheet, Some(&T_TICKET));
    assert_eq!(picture.title, "chip 3 by 2, kind subset, width 3");
    let texts = |class| picture.of_class(class).map(|shape| shape.text.clone());
    let labels: Vec<String> = texts("label").collect();
    assert_eq!(
        labels,
        ["4294967295", "4294967295", "65536", "65536", "1", "1"]
    );
    let keys: Vec<String> = texts("key").collect();
    assert_eq!(keys, ["net 4294967295", "net 65536", "net 1"]);
    drawn(&sheet, None);
    let bytes = include_bytes!("../../sheets/largest_long.sheet");
    let largest = Sheet::read(bytes).expect("a sheet");
    let ticket = routed(&largest).expect("a ticket");
    assert_eq!(count(&drawn(&largest, Some(&ticket)), "label"), 2_048);
    drawn(&largest, None);
    // Two nets on one wire, which the title says: the library has read these numbers.
    let clash = drawn(&sheet, Some(&[0, 0, 1, 1, 1, 1]));
    assert!(clash.title.ends_with(": 13 clash"), "{}", clash.title);
}

#[test]
fn sheets_by_chance() {
    let mut chance = Chance(7);
    let mut with_ticket = 0;
    for round in 0..120 {
        let (columns, rows) = [(2, 2), (3, 2), (16, 2), (2, 16), (5, 4), (16, 16)][round % 6];
        let width = [1, 2, 3, 5, 12, 20, 32][round % 7];
        let kind = match round % 4 {
            3 => chance::rows(&mut chance).into(),
            number => Kind::from(number as u8),
        };
        let nets = chance.below(if round % 5 == 0 { 64 } else { 8 });
        let entries = 1 + chance.below(9);
        let (largest, mark) = [
            (64, Mark::Short),
            (999, Mark::Long),
            (65_535, Mark::Short),
            (u32::MAX, Mark::Long),
        ][round % 4];
        let empty = Sheet::new(columns, rows, kind, width).with_mark(mark);
        let sheet = chance.sheet(empty, nets, entries, largest);
        drawn(&sheet, None);
        let Some(mut ticket) = routed(&sheet) else {
            continue;
        };
        with_ticket += 1;
        drawn(&sheet, Some(&ticket));
        for (_, part) in sheet.parts() {
            if chance.below(3) == 0 {
                ticket[part].fill(255);
            }
        }
        drawn(&sheet, Some(&ticket));
    }
    assert!(with_ticket > 30, "{with_ticket} with a ticket");
}

/// A ticket that Check refuses is drawn as it is: with the joint of no partners, and with nets that hold one wire.
#[test]
fn wrong_tickets() {
    drawn(&sheet_t(0, 3), Some(&[0, 2, 1, 0, 2, 1]));
    drawn(&inner_t(1, 3), Some(&[0, 0, 0, 0, 0, 0]));
    for nets in [3, 30] {
        let mut sheet = Sheet::new(2, 2, 0, 1);
        (0..nets).for_each(|number| sheet.push(net(number, &[(0, None), (3, Some(0))])));
        let picture = drawn(&sheet, Some(&vec![0; 2 * nets as usize]));
        assert!(count(&picture, "label") >= 6);
    }
    // Short and long numbers on one wire: each label stands beside those before it, as far as there is room.
    for (numbers, labels) in [([7, 65_536, 12, 300, 3], 8), ([u32::MAX, 7, 12, 3, 999], 2)] {
        let mut sheet = Sheet::new(2, 2, 0, 1).with_mark(Mark::Long);
        for number in numbers {
            sheet.push(net(number, &[(0, None), (3, Some(0))]));
        }
        let picture = drawn(&sheet, Some(&[0; 10]));
        assert_eq!(count(&picture, "label"), labels);
    }
}

/// A kind that the library does not know is drawn with its number; more nets than colours have some twice.
#[test]
fn refused_sheets_with_a_picture() {
    drawn(&sheet_t(9, 3), Some(&T_TICKET));
    let mut sheet = Sheet::new(4, 4, 0, 8);
    for number in 0..70 {
        sheet.push(net(number, &[(number as u16 % 24, None)]));
    }
    drawn(&sheet, None);
}

#[test]
fn without_a_picture() {
    let t = sheet_t(0, 3);
    let tickets: [&[u8]; 6] = [
        &[],
        &[0, 0, 1, 1, 2],
        &[0, 0, 1, 1, 2, 2, 0],
        &[0, 0, 1, 1, 2, 3],
        &[0, 0, 1, 1, 2, 255],
        &[0, 0, 1, 1, 255, 254],
    ];
    for ticket in tickets {
        assert_eq!(svg(&t, &[], Some(ticket)), None, "{ticket:?}");
    }
    for (columns, rows, width) in [
        (200, 200, 3),
        (0, 0, 3),
        (1, 2, 3),
        (17, 2, 3),
        (2, 17, 3),
        (3, 2, 0),
        (3, 2, 33),
        (3, 2, 255),
    ] {
        assert_eq!(
            svg(&Sheet::new(columns, rows, 0, width), &[], Some(&[])),
            None
        );
        assert_eq!(svg(&Sheet::new(columns, rows, 0, width), &[], None), None);
    }
    let beyond = net(1, &[(0, None), (7, Some(0))]);
    let far = net(1, &[(65_535, None)]);
    let twice = net(1, &[(0, None), (1, Some(0)), (0, Some(1))]);
    let itself = net(1, &[(0, None), (0, Some(0))]);
    let apart = net(1, &[(0, None), (3, Some(0))]);
    for net in [beyond, far, twice, itself, apart] {
        let mut sheet = Sheet::new(3, 2, 0, 3);
        sheet.push(net);
        assert_eq!(svg(&sheet, &[], None), None, "{sheet:?}");
        assert_eq!(svg(&sheet, &[], Some(&[0, 0])), None, "{sheet:?}");
    }
}
