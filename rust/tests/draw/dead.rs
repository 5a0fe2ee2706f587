//! Dead wires: which are drawn, and what the title says of a net on one.

use super::chance::{self, Chance};
use super::draw_support::sheets::{inner_t, net, routed, sheet_m7, sheet_t};
use super::{count, drawn, drawn_under, T_TICKET};
use trackrouter::dead::bytes;
use trackrouter::draw::svg;
use trackrouter::sheet::{Mark, Sheet};

/// Those below the width, in any order of the list; the others change nothing.
#[test]
fn below_the_width() {
    let sheet = sheet_t(0, 3);
    let bare = svg(&sheet, &[], Some(&T_TICKET));
    let above = [5, 0, 3, 0, 0, 31];
    assert_eq!(svg(&sheet, &above, Some(&T_TICKET)), bare);
    for dead in [[6, 0, 2, 2, 0, 0, 5, 0, 3], [5, 0, 3, 2, 0, 0, 6, 0, 2]] {
        let picture = drawn_under(&sheet, &dead, Some(&T_TICKET));
        assert_eq!((count(&picture, "dead"), count(&picture, "cross")), (2, 2));
        assert_eq!(picture.title, "chip 3 by 2, kind subset, width 3");
        let text = svg(&sheet, &dead, Some(&T_TICKET));
        assert_ne!(text, bare);
        assert_eq!(svg(&sheet, &[2, 0, 0, 6, 0, 2], Some(&T_TICKET)), text);
        drawn_under(&sheet, &dead, None);
    }
}

/// A net on a dead wire is drawn there: 21, before 13 and after 12.
#[test]
fn nets_on_dead_wires() {
    let title = |dead: &[u8], ticket: &[u8]| {
        let picture = drawn_under(&sheet_t(0, 3), dead, Some(ticket));
        picture
            .title
            .replace("chip 3 by 2, kind subset, width 3", "")
    };
    assert_eq!(title(&[5, 0, 1], &T_TICKET), ": 21 broken");
    assert_eq!(title(&[5, 0, 1], &[0, 0, 255, 255, 2, 2]), "");
    assert_eq!(title(&[5, 0, 1], &[0, 0, 1, 1, 1, 1]), ": 21 broken");
    assert_eq!(title(&[0, 0, 1], &[0, 0, 1, 1, 0, 0]), ": 13 clash");
    assert_eq!(title(&[5, 0, 1], &[0, 0, 1, 1, 2, 1]), ": 12 switch");
    let inner = drawn_under(&inner_t(1, 2), &[17, 0, 0], Some(&[0, 0, 1, 0, 1, 1]));
    assert!(inner.title.ends_with(": 21 broken"), "{}", inner.title);
    assert_eq!(count(&inner, "wire"), 6);
    drawn_under(&sheet_m7(), &[0, 0, 0, 1, 0, 0], Some(&[0, 1, 255, 255]));
}

/// The longest label leaves the crosses free, and a legend of dead wires alone is one.
#[test]
fn room() {
    for (width, number) in [(1, u32::MAX), (32, 65_535), (32, u32::MAX)] {
        let mut sheet = Sheet::new(2, 2, 0, width).with_mark(Mark::Long);
        sheet.push(net(number, &[(0, None), (2, Some(0))]));
        let picture = drawn_under(&sheet, &[0, 0, 0, 2, 0, 0], Some(&[0, 0]));
        let crosses: Vec<_> = picture.of_class("cross").collect();
        for plate in picture.of_class("plate") {
            let plate = plate.rect().expect("a plate");
            for stroke in crosses
                .iter()
                .flat_map(|cross| cross.strokes().expect("strokes"))
            {
                let inside =
                    |x, y| plate.left < x && x < plate.right && plate.top < y && y < plate.bottom;
                assert!(stroke.iter().all(|point| !inside(point.x, point.y)));
            }
        }
        assert_eq!((crosses.len(), count(&picture, "plate")), (2, 2));
    }
    let picture = drawn_under(&Sheet::new(2, 2, 0, 1), &[3, 0, 0], None);
    assert_eq!(count(&picture, "dead-key"), 1);
    assert_eq!(count(&drawn(&Sheet::new(2, 2, 0, 1), None), "dead-key"), 0);
}

/// Every wire of the largest chip, and chance lists with tickets that need not avoid them.
#[test]
fn many() {
    let wires = (0..480).flat_map(|channel: u16| (0..32).map(move |track| (channel, track)));
    let all: Vec<u8> = wires
        .flat_map(|(channel, track)| [channel as u8, (channel >> 8) as u8, track])
        .collect();
    for width in [1, 32] {
        let picture = drawn_under(&Sheet::new(16, 16, 1, width), &all, None);
        assert_eq!(count(&picture, "dead"), 480 * usize::from(width));
    }
    let mut chance = Chance(21);
    let (mut broken, mut right) = (0, 0);
    for round in 0..60 {
        let (columns, rows) = [(2, 2), (3, 2), (16, 2), (2, 16), (5, 4)][round % 5];
        let width = [1, 2, 3, 12, 20, 32][round % 6];
        let (nets, entries) = (chance.below(9), 1 + chance.below(9));
        let sheet = chance.sheet(Sheet::new(columns, rows, 1, width), nets, entries, 64);
        let dead = bytes(&chance::dead(&mut chance, &sheet, 12));
        drawn_under(&sheet, &dead, None);
        if let Some(ticket) = routed(&sheet) {
            let title = drawn_under(&sheet, &dead, Some(&ticket)).title;
            match title.ends_with(": 21 broken") {
                true => broken += 1,
                false => right += 1,
            }
        }
    }
    assert!(broken > 5 && right > 5, "{broken} {right}");
}

/// A list that the library refuses has no picture.
#[test]
fn without_a_picture() {
    let lists: [&[u8]; 7] = [
        &[0],
        &[0, 0],
        &[0, 0, 0, 1],
        &[7, 0, 0],
        &[0, 1, 0],
        &[0, 0, 32],
        &[0, 0, 31, 1, 0, 0, 0, 0, 31],
    ];
    for dead in lists {
        assert_eq!(svg(&sheet_t(0, 3), dead, None), None, "{dead:?}");
        assert_eq!(svg(&sheet_t(0, 3), dead, Some(&T_TICKET)), None);
    }
}
