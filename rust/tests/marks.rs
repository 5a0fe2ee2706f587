//! The calls on sheets of the long mark, whose net numbers have four bytes: T in both marks, and by hand what the order of the nets, two nets
//! of one number and Remove make of numbers that are equal in one half.

use trackrouter::*;

const T: [u8; 54] = *include_bytes!("../../sheets/t.sheet");

/// T's records start at 0, 14 and 28 here, its directory at 42, its trailer at 48.
const T_LONG: [u8; 60] = *include_bytes!("../../sheets/t_long.sheet");

const UP: u8 = UNPLACED;

fn refusal(number: u32, trials: u32) -> Refusal {
    Refusal { number, trials }
}

fn number_of<T>(answer: Result<T, Refusal>) -> u32 {
    answer.err().map_or(0, |refusal| refusal.number)
}

/// T in both marks, with this width.
fn at_width(width: u8) -> [Vec<u8>; 2] {
    let (mut short, mut long) = (T, T_LONG);
    (short[45], long[51]) = (width, width);
    [short.to_vec(), long.to_vec()]
}

#[test]
fn read_and_record() {
    let counts = Counts {
        nets: 3,
        entries: 6,
    };
    let [short, long] = at_width(2);
    assert_eq!(read(&long), Ok(counts));
    for (place, start) in [0, 14, 28].into_iter().enumerate() {
        let part = record(&long, place);
        assert_eq!(part.as_ptr(), long[start..].as_ptr());
        assert_eq!(part.len(), 14);
        let (number, rest) = record(&short, place).split_at(2);
        assert_eq!(part, [number, &[0, 0], rest].concat());
    }
    assert_eq!(record(&long, 3), &[] as &[u8]);
}

/// m1, m2, m3, m6 and m12, and a net that goes in and out.
#[test]
fn t_in_both_marks() {
    for sheet in at_width(2) {
        let mut out = [0xAA; 7];
        let unroutable = refusal(number::UNROUTABLE, 10);
        assert_eq!(route(&sheet, &[], 10, &mut out), Err(unroutable));
        let spent = refusal(number::SPENT, 9);
        assert_eq!(route(&sheet, &[], 9, &mut out), Err(spent));
        assert_eq!(check(&sheet, &[], &[0; 5]), Err(refusal(number::SIZE, 0)));
        assert_eq!(out, [0xAA; 7]);
        let found = least(&sheet, &[], 16, &mut out).expect("a ticket");
        assert_eq!((found.width, found.trials), (3, 16));
        assert_eq!(out, [0, 0, 1, 1, 2, 2, 0xAA]);
    }
    for sheet in at_width(3) {
        let ticket = [0, 0, 1, 1, 2, 2];
        let mut out = [0xAA; 7];
        let routed = route(&sheet, &[], 6, &mut out).expect("a ticket");
        assert_eq!((routed.trials, routed.ticket), (6, &ticket[..]));
        assert_eq!(check(&sheet, &[], &ticket), Ok(()));
        let broken = Err(refusal(number::BROKEN, 0));
        assert_eq!(check(&sheet, &[5, 0, 1], &ticket), broken);
        let old = [0, 0, UP, UP, 2, 2];
        let left = remove(&sheet, &ticket, 2, &mut out);
        assert_eq!(left, Ok(&old[..]));
        // By hand in docs/FORMATS.md, section 7.
        let refitted = refit(&sheet, &[5, 0, 1], &old, 21, &mut out).expect("a ticket");
        assert_eq!((refitted.trials, refitted.moved), (21, 1));
        assert_eq!(out, [1, 1, 0, 0, 2, 2, 0xAA]);
    }
}

/// Two nets through channel 0 alone, with W 2: the first record of ten bytes at 0, the second at 10.
fn pair(one: u32, other: u32) -> [u8; 36] {
    let mut sheet = [0; 36];
    for (at, number) in [(0, one), (10, other)] {
        sheet[at..at + 4].copy_from_slice(&number.to_le_bytes());
        sheet[at + 4..at + 10].copy_from_slice(&[1, 0, 0, 0, 255, 255]);
    }
    sheet[22] = 10;
    sheet[24..].copy_from_slice(&[3, 2, 0, 2, 2, 0, 20, 0, 36, 0, 0x57, 0x49]);
    sheet
}

/// Pairs of numbers, the lower one first: their low halves are equal, or in the other order, or only the highest bits differ.
const RISING: [(u32, u32); 10] = [
    (1, 65_537),
    (0, 65_536),
    (65_535, 65_536),
    (1, 65_536),
    (65_535, 4_294_967_295),
    (65_536, 4_294_967_295),
    (4_294_901_760, 4_294_967_295),
    (256, 16_777_216),
    (0, 4_294_967_295),
    (2_147_483_647, 2_147_483_648),
];

/// The net of the lower number is tried first and takes track 0; the other tries 0 and takes 1.
#[test]
fn order_by_the_whole_number() {
    for (low, high) in RISING {
        for (sheet, ticket) in [(pair(low, high), [0, 1]), (pair(high, low), [1, 0])] {
            let mut out = [0xAA; 2];
            let routed = route(&sheet, &[], 3, &mut out).expect("a ticket");
            assert_eq!((routed.trials, routed.ticket), (3, &ticket[..]));
            let found = least(&sheet, &[], 3, &mut out).expect("a ticket");
            assert_eq!((found.width, found.ticket), (2, &ticket[..]));
            let fresh = refit(&sheet, &[], &[UP; 2], 3, &mut out).expect("a ticket");
            assert_eq!((fresh.trials, fresh.ticket), (3, &ticket[..]));
        }
    }
}

/// 9 exactly if all four bytes are equal.
#[test]
fn one_number() {
    for (low, high) in RISING {
        assert!(read(&pair(low, high)).is_ok() && read(&pair(high, low)).is_ok());
        for number in [low, high] {
            let twice = read(&pair(number, number));
            assert_eq!(number_of(twice), number::NAME, "{number}");
        }
    }
}

#[test]
fn remove_by_the_whole_number() {
    for (low, high) in RISING {
        let mut out = [0xAA; 2];
        let sheet = pair(high, low);
        assert_eq!(remove(&sheet, &[0, 1], high, &mut out), Ok(&[UP, 1][..]));
        assert_eq!(remove(&sheet, &[0, 1], low, &mut out), Ok(&[0, UP][..]));
    }
    // Strangers, each equal in one half to a number of the sheet.
    let sheet = pair(65_537, 4_294_967_294);
    for net in [0, 1, 65_536, 131_073, 65_534, 4_294_901_761, 4_294_967_295] {
        let mut out = [0xAA; 2];
        let answer = remove(&sheet, &[0, 1], net, &mut out);
        assert_eq!(number_of(answer), number::STRANGER, "{net}");
        assert_eq!(out, [0xAA; 2]);
    }
    // A short number is no long one, whatever the mark.
    for sheet in at_width(3) {
        for net in [65_537, 16_777_217, 0x8000_0001] {
            let mut out = [0; 6];
            let answer = remove(&sheet, &[0, 0, 1, 1, 2, 2], net, &mut out);
            assert_eq!(number_of(answer), number::STRANGER, "{net}");
        }
    }
}

/// One byte of T in the long mark, and the first number that applies.
#[test]
fn refusals() {
    for (at, byte, number) in [
        (59, 0x4A, number::MARK),
        (58, 0x56, number::MARK),
        (56, 54, number::MARK),
        (51, 33, number::CHIP),
        (52, 65, number::CROWD),
        // Read as one of the short mark, its first net has no entries.
        (59, 0x48, number::DIRECTORY),
        (54, 36, number::DIRECTORY),
        (44, 12, number::DIRECTORY),
        (4, 1, number::DIRECTORY),
        (18, 33, number::DIRECTORY),
        (20, 7, number::CHANNEL),
        (24, 1, number::TWICE),
        (26, 1, number::JOINT),
        (28, 1, number::NAME),
        // The numbers' upper halves.
        (30, 1, number::OK),
        (3, 255, number::OK),
    ] {
        let mut sheet = T_LONG;
        sheet[at] = byte;
        assert_eq!(number_of(read(&sheet)), number, "byte {at}");
        assert_eq!(record(&sheet, 0).is_empty(), number != 0);
    }
    let mut short = T;
    short[53] = 0x49;
    assert_eq!(number_of(read(&short)), number::DIRECTORY);
}

/// The limit is 8,728 for both marks: of a sheet of zeros before its trailer 1 is said from 8,729 bytes on, and 5 up to there.
#[test]
fn lengths() {
    for mark in [0x48, 0x49] {
        for length in [
            13_usize, 8_588, 8_600, 8_601, 8_716, 8_727, 8_728, 8_729, 9_000,
        ] {
            let mut sheet = vec![0; length];
            let [low, high] = (length as u16).to_le_bytes();
            let trailer = [3, 2, 0, 2, 0, 0, 0, 0, low, high, 0x57, mark];
            sheet[length - 12..].copy_from_slice(&trailer);
            let first = match length {
                8_729.. => number::LENGTH,
                _ => number::DIRECTORY,
            };
            assert_eq!(number_of(read(&sheet)), first, "{length}");
        }
    }
    assert_eq!(MAX_SHEET, 8_728);
}
