//! Sheets as text and back.
#![cfg(feature = "alloc")]

mod chance;
mod typed;

use chance::Chance;
use trackrouter::chip::Kind;
use trackrouter::sheet::{Mark, Net, Sheet};
use trackrouter::text::{line_of, parse, write, Line};
use trackrouter::{number, read};
use typed::{HEAD, LONG, T as T_TEXT};

/// The paper's sheet T.
const T: [u8; 54] = *include_bytes!("../../sheets/t.sheet");

/// T with net numbers of 32 bits.
const T_LONG: [u8; 60] = *include_bytes!("../../sheets/t_long.sheet");

fn bytes(text: &str) -> Vec<u8> {
    parse(text).expect("a text").bytes().expect("a sheet")
}

/// The bytes and the text, in the one layout, say the same sheet.
fn agree(bytes: &[u8], text: &str) {
    let sheet = Sheet::read(bytes).expect("an accepted sheet");
    assert_eq!(write(&sheet), text);
    assert_eq!(parse(text).as_ref(), Ok(&sheet));
    assert_eq!(sheet.bytes().as_deref(), Ok(bytes));
}

#[test]
fn the_paper_s_sheet() {
    agree(&T, T_TEXT);
    agree(&T_LONG, &format!("{LONG}{T_TEXT}"));
}

/// The short mark may be typed, and is left out of the one layout.
#[test]
fn marks() {
    for (said, layout, mark, packed) in [
        ("", "", Mark::Short, &T[..]),
        ("mark 57 48\n", "", Mark::Short, &T),
        ("# T\n\n\tmark\t57  48 # short\r\n", "", Mark::Short, &T),
        ("mark 57 49\n", LONG, Mark::Long, &T_LONG),
        ("\u{feff} mark 57\t49# long\n", LONG, Mark::Long, &T_LONG),
    ] {
        let sheet = parse(&format!("{said}{T_TEXT}")).expect("a sheet");
        assert_eq!(sheet.mark(), mark);
        assert_eq!(write(&sheet), format!("{layout}{T_TEXT}"));
        assert_eq!(sheet.bytes().as_deref(), Ok(packed));
    }
    let none = "chip 2 by 2\nkind subset\nwidth 1\n";
    agree(&[2, 2, 0, 1, 0, 0, 0, 0, 12, 0, 0x57, 0x48], none);
    let none = format!("{LONG}{none}");
    agree(&[2, 2, 0, 1, 0, 0, 0, 0, 12, 0, 0x57, 0x49], &none);
}

/// By hand: the ends of both halves, and numbers that are equal in one of them.
#[test]
fn net_numbers() {
    let bytes = [
        &[255, 255, 255, 255, 2, 0, 5, 0, 255, 255, 1, 0, 0, 0][..], // net 4294967295: 5 1-5
        &[0, 0, 1, 0, 1, 0, 6, 0, 255, 255],                         // net 65536: 6
        &[255, 255, 0, 0, 1, 0, 2, 0, 255, 255],                     // net 65535: 2
        &[0, 0, 0, 0, 1, 0, 6, 0, 255, 255],                         // net 0: 6
        &[1, 0, 0, 0, 1, 0, 3, 0, 255, 255],                         // net 1: 3
        &[1, 0, 1, 0, 1, 0, 3, 0, 255, 255],                         // net 65537: 3
        &[0, 0, 14, 0, 24, 0, 34, 0, 44, 0, 54, 0],
        &[3, 2, 2, 4, 6, 0, 64, 0, 88, 0, 0x57, 0x49],
    ]
    .concat();
    let nets =
        "net 4294967295: 5 1-5\nnet 65536: 6\nnet 65535: 2\nnet 0: 6\nnet 1: 3\nnet 65537: 3\n";
    let text = format!("{LONG}chip 3 by 2\nkind universal\nwidth 4\n{nets}");
    agree(&bytes, &text);
    let zeros = text.replace("net ", "net 00000000000");
    assert_eq!(parse(&zeros), parse(&text));
}

/// Nets and entries keep their order, numbers of nets need not rise, and a parent may be any earlier entry.
#[test]
fn order_is_kept() {
    let bytes = [
        &[9, 0, 3, 0, 5, 0, 255, 255, 1, 0, 0, 0, 0, 0, 0, 0][..], // net 9: 5 1-5 0-5
        &[0, 0, 1, 0, 6, 0, 255, 255],                             // net 0: 6
        &[255, 255, 3, 0, 3, 0, 255, 255, 2, 0, 0, 0, 4, 0, 1, 0], // net 65535: 3 2-3 4-2
        &[0, 0, 16, 0, 24, 0],
        &[3, 2, 1, 32, 3, 0, 40, 0, 58, 0, 0x57, 0x48],
    ]
    .concat();
    let text =
        "chip 3 by 2\nkind wilton\nwidth 32\nnet 9: 5 1-5 0-5\nnet 0: 6\nnet 65535: 3 2-3 4-2\n";
    agree(&bytes, text);
}

#[test]
fn kinds() {
    for (said, layout, kind) in [
        ("subset", "subset", 0),
        ("0", "subset", 0),
        ("wilton", "wilton", 1),
        ("01", "wilton", 1),
        ("universal", "universal", 2),
        ("2", "universal", 2),
        ("4", "4", 4),
        ("255", "255", 255),
    ] {
        let with = |kind: &str| T_TEXT.replace("subset", kind);
        let sheet = parse(&with(said)).expect("a sheet");
        assert_eq!(sheet.kind().number(), kind);
        assert_eq!(write(&sheet), with(layout));
        let mut bytes = T;
        bytes[44] = kind;
        assert_eq!(sheet.bytes().as_deref(), Ok(&bytes[..]));
    }
}

/// By hand: sheets/t_rows.sheet has the rows at byte 42, between directory and trailer.
#[test]
fn rows() {
    let bytes = include_bytes!("../../sheets/t_rows.sheet");
    let in_bytes = [0, 1, 1, 3, 1, 2, 0, 255, 1, 224, 0, 31];
    assert_eq!(bytes[42..54], in_bytes);
    assert_eq!(bytes[54..], [4, 4, 3, 3, 3, 0, 36, 0, 66, 0, 0x57, 0x48]);
    let layout = "rows 1+i 3-i 2-i -1+i -32-i 31+i";
    let nets = "net 1: 3 4-3\nnet 2: 4 17-4\nnet 3: 3 17-3\n";
    let with = |kind: &str| format!("chip 4 by 4\nkind {kind}\nwidth 3\n{nets}");
    agree(bytes, &with(layout));
    // Of the long mark: two zeros behind each net number, and the new offsets and length.
    let [one, two, three] = [0, 12, 24].map(|at| {
        let (number, rest) = bytes[at..at + 12].split_at(2);
        [number, &[0, 0], rest].concat()
    });
    let directory = [0, 0, 14, 0, 28, 0];
    let trailer = [4, 4, 3, 3, 3, 0, 42, 0, 72, 0, 0x57, 0x49];
    let long = [one, two, three].concat();
    let long = [&long[..], &directory, &in_bytes, &trailer].concat();
    agree(&long, &format!("{LONG}{}", with(layout)));
    for said in [
        "3 1+i 3-i 2-i -1+i -32-i 31+i",
        "003\t01+i 003-i  2-i\t-01+i -0032-i 31+i # six",
    ] {
        let sheet = parse(&with(said)).expect("a sheet");
        assert_eq!(write(&sheet), with(layout));
        assert_eq!(sheet.bytes().as_deref(), Ok(&bytes[..]));
    }
    let zero = parse(&with("rows -0+i 00-i 0+i 0-i -00-i 0+i")).expect("a sheet");
    assert_eq!(write(&zero), with("rows 0+i 0-i 0+i 0-i 0-i 0+i"));
}

/// Every row in every column, both ways.
#[test]
fn every_row() {
    for (column, shift, minus) in (0..6)
        .flat_map(|column| (-32..=31).map(move |shift| (column, shift)))
        .flat_map(|(column, shift)| [(column, shift, false), (column, shift, true)])
    {
        let mut words = ["0+i"; 6];
        let word = format!("{shift}{}i", if minus { '-' } else { '+' });
        words[column] = &word;
        let text = format!("chip 3 by 2\nkind rows {}\nwidth 2\n", words.join(" "));
        let mut bytes = [0; 24];
        bytes[12..].copy_from_slice(&[3, 2, 3, 2, 0, 0, 0, 0, 24, 0, 0x57, 0x48]);
        bytes[2 * column] = minus.into();
        bytes[2 * column + 1] = shift as u8;
        agree(&bytes, &text);
    }
}

#[test]
fn any_layout() {
    let text = "# T\r\n\r\n \t chip\t3  by 002 # columns by rows\r\nkind 0\n\n#kind 1\nwidth 2#\r\nnet 1:0 1-0\r\n\
        net 2 :\t1 \t 005-01\n \t\nnet\t0003: 0 5-0 # last";
    assert_eq!(write(&parse(text).expect("a sheet")), T_TEXT);
    assert_eq!(bytes(text), T);
}

#[test]
fn line_numbers() {
    let text = "\u{feff}chip 3 by 2 # net 9: 0\r\n\n# kind 0\n\tkind 0\nwidth 2\n\nnet 1: 0\n#net 2: 1\n \t\n net\t3:1";
    assert_eq!(parse(text).expect("a sheet").nets().len(), 2);
    let marked = format!("# {LONG}\n{LONG}{}", text.trim_start_matches('\u{feff}'));
    for (line, number) in [
        (Line::Chip, 1),
        (Line::Kind, 4),
        (Line::Width, 5),
        (Line::Net(0), 7),
        (Line::Net(1), 10),
    ] {
        assert_eq!(line_of(text, line), Some(number), "{line:?}");
        assert_eq!(line_of(&marked, line), Some(3 + number), "{line:?}");
    }
    assert_eq!(line_of(&marked, Line::Mark), Some(3));
    assert_eq!(line_of(text, Line::Mark), None);
    assert_eq!(line_of(text, Line::Net(2)), None);
    assert_eq!(line_of("", Line::Chip), None);
}

/// A chip that has more channels than there are numbers for them is the library's to refuse.
#[test]
fn the_largest_chip() {
    let text = "chip 255 by 255\nkind 255\nwidth 255\nnet 1: 0 65535-0\n";
    let sheet = parse(text).expect("a text");
    assert_eq!(write(&sheet), text);
    let refused = read(&sheet.bytes().expect("bytes")).expect_err("too large");
    assert_eq!(refused.number, number::CHIP);
}

/// What the text may say and the library refuses.
#[test]
fn refused_by_the_library() {
    let crowd: String = (0..65).map(|net| format!("net {net}: 0\n")).collect();
    let long: String = (1..33).map(|channel| format!(" {channel}-0")).collect();
    for (text, refusal) in [
        ("chip 3 by 2\nkind subset\nwidth 33", number::CHIP),
        ("chip 3 by 2\nkind 4\nwidth 32", number::CHIP),
        ("chip 17 by 0\nkind 2\nwidth 32", number::CHIP),
        (&(HEAD.to_string() + &crowd), number::CROWD),
        (&format!("{HEAD}net 1:"), number::DIRECTORY),
        (&format!("{HEAD}net 1: 0{long}"), number::DIRECTORY),
        (&format!("{HEAD}net 1: 7"), number::CHANNEL),
        (&format!("{HEAD}net 1: 0 1-0 0-1"), number::TWICE),
        (&format!("{HEAD}net 1: 0 2-0"), number::JOINT),
        (&format!("{HEAD}net 1: 0 1"), number::JOINT),
        (&format!("{HEAD}net 1: 0\nnet 1: 1"), number::NAME),
    ] {
        for mark in ["", LONG] {
            let refused = read(&bytes(&format!("{mark}{text}"))).expect_err(text);
            assert_eq!(refused.number, refusal, "{mark}{text}");
        }
    }
    // A channel that stands twice is meant where it stands first.
    let twice = parse(&format!("{HEAD}net 1: 0 1-0 0-1 5-0")).expect("a text");
    assert_eq!(twice.nets()[0].entries()[3].parent, Some(0));
}

#[test]
fn chance_sheets_both_ways() {
    let mut chance = Chance(1);
    let (mut longest, mut branches, mut by_rows, mut long) = (0, 0, 0, 0);
    for _ in 0..400 {
        let sheet = chance::sheet(&mut chance);
        let bytes = sheet.bytes().expect("a sheet");
        let counts = read(&bytes).expect("an accepted sheet");
        assert_eq!(counts.nets as usize, sheet.nets().len());
        assert_eq!(counts.entries as usize, sheet.entry_count());
        assert_eq!(Sheet::read(&bytes), Ok(sheet.clone()));
        let text = write(&sheet);
        agree(&bytes, &text);
        assert_eq!(text.starts_with(LONG), sheet.mark() == Mark::Long);
        longest = longest.max(bytes.len());
        by_rows += usize::from(matches!(sheet.kind(), Kind::Rows(_)));
        long += usize::from(sheet.nets().iter().any(|net| net.number() > 65_535));
        let side = |net: &Net| {
            let mut steps = net.entries().iter().zip(0..);
            steps.any(|(entry, place)| entry.parent.is_some_and(|parent| parent + 1 < place))
        };
        branches += sheet.nets().iter().filter(|net| side(net)).count();
    }
    assert!(longest > 4_000 && branches > 1_000, "{longest} {branches}");
    assert!(by_rows > 100 && long > 100, "{by_rows} {long}");
}
