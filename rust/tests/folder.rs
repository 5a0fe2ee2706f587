//! The sheets of the folder sheets/: each in both forms, and what the paper says of them.
#![cfg(feature = "alloc")]

use std::collections::BTreeSet;
use std::fs;
use std::path::PathBuf;
use trackrouter::chip::{Chip, Kind};
use trackrouter::lines::{parse, write, Missing};
use trackrouter::sheet::{Mark, Net, Sheet};
use trackrouter::{check, least, number, read, refit, route, text};
use trackrouter::{KIND_UNIVERSAL, MAX_ENTRIES, MAX_SHEET};

fn folder() -> PathBuf {
    PathBuf::from(env!("CARGO_MANIFEST_DIR")).join("../sheets")
}

fn bytes(name: &str) -> Vec<u8> {
    let path = folder().join(name).with_extension("sheet");
    fs::read(&path).unwrap_or_else(|_| panic!("{}", path.display()))
}

fn text_of(name: &str) -> String {
    let path = folder().join(name).with_extension("txt");
    fs::read_to_string(&path).unwrap_or_else(|_| panic!("{}", path.display()))
}

#[test]
fn both_forms() {
    let mut names = BTreeSet::new();
    for file in fs::read_dir(folder()).expect("the folder") {
        let path = file.expect("a file").path();
        let form = path.extension().and_then(|form| form.to_str());
        assert!(matches!(form, Some("sheet" | "txt")), "{}", path.display());
        let name = path.file_stem().and_then(|name| name.to_str());
        names.insert(name.expect("a name").to_string());
    }
    for name in &names {
        let (bytes, commented) = (bytes(name), text_of(name));
        let lines = commented.split_inclusive('\n');
        let layout: String = lines.skip_while(|line| line.starts_with("# ")).collect();
        let sheet = Sheet::read(&bytes).expect("an accepted sheet");
        assert_eq!(text::write(&sheet), layout, "{name}");
        assert_eq!(text::parse(&commented).as_ref(), Ok(&sheet), "{name}");
        assert_eq!(sheet.bytes(), Ok(bytes), "{name}");
    }
    let known =
        "greenhouse largest largest_long refit t t3 t_long t_rim t_rows t_universal t_wilton";
    for name in known.split(' ') {
        assert!(names.contains(name), "{name}");
    }
}

/// m1, m3, m5 and m6; those in an inner box by hand in docs/FORMATS.md.
#[test]
fn t_and_its_kin() {
    let mut out = [0; 6];
    let found = least(&bytes("t_rows"), &[], 15, &mut out).expect("a ticket");
    assert_eq!((found.width, found.trials), (3, 15));
    for name in ["t", "t_long", "t_rim"] {
        let refused = route(&bytes(name), &[], 10, &mut out).expect_err("unroutable");
        assert_eq!((refused.number, refused.trials), (number::UNROUTABLE, 10));
        let found = least(&bytes(name), &[], 16, &mut out).expect("a ticket");
        assert_eq!((found.width, found.trials), (3, 16));
    }
    for (name, trials, ticket) in [
        ("t3", 6, [0, 0, 1, 1, 2, 2]),
        ("t_universal", 5, [0, 0, 1, 1, 1, 0]),
        ("t_wilton", 5, [0, 0, 1, 0, 1, 1]),
        ("t_rows", 5, [0, 1, 0, 1, 2, 0]),
    ] {
        let routed = route(&bytes(name), &[], trials, &mut out).expect(name);
        assert_eq!((routed.trials, routed.ticket), (trials, &ticket[..]));
    }
}

/// m7, with the old ticket that the sheet's comment has.
#[test]
fn a_refit() {
    let sheet = Sheet::read(&bytes("refit")).expect("a sheet");
    let comment = text_of("refit");
    let said: Vec<&str> = comment.split('"').skip(1).step_by(2).collect();
    let old = parse(&sheet, &said.join("\n"), Missing::Wrong).expect("a ticket");
    assert_eq!(old, [0, 1, 255, 255]);
    let mut out = [0; 4];
    let new = refit(&bytes("refit"), &[], &old, 10, &mut out).expect("a ticket");
    assert_eq!((new.trials, new.moved), (10, 1));
    let lines = write(&sheet, new.ticket);
    assert_eq!(lines.as_deref(), Some("1 0.0\n2 1.0\n3 0.1 1.1\n"));
}

/// Three nets run through channel 0, so W 3 is the least; each net has its line in the comment.
#[test]
fn the_greenhouse() {
    let bytes = bytes("greenhouse");
    let mut out = [0; MAX_ENTRIES];
    let routed = route(&bytes, &[], 1_000, &mut out).expect("a ticket");
    assert_eq!(check(&bytes, &[], routed.ticket), Ok(()));
    assert_eq!(
        least(&bytes, &[], 1_000, &mut out).expect("a ticket").width,
        3
    );
    let text = text_of("greenhouse");
    for net in Sheet::read(&bytes).expect("a sheet").nets() {
        assert!(text.contains(&format!("# net {}: ", net.number())));
    }
}

/// The sheet with this width.
fn at_width(sheet: &[u8], width: u8) -> Vec<u8> {
    let mut sheet = sheet.to_vec();
    let trailer = sheet.len() - 12;
    sheet[trailer + 3] = width;
    sheet
}

/// The channel between two boxes beside each other.
fn between(chip: Chip, one: (u8, u8), other: (u8, u8)) -> u16 {
    let (low, high) = (one.min(other), one.max(other));
    let channel = match low.1 == high.1 {
        true => chip.channel_right(low.0, low.1),
        false => chip.channel_up(low.0, low.1),
    };
    channel.expect("two boxes beside each other")
}

/// A net of sheets/largest, by the rule in its comment; `number` is its number for its place, counted from 1.
fn comb(chip: Chip, tile: u8, turns: u8, number: fn(u32) -> u32) -> Net {
    let turned = |place| (0..turns).fold(place, |(c, r), _| (15 - r, c));
    let channel = |one, other| between(chip, turned(one), turned(other));
    let (left, low) = (8 * (tile % 8 % 2), 4 * (tile % 8 / 2));
    let (mut channels, mut joints) = (Vec::new(), Vec::new());
    let mut below = None;
    for row in low..low + 4 {
        let tooth: Vec<u16> = (left..left + 7)
            .map(|c| channel((c, row), (c + 1, row)))
            .collect();
        if let Some(below) = &mut below {
            let up = channel((left, row - 1), (left, row));
            joints.extend([(up, *below), (up, tooth[0])]);
            channels.push(up);
            *below = up;
        }
        below = below.or(Some(tooth[0]));
        joints.extend(tooth.windows(2).map(|two| (two[0], two[1])));
        channels.extend(tooth);
    }
    let end = (left + 7, low + 3);
    let beyond = if left == 0 {
        (end.0 + 1, end.1)
    } else {
        (end.0, end.1 - 1)
    };
    let last = channel(end, beyond);
    joints.push((last, channels[channels.len() - 1]));
    channels.push(last);
    let place = 1 + 4 * u32::from(tile) + u32::from(turns);
    Net::new(number(place), &channels, &joints).expect("a tree")
}

/// The number in sheets/largest_long of the net at this place, counted from 1.
const LONG_NUMBER: fn(u32) -> u32 = |place| 4_290_772_991 + 65_536 * place;

/// The sheet of 64 such nets.
fn combs(mark: Mark, kind: Kind, number: fn(u32) -> u32) -> Vec<u8> {
    let mut sheet = Sheet::new(16, 16, kind, 32).with_mark(mark);
    for tile in 0..16 {
        (0..4).for_each(|turns| sheet.push(comb(sheet.chip(), tile, turns, number)));
    }
    sheet.bytes().expect("bytes")
}

/// The longest sheets of each mark, of a published kind and, with 12 bytes more, by the rows of that kind: all get the same answers, at W 9
/// too. Eight nets share a channel. The longest of all with one byte more is refused.
#[test]
fn the_longest_sheets() {
    let rows = Kind::Universal.rows().expect("rows");
    let kinds = [Kind::from(KIND_UNIVERSAL), rows.into()];
    let [published, by_rows] = kinds.map(|kind| combs(Mark::Short, kind, |place| place));
    let [long, longest] = kinds.map(|kind| combs(Mark::Long, kind, LONG_NUMBER));
    assert!(published == bytes("largest"));
    assert_eq!((published.len(), by_rows.len()), (8_588, 8_600));
    assert_eq!((long.len(), longest.len()), (8_716, MAX_SHEET));
    let sheets = [&published, &by_rows, &long, &longest];
    for width in [32, 9] {
        let tickets = sheets.map(|bytes| {
            let bytes = at_width(bytes, width);
            let mut out = [0; MAX_ENTRIES];
            let routed = route(&bytes, &[], 10_000, &mut out).expect("a ticket");
            assert_eq!(routed.ticket.len(), MAX_ENTRIES);
            assert_eq!(check(&bytes, &[], routed.ticket), Ok(()));
            (routed.trials, routed.ticket.to_vec())
        });
        for other in &tickets[1..] {
            assert_eq!(*other, tickets[0]);
        }
    }
    for bytes in sheets {
        let mut out = [0; MAX_ENTRIES];
        let refused =
            route(&at_width(bytes, 7), &[], 0, &mut out).expect_err("a channel of 8 nets");
        assert_eq!(refused.number, number::UNROUTABLE);
        let refused = route(&at_width(bytes, 8), &[], 0, &mut out).expect_err("no trial");
        assert_eq!(refused.number, number::SPENT);
    }
    let longer = [&longest[..], &[0]].concat();
    let refused = read(&longer).expect_err("8,729 bytes");
    assert_eq!(refused.number, number::LENGTH);
    // The limit is that of the length alone: here the length field is wrong.
    let longer = [&by_rows[..], &[0; 128]].concat();
    let refused = read(&longer).expect_err("8,728 bytes");
    assert_eq!(refused.number, number::MARK);
}

/// sheets/largest_long: all numbers have ten digits, the last is the largest of all, and they differ in their high halves alone.
#[test]
fn the_longest_numbers() {
    let rows = Kind::Subset.rows().expect("rows");
    let bytes = bytes("largest_long");
    assert!(bytes == combs(Mark::Long, rows.into(), LONG_NUMBER));
    let sheet = Sheet::read(&bytes).expect("a sheet");
    let numbers = sheet.nets().iter().map(|net| net.number());
    assert_eq!(numbers.clone().next_back(), Some(u32::MAX));
    assert!(numbers.clone().all(|number| number % 65_536 == 65_535));
    assert!(numbers.min() >= Some(1_000_000_000));
}

/// In sheets/largest_long a net has one track in all its channels: the lowest that no net before it holds in one of them. So the trials of a
/// net are one more than its track. 8 tracks are enough, and with fewer a channel is overloaded: no net is taken back, and no other width
/// is tried.
#[test]
fn the_longest_sheet_at_its_least_width() {
    let bytes = bytes("largest_long");
    let sheet = Sheet::read(&bytes).expect("a sheet");
    let (mut held, mut ticket, mut lines) = (BTreeSet::new(), Vec::new(), String::new());
    let mut trials = 0;
    for net in sheet.nets() {
        let free = |track: &u8| {
            net.channels()
                .all(|channel| !held.contains(&(channel, *track)))
        };
        let track = (0..8).find(free).expect("8 tracks are enough");
        held.extend(net.channels().map(|channel| (channel, track)));
        ticket.extend(net.channels().map(|_| track));
        lines += &net.number().to_string();
        let wires = net.channels().map(|channel| format!(" {channel}.{track}"));
        lines.extend(wires);
        lines += "\n";
        trials += 1 + u32::from(track);
    }
    // 8 nets have each of the tracks 0 to 7.
    assert_eq!(trials, 8 * (1 + 2 + 3 + 4 + 5 + 6 + 7 + 8));
    let mut out = [0; MAX_ENTRIES];
    let found = least(&bytes, &[], trials, &mut out).expect("a ticket");
    assert_eq!((found.width, found.trials), (8, trials));
    assert_eq!(found.ticket, ticket);
    assert!(write(&sheet, &ticket).as_ref() == Some(&lines));
    assert!(parse(&sheet, &lines, Missing::Wrong) == Ok(ticket));
    let spent = least(&bytes, &[], trials - 1, &mut out).expect_err("one trial less");
    assert_eq!(spent.number, number::SPENT);
}
