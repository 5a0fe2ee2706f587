//! Lists of dead wires: their bytes, and their text in any layout and back.
#![cfg(feature = "alloc")]

mod chance;

use chance::Chance;
use trackrouter::chip::Wire;
use trackrouter::dead::{bytes, line_of, parse, read, write};

fn wires(list: &[(u16, u8)]) -> Vec<Wire> {
    let wire = |&(channel, track): &(u16, u8)| Wire { channel, track };
    list.iter().map(wire).collect()
}

#[test]
fn three_bytes_for_each() {
    let list = wires(&[(5, 1), (479, 31), (0, 0), (0x1234, 255)]);
    let said = [5, 0, 1, 0xDF, 1, 31, 0, 0, 0, 0x34, 0x12, 255];
    assert_eq!(bytes(&list), said);
    assert_eq!(read(&said), Some(list));
    assert_eq!(bytes(&[]), []);
    assert_eq!(read(&[]), Some(vec![]));
    for length in 0..=said.len() {
        let whole = read(&said[..length]).map(|list| list.len());
        assert_eq!(whole, (length % 3 == 0).then_some(length / 3));
    }
}

#[test]
fn the_one_layout() {
    let list = wires(&[(5, 1), (0, 2), (5, 0)]);
    assert_eq!(write(&list), "5.1\n0.2\n5.0\n");
    assert_eq!(write(&[]), "");
    assert_eq!(list[0].to_string(), "5.1");
}

/// Comments, blank lines, several wires in a line, and what the library refuses: a wire twice, an unknown channel, a track over 31.
#[test]
fn any_layout() {
    let text = "\u{feff}# a board\r\n\r\n\t5.1 # cracked\r\n 0.2\t05.000   5.1\n65535.255#";
    let list = wires(&[(5, 1), (0, 2), (5, 0), (5, 1), (65_535, 255)]);
    assert_eq!(parse(text), Ok(list));
    for none in ["", "\n", "# none\n", "\u{feff}"] {
        assert_eq!(parse(none), Ok(vec![]), "{none:?}");
    }
}

#[test]
fn line_numbers() {
    let text = "\u{feff}5.1 0.2 # two\r\n\n#6.6\n\t5.0\n1.1 1.2 1.3";
    let found: Vec<_> = (0..7).map(|item| line_of(text, item)).collect();
    let lines = [1, 1, 4, 5, 5, 5].map(Some);
    assert_eq!(found, [&lines[..], &[None]].concat());
    assert_eq!(line_of("", 0), None);
}

#[test]
fn reasons() {
    for (text, error) in [
        ("5", "line 1: \"5\" is no CHANNEL.TRACK"),
        ("5.", "line 1: \"5.\" is no CHANNEL.TRACK"),
        (".1", "line 1: \".1\" is no CHANNEL.TRACK"),
        ("5.1.1", "line 1: \"5.1.1\" is no CHANNEL.TRACK"),
        ("5.-1", "line 1: \"5.-1\" is no CHANNEL.TRACK"),
        ("0.0\n\n0.1 5,1", "line 3: \"5,1\" is no CHANNEL.TRACK"),
        ("# board\n5.1 dead", "line 2: \"dead\" is no CHANNEL.TRACK"),
        ("65536.0", "line 1: channel 65536 is over 65535"),
        ("0.0 0.256", "line 1: track 256 is over 255"),
        // A ticket in lines is no list.
        ("1 0.0 1.0", "line 1: \"1\" is no CHANNEL.TRACK"),
        ("answer 0", "line 1: \"answer\" is no CHANNEL.TRACK"),
    ] {
        let found = parse(text).expect_err(text);
        assert_eq!(found.to_string(), error);
    }
}

/// Any wires come back from their text and from their bytes, in their order and with those that stand twice.
#[test]
fn chance_lists_both_ways() {
    let mut chance = Chance(11);
    for _ in 0..200 {
        let wire = |_| Wire {
            channel: chance.below(65_536) as u16,
            track: chance.below(256) as u8,
        };
        let mut list: Vec<Wire> = (0..20).map(wire).collect();
        list.extend_from_within(..chance.below(20));
        chance.shuffle(&mut list);
        assert_eq!(parse(&write(&list)).as_ref(), Ok(&list));
        assert_eq!(parse(&write(&list).replace('\n', " ")).as_ref(), Ok(&list));
        assert_eq!(read(&bytes(&list)), Some(list));
    }
}

/// Rubbish gives an error of one line that names it, or a list that comes back from its text.
#[test]
fn rubbish() {
    let mut parsed = 0;
    for text in chance::rubbish(&mut Chance(12), "# dead\n5.1 0.2\n5.0\n479.31\n") {
        match parse(&text) {
            Ok(list) => {
                assert_eq!(parse(&write(&list)), Ok(list));
                parsed += 1;
            }
            Err(error) => {
                let error = error.to_string();
                assert!(error.starts_with("line ") && !error.contains(['\n', '\r']));
            }
        }
    }
    assert!((100..20_000).contains(&parsed), "{parsed}");
}
