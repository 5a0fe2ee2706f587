//! Tickets as lines: as the least-width program prints them, and back in any order.
#![cfg(feature = "alloc")]

mod chance;

use chance::Chance;
use trackrouter::lines::{line_of, parse, write, write_placed, Missing};
use trackrouter::sheet::Sheet;
use trackrouter::{check, least, route, text, MAX_ENTRIES, UNPLACED};

const T: &str = "chip 3 by 2\nkind subset\nwidth 3\nnet 1: 0 1-0\nnet 2: 1 5-1\nnet 3: 0 5-0\n";

/// What the paper has the least-width program print for T.
const PRINTED: &str = "answer 0 width 3 trials 16
1 0.0 1.0
2 1.1 5.1
3 0.2 5.2
";

fn sheet(text: &str) -> Sheet {
    text::parse(text).expect("a sheet")
}

#[test]
fn as_the_paper_prints_them() {
    let sheet = sheet(T);
    let (_, lines) = PRINTED.split_once('\n').expect("lines");
    let mut out = [0; MAX_ENTRIES];
    let found = least(&sheet.bytes().expect("bytes"), &[], 16, &mut out).expect("a ticket");
    assert_eq!(write(&sheet, found.ticket).as_deref(), Some(lines));
    for text in [PRINTED, lines] {
        assert_eq!(
            parse(&sheet, text, Missing::Wrong).as_deref(),
            Ok(&[0, 0, 1, 1, 2, 2][..])
        );
    }
}

/// Numbers of ten digits, and two that are equal in their low halves: by hand, from T's lines.
#[test]
fn long_numbers() {
    let text = T.replace("net 1:", "net 65538:");
    let text = text.replace("net 3:", "net 4294967295:");
    let sheet = sheet(&format!("mark 57 49\n{text}"));
    let lines = "65538 0.0 1.0\n2 1.1 5.1\n4294967295 0.2 5.2\n";
    let ticket = [0, 0, 1, 1, 2, 2];
    assert_eq!(write(&sheet, &ticket).as_deref(), Some(lines));
    let mixed = "04294967295 5.2 0.2\n65538 0.0 1.0\n2 1.1 5.1";
    for text in [lines, mixed] {
        let parsed = parse(&sheet, text, Missing::Wrong);
        assert_eq!(parsed.as_deref(), Ok(&ticket[..]));
    }
    assert_eq!(line_of(mixed, 4_294_967_295), Some(1));
    assert_eq!(line_of(mixed, 2), Some(3));
    for (text, error) in [
        (
            "4294967294 0.2 5.2",
            "line 1: the sheet has no net 4294967294",
        ),
        ("65535 0.2 5.2", "line 1: the sheet has no net 65535"),
        (
            "65538 unplaced\n65538 unplaced",
            "line 2: net 65538 stands twice",
        ),
        ("2 unplaced\n65538 unplaced", "net 4294967295 has no line"),
    ] {
        let found = parse(&sheet, text, Missing::Wrong).expect_err(text);
        assert_eq!(found.to_string(), error);
    }
}

/// T in an inner box of a 4 by 4 chip: universal takes left 1 to top 0, Wilton right 1 to top 0.
#[test]
fn tickets_of_turning_boxes() {
    for (kind, lines) in [
        ("universal", "1 3.0 4.0\n2 4.1 17.1\n3 3.1 17.0\n"),
        ("wilton", "1 3.0 4.0\n2 4.1 17.0\n3 3.1 17.1\n"),
    ] {
        let nets = "net 1: 3 4-3\nnet 2: 4 17-4\nnet 3: 3 17-3\n";
        let sheet = sheet(&format!("chip 4 by 4\nkind {kind}\nwidth 2\n{nets}"));
        let bytes = sheet.bytes().expect("bytes");
        let ticket = parse(&sheet, lines, Missing::Wrong).expect("a ticket");
        assert_eq!(check(&bytes, &[], &ticket), Ok(()));
        let mut out = [0; 6];
        assert_eq!(
            route(&bytes, &[], 5, &mut out).expect("a ticket").ticket,
            ticket
        );
        assert_eq!(write(&sheet, &ticket).as_deref(), Some(lines));
    }
}

/// m7's old ticket.
#[test]
fn an_old_ticket() {
    let sheet = sheet("chip 3 by 2\nkind subset\nwidth 2\nnet 1: 0\nnet 2: 1\nnet 3: 0 1-0\n");
    let lines = "1 0.0\n2 1.1\n3 unplaced\n";
    let old = parse(&sheet, lines, Missing::Wrong).expect("a ticket");
    assert_eq!(old, [0, 1, UNPLACED, UNPLACED]);
    assert_eq!(write(&sheet, &old).as_deref(), Some(lines));
    let unsaid = parse(&sheet, "2 1.1\n1 0.0", Missing::Unplaced);
    assert_eq!(unsaid.as_ref(), Ok(&old));
    assert_eq!(
        write_placed(&sheet, &old).as_deref(),
        Some("1 0.0\n2 1.1\n")
    );
    assert_eq!(write_placed(&sheet, &[UNPLACED; 4]).as_deref(), Some(""));
    let half = write_placed(&sheet, &[UNPLACED, 1, UNPLACED, 0]);
    assert_eq!(half.as_deref(), Some("2 1.1\n3 0.255 1.0\n"));
}

#[test]
fn any_layout() {
    let text = "# a ticket\r\n\r\n\tanswer 0 # done\r\n003 5.02\t0.255 # the last net first\r\n\n2  unplaced\n 1 1.7 0.6";
    let ticket = parse(&sheet(T), text, Missing::Wrong);
    assert_eq!(ticket, Ok(vec![6, 7, UNPLACED, UNPLACED, 255, 2]));
    assert_eq!(
        parse(&sheet(T), "", Missing::Unplaced),
        Ok(vec![UNPLACED; 6])
    );
}

#[test]
fn line_numbers() {
    let text = "\u{feff}003 5.02\t0.255 # 1 first\r\n\n#2 unplaced\n\t2 unplaced\n1 1.7 0.6";
    assert!(parse(&sheet(T), text, Missing::Wrong).is_ok());
    let found = [1, 2, 3, 0].map(|net| line_of(text, net));
    assert_eq!(found, [Some(5), Some(4), Some(1), None]);
    let printed = [0, 1, 3, 16].map(|net| line_of(PRINTED, net));
    assert_eq!(printed, [None, Some(2), Some(4), None]);
    assert_eq!(line_of("", 1), None);
}

#[test]
fn length_of_a_ticket() {
    let sheet = sheet(T);
    assert_eq!(write(&sheet, &[0; 5]), None);
    assert_eq!(write(&sheet, &[0; 7]), None);
    assert_eq!(write_placed(&sheet, &[0; 5]), None);
    let none = Sheet::new(3, 2, 0, 2);
    assert_eq!(write(&none, &[]).as_deref(), Some(""));
    assert_eq!(parse(&none, "", Missing::Wrong), Ok(vec![]));
}

#[test]
fn reasons() {
    for (text, error) in [
        ("", "net 1 has no line"),
        ("answer 0", "net 1 has no line"),
        ("3 0.0 5.0\n1 0.0 1.0\n", "net 2 has no line"),
        ("answer", "line 1: the answer is missing"),
        ("answer ok", "line 1: answer \"ok\" is no number"),
        (
            "\nanswer 15 width 0 trials 10",
            "line 2: answer 15 (unroutable) has no ticket",
        ),
        ("answer 17", "line 1: answer 17 (stranger) has no ticket"),
        ("answer 99", "line 1: answer 99 has no ticket"),
        (
            "answer 0\nanswer 0",
            "line 2: net number \"answer\" is no number",
        ),
        (
            "1 0.0 1.0\nanswer 0",
            "line 2: net number \"answer\" is no number",
        ),
        ("net 1: 0.0", "line 1: net number \"net\" is no number"),
        ("-1 0.0", "line 1: net number \"-1\" is no number"),
        (
            "4294967296 0.0",
            "line 1: net number 4294967296 is over 4294967295",
        ),
        ("4 0.0", "line 1: the sheet has no net 4"),
        ("65537 0.0", "line 1: the sheet has no net 65537"),
        (
            "1 0.0 1.0\n# again\n1 unplaced",
            "line 3: net 1 stands twice",
        ),
        ("1 0.0 5.0", "line 1: net 1: the net has no channel 5"),
        (
            "1 0.0 65537.0",
            "line 1: net 1: channel 65537 is over 65535",
        ),
        ("1 0.0 1.0 0.0", "line 1: net 1: channel 0 stands twice"),
        ("1 1.0", "line 1: net 1: channel 0 is missing"),
        ("1", "line 1: net 1: channel 0 is missing"),
        ("1 0.0 1.256", "line 1: net 1: track 256 is over 255"),
        ("1 0", "line 1: net 1: \"0\" is no CHANNEL.TRACK"),
        ("1 0.0.0", "line 1: net 1: \"0.0.0\" is no CHANNEL.TRACK"),
        ("1 .0", "line 1: net 1: \".0\" is no CHANNEL.TRACK"),
        ("1 0.+1", "line 1: net 1: \"0.+1\" is no CHANNEL.TRACK"),
        (
            "1 0.0 unplaced",
            "line 1: net 1: \"unplaced\" is no CHANNEL.TRACK",
        ),
        (
            "1 unplaced 0.0",
            "line 1: net 1: \"0.0\" is one word too many",
        ),
    ] {
        let found = parse(&sheet(T), text, Missing::Wrong).expect_err(text);
        assert_eq!(found.to_string(), error);
    }
    let twins = sheet("chip 3 by 2\nkind 0\nwidth 3\nnet 4: 0\nnet 4: 1");
    let found = parse(&twins, "4 0.0", Missing::Unplaced).expect_err("two nets");
    assert_eq!(found.to_string(), "two nets of the sheet have the number 4");
}

/// The lines of any ticket come back, also with lines and channels in another order.
#[test]
fn chance_tickets_both_ways() {
    let mut chance = Chance(3);
    for _ in 0..200 {
        let sheet = chance::sheet(&mut chance);
        let mut ticket = vec![UNPLACED; sheet.entry_count()];
        for (_, part) in sheet.parts() {
            if chance.below(4) != 0 {
                ticket[part].fill_with(|| chance.below(256) as u8);
            }
        }
        let text = write(&sheet, &ticket).expect("lines");
        assert_eq!(parse(&sheet, &text, Missing::Wrong).as_ref(), Ok(&ticket));
        let placed = write_placed(&sheet, &ticket).expect("lines");
        let again = parse(&sheet, &placed, Missing::Unplaced);
        assert_eq!(again.as_ref(), Ok(&ticket));
        let mut mixed: Vec<String> = Vec::new();
        for line in text.lines() {
            assert_eq!(line.trim_end(), line);
            let mut words: Vec<&str> = line.split(' ').collect();
            chance.shuffle(&mut words[1..]);
            mixed.push(words.join(" "));
        }
        chance.shuffle(&mut mixed);
        let mixed = mixed.join("\n");
        assert_eq!(parse(&sheet, &mixed, Missing::Wrong), Ok(ticket));
    }
}

/// Rubbish gives an error of one line, or a ticket that comes back from its lines.
#[test]
fn rubbish() {
    let sheet = sheet(T);
    let mut parsed = 0;
    for text in chance::rubbish(&mut Chance(4), PRINTED) {
        match parse(&sheet, &text, Missing::Wrong) {
            Ok(ticket) => {
                let lines = write(&sheet, &ticket).expect("lines");
                assert_eq!(parse(&sheet, &lines, Missing::Wrong), Ok(ticket));
                parsed += 1;
            }
            Err(error) => assert!(!error.to_string().contains(['\n', '\r'])),
        }
    }
    assert!((100..20_000).contains(&parsed), "{parsed}");
}
