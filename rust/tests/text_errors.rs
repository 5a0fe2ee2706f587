//! Texts that say no sheet: line and reason. Large texts and rubbish.
#![cfg(feature = "alloc")]

mod chance;
mod typed;

use chance::Chance;
use trackrouter::sheet::TooLarge;
use trackrouter::text::{parse, write};
use typed::{HEAD, LONG, T as T_TEXT};

#[test]
fn reasons() {
    let unknown = "starts no line: mark, chip, kind, width and net do";
    for (text, error) in [
        ("", "the chip line is missing"),
        (" \n# nothing\n", "the chip line is missing"),
        ("chip 3 by 2\n", "the kind line is missing"),
        ("chip 3 by 2\nkind 0\n", "the width line is missing"),
        (
            "#\n\nkind 0",
            "line 3: the chip line is missing before this kind line",
        ),
        (
            "net 1: 0",
            "line 1: the chip line is missing before this net line",
        ),
        (
            "chip 3 by 2\nwidth 2\nkind 0",
            "line 2: the kind line is missing before this width line",
        ),
        (
            "chip 3 by 2\nkind 0\nnet 1: 0",
            "line 3: the width line is missing before this net line",
        ),
        (
            "chip 3 by 2\nchip 3 by 2",
            "line 2: the chip line stands twice",
        ),
        (
            "chip 3 by 2\nkind 0\nkind 0",
            "line 3: the kind line stands twice",
        ),
        (
            &format!("{HEAD}width 2"),
            "line 4: the width line stands twice",
        ),
        (
            &format!("{HEAD}net 1: 0\nchip 3 by 2"),
            "line 5: the chip line stands twice",
        ),
        ("marks 2\n", &format!("line 1: \"marks\" {unknown}")),
        ("Chip 3 by 2\n", &format!("line 1: \"Chip\" {unknown}")),
        (
            &format!("{HEAD}net: 0"),
            &format!("line 4: \"net:\" {unknown}"),
        ),
        ("chip", "line 1: the number of columns is missing"),
        ("chip 3 # by 2", "line 1: the word \"by\" is missing"),
        ("chip 3 x 2", "line 1: \"x\" stands where \"by\" is due"),
        ("chip 3 by", "line 1: the number of rows is missing"),
        ("chip 3 by 2 2 3", "line 1: \"2\" is one word too many"),
        (
            "chip three by 2",
            "line 1: number of columns \"three\" is no number",
        ),
        (
            "chip +3 by 2",
            "line 1: number of columns \"+3\" is no number",
        ),
        (
            "chip 3 by 1_0",
            "line 1: number of rows \"1_0\" is no number",
        ),
        ("chip 3 by 256", "line 1: number of rows 256 is over 255"),
        ("chip 3 by 2\nkind", "line 2: the kind is missing"),
        (
            "chip 3 by 2\nkind Wilton",
            "line 2: kind \"Wilton\" is not subset, wilton, universal, rows or a number",
        ),
        (
            "chip 3 by 2\nkind 0 0",
            "line 2: \"0\" is one word too many",
        ),
        (
            "chip 3 by 2\nkind 4294967296",
            "line 2: kind 4294967296 is over 255",
        ),
        ("chip 3 by 2\nkind 0\nwidth", "line 3: the width is missing"),
        (
            "chip 3 by 2\nkind 0\nwidth \u{663}",
            "line 3: width \"\u{663}\" is no number",
        ),
        (
            "chip 3 by 2\nkind 0\nwidth 0256",
            "line 3: width 0256 is over 255",
        ),
        (
            "chip 3 by 2\nkind 0\nwidth 2 tracks",
            "line 3: \"tracks\" is one word too many",
        ),
    ] {
        assert_eq!(parse(text).expect_err(text).to_string(), error);
    }
}

#[test]
fn reasons_of_the_mark() {
    let long = "4".repeat(1_000);
    for (line, reason) in [
        ("mark", "the mark is missing"),
        ("mark # 57 49", "the mark is missing"),
        ("mark 57", "mark \"57\" is not 57 48 or 57 49"),
        ("mark 49", "mark \"49\" is not 57 48 or 57 49"),
        ("mark 5749", "mark \"5749\" is not 57 48 or 57 49"),
        ("mark 57 47", "mark \"57 47\" is not 57 48 or 57 49"),
        ("mark 57\t4A", "mark \"57 4A\" is not 57 48 or 57 49"),
        ("mark 49 57", "mark \"49 57\" is not 57 48 or 57 49"),
        ("mark 87 73", "mark \"87 73\" is not 57 48 or 57 49"),
        ("mark 57 049", "mark \"57 049\" is not 57 48 or 57 49"),
        ("mark 0x57 0x49", "mark \"0x57 0x49\" is not 57 48 or 57 49"),
        ("mark 57 49 49", "mark \"57 49 49\" is not 57 48 or 57 49"),
        ("mark 57,49", "mark \"57,49\" is not 57 48 or 57 49"),
        (
            &format!("mark 57 {long}"),
            &format!("mark \"57 {}...\" is not 57 48 or 57 49", &long[..37]),
        ),
    ] {
        let error = parse(&format!("{line}\n{T_TEXT}")).expect_err(line);
        assert_eq!(error.to_string(), format!("line 1: {reason}"));
    }
    for mark in ["mark 57 48\n", LONG] {
        let head = HEAD.trim_end();
        for (text, error) in [
            (mark.to_string(), "the chip line is missing"),
            (
                format!("{mark}{mark}{head}"),
                "line 2: the mark line stands twice",
            ),
            (
                format!("{mark}{head}\n{mark}"),
                "line 5: the mark line stands twice",
            ),
            (
                format!("{mark}kind 0"),
                "line 2: the chip line is missing before this kind line",
            ),
            (
                format!("chip 3 by 2\n{mark}"),
                "line 2: the mark line stands too late",
            ),
            (
                format!("{head}\nnet 1: 0\n{mark}"),
                "line 5: the mark line stands too late",
            ),
        ] {
            assert_eq!(parse(&text).expect_err(&text).to_string(), error);
        }
    }
}

#[test]
fn reasons_of_rows() {
    let neither = "is neither SHIFT+i nor SHIFT-i";
    let long = "9".repeat(1_000);
    for (kind, reason) in [
        ("rows", "the row of left-right is missing"),
        ("3", "the row of left-right is missing"),
        ("rows 0+i", "the row of top-bottom is missing"),
        ("rows 0+i 0+i", "the row of left-top is missing"),
        ("rows 0+i 0+i 0+i", "the row of top-right is missing"),
        ("03 0+i 0+i 0+i 0+i", "the row of right-bottom is missing"),
        (
            "rows 0+i 0+i 0+i 0+i 0+i # 0+i",
            "the row of bottom-left is missing",
        ),
        (
            "rows 0+i 0+i 0+i 0+i 0+i 0+i 0+i",
            "\"0+i\" is one word too many",
        ),
        ("rows 0", &format!("row \"0\" of left-right {neither}")),
        ("rows +0", &format!("row \"+0\" of left-right {neither}")),
        ("rows i", &format!("row \"i\" of left-right {neither}")),
        (
            "rows 0+i -i",
            &format!("row \"-i\" of top-bottom {neither}"),
        ),
        (
            "rows 0+i --i",
            &format!("row \"--i\" of top-bottom {neither}"),
        ),
        (
            "rows 0+i 1+I",
            &format!("row \"1+I\" of top-bottom {neither}"),
        ),
        (
            "rows 0+i i+1",
            &format!("row \"i+1\" of top-bottom {neither}"),
        ),
        (
            "rows 0+i 0 + i",
            &format!("row \"0\" of top-bottom {neither}"),
        ),
        (
            "rows +1+i",
            &format!("row \"+1+i\" of left-right {neither}"),
        ),
        (
            "rows --1+i",
            &format!("row \"--1+i\" of left-right {neither}"),
        ),
        (
            "rows 1+-i",
            &format!("row \"1+-i\" of left-right {neither}"),
        ),
        (
            "rows 1.0+i",
            &format!("row \"1.0+i\" of left-right {neither}"),
        ),
        (
            "rows 0+i 0+i 32+i",
            "the shift 32 of left-top is not -32 to 31",
        ),
        (
            "rows 0+i 0+i 0-i -33-i",
            "the shift -33 of top-right is not -32 to 31",
        ),
        (
            "rows 0+i 0+i 0-i 0+i 224-i",
            "the shift 224 of right-bottom is not -32 to 31",
        ),
        (
            &format!("rows -{long}+i"),
            &format!(
                "the shift -{}... of left-right is not -32 to 31",
                &long[..39]
            ),
        ),
    ] {
        let text = format!("chip 3 by 2\nkind {kind}\nwidth 2\n");
        let error = parse(&text).expect_err(kind);
        assert_eq!(error.to_string(), format!("line 2: {reason}"));
    }
    let zeros = format!("{}31", "0".repeat(100_000));
    let text = format!("chip 3 by 2\nkind rows {zeros}+i -{zeros}-i 0+i 0+i 0+i 0+i\nwidth 2\n");
    let sheet = parse(&text).expect("a sheet");
    assert_eq!(sheet.kind().to_string(), "rows 31+i -31-i 0+i 0+i 0+i 0+i");
}

#[test]
fn reasons_of_a_net() {
    let long = "9".repeat(1_000);
    let no_entry = "is neither CHANNEL nor CHANNEL-PARENT";
    let no_parent = "which is no earlier channel of this net";
    for (line, reason) in [
        ("net", "the net number is missing"),
        ("net : 0", "the net number is missing"),
        ("net x: 0", "net number \"x\" is no number"),
        ("net -1: 0", "net number \"-1\" is no number"),
        (
            "net 4294967296: 0",
            "net number 4294967296 is over 4294967295",
        ),
        ("net 1 0 1-0", "the colon after net 1 is missing"),
        ("net 1 # : 0", "the colon after net 1 is missing"),
        ("net 1 2: 0", "\"2\" is one word too many"),
        ("net 1: 0,1", &format!("net 1: \"0,1\" {no_entry}")),
        ("net 1: 0 1 - 0", &format!("net 1: \"-\" {no_entry}")),
        ("net 1: 0 1-", &format!("net 1: \"1-\" {no_entry}")),
        ("net 1: 0 -1", &format!("net 1: \"-1\" {no_entry}")),
        ("net 1: 0 1-0-0", &format!("net 1: \"1-0-0\" {no_entry}")),
        ("net 1: 0:", &format!("net 1: \"0:\" {no_entry}")),
        ("net 1: 0\r1", &format!("net 1: \"0\\r1\" {no_entry}")),
        (
            "net 1: 0\u{a0}1",
            &format!("net 1: \"0\\u{{a0}}1\" {no_entry}"),
        ),
        ("net 1: 0 65536-0", "net 1: channel 65536 is over 65535"),
        ("net 1: 0 1-65536", "net 1: channel 65536 is over 65535"),
        (
            &format!("net 1: {long}"),
            &format!("net 1: channel {}... is over 65535", &long[..40]),
        ),
        (
            "net 2: 1 5-7",
            &format!("net 2: channel 5 is joined to 7, {no_parent}"),
        ),
        (
            "net 2: 5-5",
            &format!("net 2: channel 5 is joined to 5, {no_parent}"),
        ),
        (
            "net 2: 1 5-05 05",
            &format!("net 2: channel 5 is joined to 5, {no_parent}"),
        ),
    ] {
        let error = parse(&format!("{HEAD}{line}")).expect_err(line);
        assert_eq!(error.to_string(), format!("line 4: {reason}"));
        let error = parse(&format!("{LONG}{HEAD}{line}")).expect_err(line);
        assert_eq!(error.to_string(), format!("line 5: {reason}"));
    }
    // Only the long mark has room.
    for number in ["65536", "65537", "0004294967295"] {
        let line = format!("net {number}: 0");
        let shown = number.trim_start_matches('0');
        let why = "is over 65535, the largest with mark 57 48; with mark 57 49 it fits";
        for (mark, at) in [("", 4), ("mark 57 48\n", 5)] {
            let error = parse(&format!("{mark}{HEAD}{line}")).expect_err(&line);
            assert_eq!(
                error.to_string(),
                format!("line {at}: net number {shown} {why}")
            );
        }
        let sheet = parse(&format!("{LONG}{HEAD}{line}")).expect("a sheet");
        assert_eq!(sheet.nets()[0].number().to_string(), shown);
    }
}

#[test]
fn large_texts() {
    let entries = |count| HEAD.to_string() + "net 1:" + &" 0".repeat(count);
    let most = parse(&entries(65_535)).expect("as many as a record can count");
    assert_eq!(most.bytes(), Err(TooLarge::Sheet(262_158)));
    let most = parse(&format!("{LONG}{}", entries(65_535))).expect("of the long mark too");
    assert_eq!(most.bytes(), Err(TooLarge::Sheet(262_160)));
    let over = parse(&entries(65_536)).expect_err("one more");
    assert_eq!(over.to_string(), "line 4: net 1: more than 65535 entries");

    let nets = HEAD.to_string() + &"net 1:\n".repeat(400_000);
    assert_eq!(parse(&nets).expect("nets").nets().len(), 400_000);
    let chain: String = (1..65_535).map(|c| format!(" {c}-{}", c - 1)).collect();
    let chain = parse(&format!("{HEAD}net 1: 0{chain}")).expect("a chain");
    assert_eq!(chain.entry_count(), 65_535);
    let zeros = format!("{HEAD}net {}1: 0", "0".repeat(3_000_000));
    assert_eq!(parse(&zeros).expect("a net").nets()[0].number(), 1);
    let word = parse(&"x".repeat(3_000_000)).expect_err("a word");
    assert!(word.reason.len() < 200);
}

/// Rubbish gives an error of one line, or a sheet that comes back from its text.
#[test]
fn rubbish() {
    let rows = T_TEXT.replace("subset", "rows 1+i 3-i 2-i -1+i -32-i 31+i");
    let long = format!("{LONG}{T_TEXT}").replace("net 3:", "net 4294967293:");
    for text in [T_TEXT, &rows, &long] {
        let mut parsed = 0;
        for text in chance::rubbish(&mut Chance(2), text) {
            match parse(&text) {
                Ok(sheet) => {
                    assert_eq!(parse(&write(&sheet)), Ok(sheet));
                    parsed += 1;
                }
                Err(error) => assert!(!error.to_string().contains(['\n', '\r'])),
            }
        }
        assert!((100..20_000).contains(&parsed), "{parsed}");
    }
}
