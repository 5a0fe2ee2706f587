//! Boxes on the rim of the chip, which join equal tracks for every kind, beside
//! inner ones. Partners, tickets and trials are by hand.

use crate::expected::{Expected, Text};
use crate::explain::found;
use crate::failure::Failure;
use crate::rows::bytes::with;
use crate::rows::{BENT, KIND};
use crate::run::{ask, Tool};
use crate::text;
use sheets::paper::t_raw;
use sheets::{Design, Grid, Net};

/// T's nets in the inner box (1,1) of a 4 by 4 chip.
pub fn inner_t(kind: u8, width: u8) -> Vec<u8> {
    let nets = vec![
        Net::chain(1, &[3, 4]),
        Net::chain(2, &[4, 17]),
        Net::chain(3, &[3, 17]),
    ];
    let design = Design::new(Grid::new(4, 4), kind, width, nets);
    design.list().bytes()
}

const STRAIGHT: [u8; 6] = [0, 0, 1, 1, 2, 2];

/// Wilton, universal and by rows, each with the first right ticket at W 3 in an
/// inner box. Wilton takes right 1 to top 0 and left 1 to top 2, universal left 2
/// to top 0; by the rows left 0 goes to right 1, right 0 to top 1, left 2 to top 0.
const KINDS: [(&str, [u8; 6]); 3] = [
    ("kind wilton\n", [0, 0, 1, 0, 1, 2]),
    ("kind universal\n", [0, 0, 1, 1, 2, 0]),
    (KIND, [0, 1, 0, 1, 2, 0]),
];

/// The text with this kind and width.
fn typed(text: &str, kind: &str, width: u8) -> String {
    text.replace("kind subset\n", kind)
        .replace("width 2", &format!("width {width}"))
}

pub fn run(tool: &Tool) -> Result<(), Failure> {
    routed(tool)?;
    forms(tool)?;
    explained(tool)?;
    drawn(tool)?;
    every_rim_box(tool)?;
    in_and_out(tool)
}

/// T at W 2 has no ticket with any kind, at W 3 that of subset boxes. In an inner
/// box two tracks are enough for Wilton and universal.
fn routed(tool: &Tool) -> Result<(), Failure> {
    let none = "answer 15 width 0 trials 10\n";
    let three = "answer 0 width 3 trials 6\n1 0.0 1.0\n2 1.1 5.1\n3 0.2 5.2\n";
    for (kind, _) in KINDS {
        let narrow = typed(text::T, kind, 2);
        tool.refused(&ask("route - --budget 10").fed(&narrow), none, 15)?;
        let spent = "answer 16 width 0 trials 9\n";
        tool.refused(&ask("route - --budget 9").fed(&narrow), spent, 16)?;
        let wide = typed(text::T, kind, 3);
        tool.right(&ask("route -").fed(wide), three)?;
        let least = three.replace("trials 6", "trials 16");
        tool.right(&ask("least -").fed(narrow), least)?;
    }
    for (kind, lines) in [
        ("kind wilton\n", "1 3.0 4.0\n2 4.1 17.0\n3 3.1 17.1\n"),
        ("kind universal\n", "1 3.0 4.0\n2 4.1 17.1\n3 3.1 17.0\n"),
    ] {
        let sheet = typed(text::INNER, kind, 2);
        let first = format!("answer 0 width 2 trials 5\n{lines}");
        tool.right(&ask("route - --budget 5").fed(sheet), first)?;
    }
    // m10.
    tool.put("universal", inner_t(2, 2))?;
    let m10 = ask("check universal -").fed([0, 0, 1, 0, 1, 1]);
    tool.refused(&m10, "answer 12\n", 12)
}

/// A chip without inner boxes keeps its rows, and bad ones are refused.
fn forms(tool: &Tool) -> Result<(), Failure> {
    let sheet = with(&t_raw(0, 3).bytes(), BENT);
    let text = typed(text::T, KIND, 3);
    tool.right(&ask("pack -").fed(&text), &sheet)?;
    for verb in ["unpack", "standard"] {
        tool.right(&ask(&format!("{verb} -")).fed(&sheet), &text)?;
    }
    let mut bad = sheet;
    bad[53] = 32;
    let counts = "answer 18 nets 0 entries 0\n";
    tool.refused(&ask("read -").fed(&bad), counts, 18)?;
    tool.expect(&ask("explain -").fed(bad), found(18, &["byte 53: "]))
}

/// Equal tracks are right on the rim and 12 in an inner box; with the tickets of an
/// inner box it is the other way round.
fn explained(tool: &Tool) -> Result<(), Failure> {
    // The first joint whose tracks are no partners: its place, its channels and
    // tracks, and the partner, for equal tracks in the inner box and then for the
    // other ticket on the rim.
    let net_2 = "net 2 (record 1), entry 1 (ticket byte 3)";
    let net_3 = "net 3 (record 2), entry 1 (ticket byte 5)";
    let net_1 = "net 1 (record 0), entry 1 (ticket byte 1)";
    let faults = [
        [(net_2, [17, 1, 4, 1], 0), (net_2, [5, 0, 1, 1], 1)],
        [(net_3, [17, 2, 3, 2], 0), (net_3, [5, 0, 0, 2], 2)],
        [(net_1, [4, 0, 3, 0], 1), (net_1, [1, 1, 0, 0], 0)],
    ];
    for ((kind, turned), [inside, outside]) in KINDS.into_iter().zip(faults) {
        let said = kind.trim_end();
        tool.put("rim", typed(text::T, kind, 3))?;
        tool.put("inner", typed(text::INNER, kind, 3))?;
        for (sheet, ticket) in [("rim", STRAIGHT), ("inner", turned)] {
            let right = ask(&format!("explain {sheet} -")).fed(ticket);
            tool.right(&right, "answer 0\nthe ticket is right\n")?;
            let right = ask(&format!("explain --old {sheet} -")).fed(ticket);
            let none = "answer 0\nthe old ticket is accepted: 0 of 3 nets unplaced\n";
            tool.right(&right, none)?;
        }
        for (sheet, ticket, (place, tracks, partner), square) in [
            ("inner", STRAIGHT, inside, "1 row 1"),
            ("rim", turned, outside, "1 row 0, on the rim: equal tracks"),
        ] {
            let [channel, track, parent, other] = tracks;
            let finding = format!(
                "{place}: channel {channel} has track {track}, and its parent's channel {parent} has \
                 track {other}, whose partner in channel {channel} is {partner} ({said}, W 3, box column \
                 {square})\n"
            );
            for old in ["", "--old"] {
                let asked = ask(&format!("explain {sheet} - {old}")).fed(ticket);
                let rule = "equal tracks in a box with fewer than four channels";
                tool.expect(&asked, found(12, &[&finding, rule]))?;
            }
        }
    }
    Ok(())
}

/// The title says what is wrong by the rule of the box.
fn drawn(tool: &Tool) -> Result<(), Failure> {
    for (kind, turned) in KINDS {
        let said = kind.trim_end();
        for (chip, sheet, ticket, number) in [
            ("3 by 2", text::T, STRAIGHT, 0),
            ("3 by 2", text::T, turned, 12),
            ("4 by 4", text::INNER, turned, 0),
            ("4 by 4", text::INNER, STRAIGHT, 12),
        ] {
            tool.put("sheet", typed(sheet, kind, 3))?;
            let fault = if number == 0 { "" } else { ": 12 switch" };
            let title = format!("<title>chip {chip}, {said}, width 3{fault}</title>");
            let expected = Expected {
                status: i32::from(number != 0),
                stdout: Text::has(&["<svg ", &title, "</svg>\n"]),
                stderr: match number {
                    0 => Text::Is(Vec::new()),
                    _ => Text::line(&["trackrouter: 12 switch: "]),
                },
            };
            tool.expect(&ask("draw sheet -").fed(ticket), expected)?;
        }
    }
    Ok(())
}

/// Every two channels that meet on the rim of a 3 by 3 chip: in its corners, then
/// in the boxes (1,0), (0,1), (2,1) and (1,2).
fn every_rim_box(tool: &Tool) -> Result<(), Failure> {
    let corners = [(0, 6), (1, 8), (4, 9), (5, 11)];
    let edges = [
        [(0, 1), (0, 7), (1, 7)],
        [(2, 9), (2, 6), (6, 9)],
        [(3, 11), (3, 8), (8, 11)],
        [(4, 5), (4, 10), (5, 10)],
    ];
    for (one, other) in corners.into_iter().chain(edges.concat()) {
        for (kind, _) in KINDS {
            let nets = format!("net 9: {other} {one}-{other}\n");
            tool.put("pair", format!("chip 3 by 3\n{kind}width 5\n{nets}"))?;
            for track in [0, 4] {
                let lines = format!("9 {one}.{track} {other}.{track}");
                tool.right(&ask("check pair -").fed(lines), "answer 0\n")?;
                let next = (track + 1) % 5;
                let lines = format!("9 {one}.{track} {other}.{next}");
                let pieces = ["whose partner in channel ", ", on the rim: equal tracks)\n"];
                let asked = ask("explain pair -").fed(lines);
                tool.expect(&asked, found(12, &pieces))?;
            }
        }
    }
    Ok(())
}

/// A net from the rim through three inner boxes and back to the rim, with Wilton
/// boxes at W 3: equal in (1,0), bottom to right 0 to 1 in (1,1), left to top 1 to
/// 2 in (2,1), bottom to top equal in (2,2), equal in (2,3).
fn in_and_out(tool: &Tool) -> Result<(), Failure> {
    let sheet = "chip 4 by 4\nkind wilton\nwidth 3\nnet 1: 0 13-0 4-13 18-4 22-18 10-22\n";
    let routed = "answer 0 width 3 trials 1\n1 0.0 13.0 4.1 18.2 22.2 10.2\n";
    tool.right(&ask("route -").fed(sheet), routed)
}
