//! Corner, rim and inner boxes (02 M-104): what the program prints for sheets whose
//! least width, trials and tracks are by hand.

use model::sheet::parse;
use sheets::paper::{t_inside_raw, t_raw, T_LINES};
use sheets::{rim, Ask, Case, Told};

/// Names, sheets and what is printed.
pub fn inputs() -> Vec<(String, Vec<u8>, String)> {
    let mut list = Vec::new();
    let mut put = |name: &str, sheet: Vec<u8>, lines: &str| {
        list.push((name.to_string(), sheet, lines.to_string()));
    };
    // All boxes of T's chip are on the rim: every kind prints the same.
    for kind in 0..3 {
        put(&format!("T, kind {kind}"), t_raw(kind, 2).bytes(), T_LINES);
    }
    // m4 and m5 inside: at width 1 channels have two nets, at width 2 nets 2 and 3
    // find a track held and take the other one.
    for (kind, tracks) in [
        (1, "1 3.0 4.0\n2 4.1 17.0\n3 3.1 17.1\n"),
        (2, "1 3.0 4.0\n2 4.1 17.1\n3 3.1 17.0\n"),
    ] {
        let lines = format!("answer 0 width 2 trials 5\n{tracks}");
        let name = format!("T inside, kind {kind}");
        put(&name, t_inside_raw(kind, 3).bytes(), &lines);
    }
    let cases = [rim::calls(), rim::no_inner()].concat();
    for case in &cases {
        if let Some(lines) = printed(case) {
            put(&case.name, case.sheet.clone(), &lines);
        }
    }
    let refused = "answer 18 width 0 trials 0\n";
    for fault in rim::faults() {
        put(&fault.name, fault.sheet, refused);
    }
    list
}

/// The lines of a case that is asked through Least and found a width.
pub fn printed(case: &Case) -> Option<String> {
    let (Ask::Least { .. }, Told::Answer { answer, written }) = (&case.ask, &case.told) else {
        return None;
    };
    if answer.number != 0 {
        return None;
    }
    let mut lines = format!("answer 0 width {} trials {}\n", answer.width, answer.trials);
    let mut tracks = written.iter();
    for net in parse(&case.sheet).expect("a good sheet").nets {
        let wires = net.channels.iter().zip(&mut tracks);
        let wires: String = wires.map(|(c, track)| format!(" {c}.{track}")).collect();
        lines += &format!("{}{wires}\n", net.number);
    }
    Some(lines)
}

#[cfg(test)]
mod tests {
    use super::inputs;

    /// Kinds 0 to 3 print a ticket for some sheet, and kind 3 is refused for some.
    #[test]
    fn every_kind() {
        let inputs = inputs();
        let is = |sheet: &[u8], kind: u8| sheet[sheet.len() - 10] == kind;
        for kind in 0..4 {
            let mut found = inputs.iter().filter(|(_, sheet, _)| is(sheet, kind));
            assert!(found.any(|(_, _, lines)| lines.starts_with("answer 0")));
        }
        let refused = inputs
            .iter()
            .filter(|input| input.2.starts_with("answer 18"));
        assert!(refused.count() > 50);
    }

    #[test]
    fn lines_by_hand() {
        let through = |input: &&(String, Vec<u8>, String)| input.0 == "through, kind 2, least";
        let inputs = inputs();
        let found = inputs.iter().find(through).expect("a case");
        let lines = "answer 0 width 2 trials 3\n1 0.0\n2 0.1 6.1 2.1 10.0 4.0\n";
        assert_eq!(found.2, lines);
    }
}
