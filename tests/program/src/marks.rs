//! The second mark (02 M-106): what the program prints for long net numbers, by hand or
//! as for the sheet of the first mark whose numbers were spread, and where its input
//! ends.

use crate::rows::two_halves;
use sheets::marks::{t, threes};
use sheets::paper::{t_raw, T_LINES, T_LONG};
use sheets::{rim, Case, Mark, Raw, Spread};

const TOO_LONG: &str = "answer 1 width 0 trials 0\n";

/// Names, sheets and what is printed.
pub fn inputs() -> Vec<(String, Vec<u8>, String)> {
    let mut list = Vec::new();
    let mut put = |name: &str, sheet: Vec<u8>, lines: &str| {
        list.push((name.to_string(), sheet, lines.to_string()));
    };
    put("T, second mark", T_LONG.to_vec(), T_LINES);
    for kind in 0..3 {
        let raw = t_raw(kind, 2).marked(Mark::Long);
        put("T, second mark, a kind", raw.bytes(), T_LINES);
        put("T, second mark, by rows", raw.by_rows().bytes(), T_LINES);
    }
    // Any two nets of T share a channel: m6's trials in every order, and the track is
    // the rank.
    for numbers in threes().into_iter().step_by(4) {
        put(
            "T with long numbers",
            t(2, numbers).bytes(),
            &ranked(numbers),
        );
    }
    // A refusal prints the first line only, whatever the numbers.
    for (number, numbers) in [(9, [65_537, 1, 65_537]), (0, [65_537, 1, 131_073])] {
        let lines = match number {
            0 => ranked(numbers),
            _ => format!("answer {number} width 0 trials 0\n"),
        };
        put("low halves alike", t(2, numbers).bytes(), &lines);
    }
    for case in rim::calls() {
        for spread in Spread::FAR {
            if let Some((sheet, lines)) = spread_out(&case, spread) {
                put(&format!("{}, {spread:?}", case.name), sheet, &lines);
            }
        }
    }
    list.extend(longest());
    list.extend(lengths());
    list
}

/// The lines of T with these numbers.
fn ranked([a, b, c]: [u32; 3]) -> String {
    let rank = |n: u32| [a, b, c].iter().filter(|m| **m < n).count();
    let [x, y, z] = [a, b, c].map(rank);
    format!("answer 0 width 3 trials 16\n{a} 0.{x} 1.{x}\n{b} 1.{y} 5.{y}\n{c} 0.{z} 5.{z}\n")
}

/// The lines with the numbers at their start spread; the first line has none.
fn lines_spread(lines: &str, spread: Spread) -> String {
    let mut all = lines.lines();
    let first = all.next().expect("a first line");
    let mut out = format!("{first}\n");
    for line in all {
        let (number, tracks) = line.split_once(' ').expect("a number and tracks");
        let number = spread.long(number.parse().expect("a number"));
        out += &format!("{number} {tracks}\n");
    }
    out
}

/// A case by hand that found a least width, under the second mark.
fn spread_out(case: &Case, spread: Spread) -> Option<(Vec<u8>, String)> {
    let lines = crate::rim::printed(case)?;
    let long = case.long(spread)?.sheet;
    Some((long, lines_spread(&lines, spread)))
}

/// The largest sheet of the second mark, 64 nets of 32 entries of kind 3, routed; a byte
/// more, or many, is too long, though what stands before or behind them is a sheet.
fn longest() -> Vec<(String, Vec<u8>, String)> {
    let short = two_halves();
    let lines = model::lines::least_lines(&short.list().bytes());
    assert!(lines.starts_with("answer 0 width 32 trials 1056\n"));
    let mut list = Vec::new();
    for spread in Spread::FAR {
        let design = short.clone().by_rows().spread(spread);
        let sheet = design.list().bytes();
        assert_eq!(sheet.len(), 8728);
        for more in [1, 2, 128, 8728, 60_000, 200_000] {
            let behind = [&sheet[..], &vec![0; more]].concat();
            list.push((format!("{more} bytes behind"), behind, TOO_LONG.into()));
            let before = [&vec![0; more], &sheet[..]].concat();
            list.push((format!("{more} bytes before"), before, TOO_LONG.into()));
        }
        let twice = sheet.repeat(2);
        list.push(("the longest twice".into(), twice, TOO_LONG.into()));
        let lines = lines_spread(&lines, spread);
        list.push((format!("the longest, {spread:?}"), sheet, lines));
    }
    list
}

/// Sheets under both marks that end from the old limit to a byte over the new one: mark
/// and length field are right, and bytes stand between records and directory.
fn lengths() -> Vec<(String, Vec<u8>, String)> {
    let mut list = Vec::new();
    for mark in Mark::BOTH {
        for length in 8600..=8729 {
            let mut raw = Raw::new(2, 2, 0, 1, Vec::new()).marked(mark);
            raw.gap = vec![7; length - 12];
            raw.settle();
            let number = if length == 8729 { 1 } else { 5 };
            let lines = format!("answer {number} width 0 trials 0\n");
            let name = format!("{length} bytes{}", mark.tag());
            list.push((name, raw.bytes(), lines));
        }
    }
    list
}

#[cfg(test)]
mod tests {
    use super::{inputs, lines_spread, ranked};
    use model::near_marks::{lines, PRINTS};
    use sheets::Spread;

    #[test]
    fn lines_by_hand() {
        let told = "answer 0 width 3 trials 16\n\
                    4294967295 0.2 1.2\n0 1.0 5.0\n65536 0.1 5.1\n";
        assert_eq!(ranked([4_294_967_295, 0, 65_536]), told);
        let spread = lines_spread("answer 0 width 1 trials 1\n3 0.0\n", Spread::Low);
        assert_eq!(spread, "answer 0 width 1 trials 1\n4294901763 0.0\n");
    }

    /// The expected lines are those of the model, and tell every wrong way to print.
    #[test]
    fn wrong_prints_are_told() {
        let inputs = inputs();
        for (name, sheet, told) in &inputs {
            assert_eq!(model::lines::least_lines(sheet), *told, "{name}");
        }
        for (name, print) in PRINTS {
            let differs = inputs
                .iter()
                .filter(|input| lines(&input.2, print) != input.2);
            let count = differs.count();
            assert!(count > 20, "{name}: {count}");
        }
    }

    /// Every one of the numbers at the ends is printed, and ten digits.
    #[test]
    fn ends_are_printed() {
        let inputs = inputs();
        for number in ["0", "65535", "65536", "4294967295"] {
            let line = format!("\n{number} ");
            let printed = inputs.iter().filter(|input| input.2.contains(&line));
            assert!(printed.count() > 10, "{number}");
        }
    }
}
