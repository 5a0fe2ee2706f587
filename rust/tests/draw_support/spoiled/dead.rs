//! Dead wires that are not drawn, drawn elsewhere or twice, and their key.

use super::{attribute, broken, moved, t, value, Case};

/// The line of a class on 5.1, an upright wire, and on 0.1, a level one.
fn lines(case: &Case, class: &str) -> [String; 2] {
    ["data-channel=\"5\"", "data-channel=\"0\""]
        .map(|channel| case.line(class, &[channel, "data-track=\"1\""]))
}

#[test]
fn not_each_once() {
    let case = broken();
    for class in ["dead", "cross"] {
        for line in lines(&case, class) {
            case.refused(&line, "", &format!("not each dead wire has its {class}"));
            case.refused(&line, &line.repeat(2), "twice");
            let other = "data-track=\"2\"";
            case.line_refused(&line, "data-track=\"1\"", other, "which is whole");
        }
    }
    // The picture of T without dead wires, and the other way round.
    let (with, without) = (broken(), t());
    let title = |case: &Case, text: &str| {
        let right = case.text.lines().nth(1).expect("a title").to_string();
        let wrong = text.lines().nth(1).expect("a title").to_string();
        let words = |line: &str| line.replace("<title>", "").replace("</title>", "");
        text.replace(&words(&wrong), &words(&right))
    };
    let bare = without.text.replace(", width 3", ", width 3: 21 broken");
    with.text_refused(&bare, "not each dead wire has its dead");
    without.text_refused(&title(&without, &with.text), "which is whole");
}

/// Every coordinate of stripes and crosses, moved by one.
#[test]
fn out_of_place() {
    let case = broken();
    let mut tried = 0;
    for class in ["dead", "cross"] {
        for line in lines(&case, class) {
            for (_, spoiled) in moved(&line, 1) {
                case.refused(&line, &spoiled, "");
                tried += 1;
            }
        }
    }
    // Four for a stripe; two for each end of four strokes.
    assert_eq!(tried, 2 * 4 + 2 * 16);
}

#[test]
fn wide_or_hidden() {
    let case = broken();
    let [upright, level] = lines(&case, "dead");
    for (line, start, length) in [(&upright, "x", "width"), (&level, "y", "height")] {
        let number = |name| value(line, name).parse::<i64>().expect("a number");
        let [at, wide] = [start, length].map(|name| attribute(line, name).expect(name));
        let wider = line
            .replace(
                &format!(" {at}"),
                &format!(" {start}=\"{}\"", number(start) - 20),
            )
            .replace(
                &format!(" {wide}"),
                &format!(" {length}=\"{}\"", number(length) + 40),
            );
        case.refused(line, &wider, "covers 3 tracks");
    }
    // A stripe over the wires, and a cross under them.
    let late = case.text.replace(&upright, "");
    let late = late.replace("</svg>", &format!("{upright}</svg>"));
    case.text_refused(&late, "dead is drawn too late");
    let [cross, _] = lines(&case, "cross");
    let early = case.text.replace(&cross, "");
    let wire = case.line("wire", &["data-net=\"1\"", "data-channel=\"0\""]);
    let early = early.replace(&wire, &format!("{cross}{wire}"));
    case.text_refused(&early, "wire is drawn too late");
    case.refused("#f4c7c3", "#f4c7c4", "the colour of");
    case.line_refused(
        &cross,
        "class",
        "stroke=\"#1c2431\" class",
        "the colour of the crosses",
    );
}

#[test]
fn a_wrong_key() {
    let case = broken();
    let key = case.line("dead-key", &[]);
    case.refused(&key, "", "is not there once");
    case.line_refused(&key, "dead wire", "dead net", "the key says");
    let y = attribute(&key, "y").expect("y");
    case.line_refused(&key, &y, "y=\"300\"", "not beside its stripe");
    let stripe = case.line("dead-swatch", &["fill=\"#f4c7c3\""]);
    case.line_refused(&stripe, "#f4c7c3", "#f4c7c4", "other colours");
    case.refused(&stripe, "", "is not there once");
    // In the legend of a picture without dead wires, below its last key.
    let last = t().line("key", &["data-net=\"3\""]);
    t().refused(&last, &format!("{last}{key}"), "a key of no dead wire");
}
