//! Every coordinate of the picture of T.

use super::{moved, t, value};

/// The lines that are shapes.
fn shapes(text: &str) -> impl Iterator<Item = &str> {
    let is_shape = |line: &&str| line.contains(" class=\"") && !line.starts_with("<g");
    text.lines().filter(is_shape)
}

#[test]
fn outside() {
    let case = t();
    let mut tried = 0;
    for line in shapes(&case.text) {
        for (_, spoiled) in moved(line, 5000) {
            case.refused(line, &spoiled, "outside the view box");
            tried += 1;
        }
    }
    assert!(tried > 250, "{tried}");
    let page = case.text.lines().next().expect("a first line");
    let narrow = page.replace(&value(page, "width"), "600");
    case.refused(page, &narrow, "outside the view box");
}

#[test]
fn hidden_or_strange() {
    let case = t();
    let square = case.line("box", &["data-column=\"1\"", "data-row=\"0\""]);
    let late = case.text.replace(&square, "");
    let late = late.replace("</svg>", &format!("{square}</svg>"));
    case.text_refused(&late, "box is drawn too late");
    let plate = shapes(&case.text).find(|line| value(line, "class") == "plate");
    let plate = plate.expect("a plate");
    let early = case.text.replace(plate, "");
    let wire = case.line("wire", &["data-net=\"1\"", "data-channel=\"0\""]);
    let early = early.replace(&wire, &format!("{plate}{wire}"));
    case.text_refused(&early, "wire is drawn too late");
    let strange = square.replace("class=\"box\"", "class=\"cover\"");
    case.refused(
        "</svg>",
        &format!("{strange}</svg>"),
        "a shape of class cover",
    );
}

/// Moved by one, these are refused: they stand where the boxes, tracks and joints are.
#[test]
fn moved_by_one() {
    let case = t();
    let mut tried = 0;
    for line in shapes(&case.text) {
        let class = value(line, "class");
        if !["page", "box", "band", "guide", "wire", "dot"].contains(&class.as_str()) {
            continue;
        }
        for (name, spoiled) in moved(line, 1) {
            if class != "band" || is_along(line, name) {
                case.refused(line, &spoiled, "");
                tried += 1;
            }
        }
    }
    assert!(tried > 150, "{tried}");
}

/// Whether an attribute of a band is along its channel, where it fits exactly between the boxes. On 3 by 2 boxes the channels below 4
/// run from left to right.
fn is_along(line: &str, name: &str) -> bool {
    let level = value(line, "data-channel")
        .parse::<u8>()
        .expect("a channel")
        < 4;
    matches!(
        (level, name),
        (true, "x" | "width") | (false, "y" | "height")
    )
}
