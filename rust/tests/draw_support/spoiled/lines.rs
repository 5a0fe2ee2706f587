//! Wires, joints, dots and unplaced nets.

use super::{attribute, m7, numbers, raised, t, value};

#[test]
fn joints_that_miss_their_wires() {
    for (case, class) in [(t(), "joint"), (m7(), "unplaced-joint")] {
        // With the stripe of the same course.
        let course = attribute(&case.line(class, &["data-net=\"3\""]), "d").expect("a course");
        let last = numbers(&course).len() - 1;
        for place in [0, 1, last - 1, last] {
            case.refused(
                &course,
                &raised(&course, place, 1),
                "does not end on its wire",
            );
        }
    }
    let case = t();
    let course = attribute(&case.line("joint", &["data-net=\"3\""]), "d").expect("a course");
    case.refused(&course, &raised(&course, 2, 300), "leaves its box");
}

#[test]
fn joints_too_few_or_too_many() {
    let case = t();
    let joint = case.line("joint", &["data-net=\"2\""]);
    let stripe = case.line("stripe", &[&value(&joint, "d")]);
    let without = case.text.replace(&joint, "").replace(&stripe, "");
    case.text_refused(&without, "is not drawn");
    let twice = case.text.replace(&joint, &joint.repeat(2));
    case.text_refused(&twice.replace(&stripe, &stripe.repeat(2)), "twice");
    case.line_refused(&joint, "data-from=\"1\"", "data-from=\"0\"", "is not drawn");
    case.line_refused(&joint, "data-net=\"2\"", "data-net=\"4\"", "is not drawn");
    // One more, on the channels that net 3 joins.
    let third = case.line("joint", &["data-net=\"3\""]);
    let stripe = case.line("stripe", &[&value(&third, "d")]);
    let more = third.clone() + &third.replace("data-net=\"3\"", "data-net=\"1\"");
    let text = case.text.replace(&third, &more);
    let text = text.replace(&stripe, &stripe.repeat(2));
    case.text_refused(&text, "joints of no net");
}

#[test]
fn stripes_out_of_place() {
    let case = t();
    let joint = case.line("joint", &["data-net=\"2\""]);
    let stripe = case.line("stripe", &[&value(&joint, "d")]);
    case.refused(&stripe, &stripe.repeat(2), "a stripe under no joint");
    case.refused(&stripe, "", "a joint without a stripe");
    let late = case
        .text
        .replace(&stripe, "")
        .replace(&joint, &format!("{joint}{stripe}"));
    case.text_refused(&late, "a joint without a stripe");
}

#[test]
fn dots_out_of_place() {
    let case = t();
    let wire = case.line("wire", &["data-net=\"1\"", "data-channel=\"1\""]);
    let at = |name: &str, from: &str| format!(" {name}=\"{}\"", value(&wire, from));
    let dot = case.line("dot", &[&at("cx", "x1"), &at("cy", "y1")]);
    case.refused(&dot, "", "no dots");
    case.refused(&dot, &dot.repeat(2), "a dot that is not due");
    let end = dot.replace(&at("cx", "x1"), &at("cx", "x2"));
    case.refused(&dot, &end, "a dot that is not due");
}

#[test]
fn wires_out_of_place() {
    let case = t();
    let wire = case.line("wire", &["data-net=\"1\"", "data-channel=\"0\""]);
    case.refused(&wire, "", "no line of net 1 in channel 0");
    case.refused(&wire, &wire.repeat(2), "net 1 twice in channel 0");
    case.line_refused(
        &wire,
        "data-track=\"0\"",
        "data-track=\"1\"",
        "another track",
    );
    case.line_refused(
        &wire,
        "class",
        "stroke-dasharray=\"6 4\" class",
        "is dashed",
    );
    case.line_refused(&wire, "class", "stroke=\"#123456\" class", "two colours");
    let y: i64 = value(&wire, "y1").parse().expect("a number");
    let lower = wire.replace(&format!("\"{y}\""), &format!("\"{}\"", y + 1));
    case.refused(&wire, &lower, "not on its track 0");
    let other = wire.replace("data-net=\"1\"", "data-net=\"4\"");
    case.refused(&wire, &format!("{wire}{other}"), "lines of no net");
}

#[test]
fn unplaced_nets_that_look_placed() {
    let case = m7();
    let lane = case.line("unplaced", &["data-channel=\"0\""]);
    case.refused(" stroke-dasharray=\"6 4\"", "", "is not dashed");
    case.line_refused(
        &lane,
        "class=\"unplaced\"",
        "class=\"wire\"",
        "is not dashed",
    );
    let track = case.line("wire", &["data-channel=\"0\""]);
    let heights = |line: &str| ["y1", "y2"].map(|name| attribute(line, name).expect(name));
    let [[from1, from2], [to1, to2]] = [&lane, &track].map(|line| heights(line));
    let moved = lane.replace(&from1, &to1).replace(&from2, &to2);
    case.refused(&lane, &moved, "has no track");
}
