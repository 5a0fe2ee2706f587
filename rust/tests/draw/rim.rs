//! Joints on the rim of the chip and in an inner box: what is drawn, and what the title says of it.

use super::draw_support::sheets::{inner_t, sheet_t};
use super::draw_support::{Picture, Shape};
use super::{drawn, T_TICKET};
use trackrouter::chip::Kind;
use trackrouter::sheet::Sheet;

/// The tracks of the wires that each joint connects, in the order of the sheet.
fn joined(picture: &Picture) -> Vec<[i64; 2]> {
    let track = |net: i64, channel: i64| {
        let mut wires = picture.of_class("wire");
        let wire = wires.find(|wire| {
            (wire.number("data-net"), wire.number("data-channel")) == (Ok(net), Ok(channel))
        });
        wire.expect("a wire").number("data-track").expect("a track")
    };
    let joint = |joint: &Shape| {
        let number = |name| joint.number(name).expect(name);
        ["data-from", "data-to"].map(|end| track(number("data-net"), number(end)))
    };
    picture.of_class("joint").map(joint).collect()
}

/// On the rim equal tracks are right for every kind and are joined straight; in an inner box they are right for subset boxes alone. By
/// hand at W 3: universal takes left 2 to top 0, Wilton right 1 to top 0, and by the rows left 0 goes to right 1.
#[test]
fn straight_on_the_rim() {
    let bytes = include_bytes!("../../../sheets/t_rows.sheet");
    let rows = Sheet::read(bytes).expect("a sheet").kind();
    let straight = [[0, 0], [1, 1], [2, 2]];
    for kind in [Kind::Subset, Kind::Wilton, Kind::Universal, rows] {
        let rim = drawn(&sheet_t(kind, 3), Some(&T_TICKET));
        assert_eq!(rim.title, format!("chip 3 by 2, kind {kind}, width 3"));
        assert_eq!(joined(&rim), straight);
        let inner = drawn(&inner_t(kind, 3), Some(&T_TICKET));
        assert_eq!(joined(&inner), straight);
        let wrong = inner.title.ends_with(": 12 switch");
        assert_eq!(wrong, kind != Kind::Subset, "{kind}");
    }
    // The first right tickets in the inner box, whose joints turn. On the rim they are wrong.
    for (kind, ticket, turned) in [
        (
            Kind::Universal,
            [0, 0, 1, 1, 2, 0],
            [[0, 0], [1, 1], [2, 0]],
        ),
        (Kind::Wilton, [0, 0, 1, 0, 1, 2], [[0, 0], [1, 0], [1, 2]]),
        (rows, [0, 1, 0, 1, 2, 0], [[0, 1], [0, 1], [2, 0]]),
    ] {
        let inner = drawn(&inner_t(kind, 3), Some(&ticket));
        assert_eq!(inner.title, format!("chip 4 by 4, kind {kind}, width 3"));
        assert_eq!(joined(&inner), turned);
        let rim = drawn(&sheet_t(kind, 3), Some(&ticket));
        assert!(rim.title.ends_with(": 12 switch"), "{}", rim.title);
    }
}
