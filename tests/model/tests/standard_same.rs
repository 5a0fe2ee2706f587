//! What 02 M-101 says of standard forms: other nets have another one, and it is
//! routed as the sheet itself.

mod form;

use form::{designs, form};
use model::sheet::{parse, Sheet};
use model::Answer;
use sheets::{forms, random, Design, Rng, Tracks};
use std::collections::{BTreeMap, BTreeSet};

type Change = fn(&Design, &mut Rng) -> Option<Design>;

#[test]
fn other_nets_have_another_form() {
    let mut rng = Rng::new(24);
    let changes: [Change; 3] = [
        forms::joint_moved,
        forms::channel_changed,
        forms::number_changed,
    ];
    let mut seen = [0; 3];
    for design in designs(25, 600) {
        let told = form(&design.relist(&mut rng).bytes());
        for (place, change) in changes.iter().enumerate() {
            if let Some(other) = change(&design, &mut rng) {
                let other = other.relist(&mut rng).bytes();
                assert_ne!(form(&other), told, "{design:?}");
                seen[place] += 1;
            }
        }
    }
    assert!(seen.iter().all(|&count| count > 300), "{seen:?}");
}

/// What must be the same: under each net number the channels, and the joints in
/// either order.
type Nets = BTreeMap<u32, (BTreeSet<u16>, BTreeSet<(u16, u16)>)>;

fn nets(design: &Design) -> Nets {
    let either = |&(a, b): &(u16, u16)| [(a, b), (b, a)];
    let sets = |net: &sheets::Net| {
        let channels = net.channels.iter().copied().collect();
        (channels, net.joints.iter().flat_map(either).collect())
    };
    design
        .nets
        .iter()
        .map(|net| (net.number, sets(net)))
        .collect()
}

/// "The same nets, channels and joints exactly if their standard forms are equal
/// bytes", on pairs that are often the same. 02 M-106 claims it within one mark; of
/// different marks they always differ.
#[test]
fn same_exactly_if_equal() {
    let mut rng = Rng::new(26);
    let mut all = Vec::new();
    for _ in 0..600 {
        let design = forms::tiny(&mut rng);
        let same = (design.mark, nets(&design));
        all.push((same, form(&design.relist(&mut rng).bytes())));
    }
    let mut seen = [0, 0];
    for one in &all {
        for other in &all {
            assert_eq!(one.0 == other.0, one.1 == other.1, "{one:?} {other:?}");
            seen[usize::from(one.0 == other.0)] += 1;
        }
    }
    assert!(seen[0] > 10_000 && seen[1] > 2000, "{seen:?}");
}

/// The track of each net number and channel in a ticket.
fn tracks(sheet: &Sheet, ticket: &[u8]) -> Tracks {
    let nets = sheet.nets.iter();
    let places = nets.flat_map(|net| net.channels.iter().map(|&c| (net.number, c as u16)));
    places.zip(ticket.iter().copied()).collect()
}

type Search = fn(&[u8], &[u8], u32, &mut [u8]) -> Answer;

fn searched(bytes: &[u8], search: Search) -> (Answer, Tracks) {
    let sheet = parse(bytes).expect("a good sheet");
    let mut out = vec![255; sheet.entry_count()];
    let answer = search(bytes, &[], 20_000, &mut out);
    (answer, tracks(&sheet, &out))
}

#[test]
fn a_form_is_routed_as_its_sheet() {
    let mut rng = Rng::new(27);
    let mut found = 0;
    for _ in 0..300 {
        let sheet = random::any(&mut rng).relist(&mut rng).bytes();
        for search in [model::route, model::least] {
            let told = searched(&sheet, search);
            assert_eq!(searched(&form(&sheet), search), told);
            found += u32::from(told.0.number == 0);
        }
    }
    assert!(found > 200, "{found}");
}
