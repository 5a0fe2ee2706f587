//! 02 M-101: the standard form against brute force, and against near wrong ways,
//! which the sheets here must tell from it.

mod form;

use form::{designs, form};
use model::sheet::{parse, Net, Sheet};
use model::standard::{Entries, Listed};
use model::{brute_standard, near_forms};
use sheets::{forms, random, Raw, Record, Rng};

/// The sheet with these records, laid out by the other crate.
fn laid_out(raw: &Raw, records: &[Listed]) -> Vec<u8> {
    let record = |listed: &Listed| Record::new(listed.number, &listed.entries);
    let records = records.iter().map(record).collect();
    let laid_out = Raw::new(raw.columns, raw.rows, raw.kind, raw.width, records);
    let laid_out = laid_out.marked(raw.form);
    laid_out.with_row_bytes(&raw.row_bytes).bytes()
}

/// Whether brute force could settle the sheet, which it then does alike.
fn settled(raw: &Raw) -> bool {
    let bytes = raw.bytes();
    let sheet = parse(&bytes).expect("a good sheet");
    let by_force = brute_standard::records(&sheet);
    if let Some(records) = &by_force {
        assert_eq!(form(&bytes), laid_out(raw, records), "{sheet:?}");
    }
    by_force.is_some()
}

#[test]
fn small_sheets_by_force() {
    let mut rng = Rng::new(30);
    for _ in 0..3000 {
        assert!(settled(&random::small(&mut rng).relist(&mut rng)));
    }
}

#[test]
fn branching_sheets_by_force() {
    let mut rng = Rng::new(31);
    for (fewest, most, count) in [(1, 5, 1500), (5, 6, 1500), (7, 7, 150)] {
        for _ in 0..count {
            assert!(settled(
                &forms::trees(&mut rng, fewest, most).relist(&mut rng)
            ));
        }
    }
}

/// A net's channels and parents as they stand.
fn entries(net: &Net) -> Entries {
    let parent = |place: usize| match place {
        0 => 65535,
        _ => net.joints[place - 1].places.1 as u16,
    };
    let entry = |place: usize| (net.channels[place] as u16, parent(place));
    (0..net.channels.len()).map(entry).collect()
}

/// Whether a sheet's nets rise, and the request's sentence is true of each of
/// their entries beside the net of the same number in the old sheet.
fn is_form_of(new: &Sheet, old: &Sheet) -> bool {
    let rising = new.nets.windows(2).all(|two| two[0].number < two[1].number);
    let standard = |net: &Net| {
        let old = old.numbered(net.number);
        old.is_some_and(|old| brute_standard::is_standard(old, &entries(net)))
    };
    rising && new.nets.len() == old.nets.len() && new.nets.iter().all(standard)
}

/// Nets too large for all their listings: the sentence alone.
#[test]
fn large_sheets_by_the_sentence() {
    let mut rng = Rng::new(32);
    let mut large = 0;
    for design in designs(35, 600) {
        let old = design.relist(&mut rng).bytes();
        let new = form(&old);
        let [new, old] = [&new, &old].map(|bytes| parse(bytes).expect("a good sheet"));
        assert!(is_form_of(&new, &old), "{old:?}");
        large += design
            .nets
            .iter()
            .filter(|net| net.channels.len() > 20)
            .count();
    }
    assert!(large > 1000, "{large}");
}

/// How many of the sheets each wrong way gives another form than the right one.
fn told_apart(all: &[Raw]) -> Vec<(&'static str, usize)> {
    let differs = |raw: &&Raw, way: &dyn Fn(&Sheet) -> Vec<u8>| {
        let bytes = raw.bytes();
        let sheet = parse(&bytes).expect("a good sheet");
        way(&sheet) != form(&bytes)
    };
    let count =
        |way: &dyn Fn(&Sheet) -> Vec<u8>| all.iter().filter(|raw| differs(raw, way)).count();
    let ways = near_forms::WAYS.iter();
    ways.map(|(name, way)| (*name, count(way))).collect()
}

/// The fixed example tells every wrong way.
#[test]
fn the_example_tells_all() {
    for (name, count) in told_apart(&[forms::example()]) {
        assert_eq!(count, 1, "{name}");
    }
}

/// So do the sheets of each test here, each wrong way many times.
#[test]
fn wrong_ways_are_told() {
    let mut rng = Rng::new(33);
    let mut sheets = |design: fn(&mut Rng) -> sheets::Design| {
        let listings = (0..1000).map(|_| design(&mut rng).relist(&mut rng));
        listings.collect::<Vec<_>>()
    };
    let small = sheets(random::small);
    let any = sheets(random::any);
    let branching = sheets(|rng| forms::trees(rng, 5, 7));
    for (kind, all) in [("small", small), ("any", any), ("branching", branching)] {
        for (name, count) in told_apart(&all) {
            assert!(count > 20, "{kind}, {name}: {count}");
        }
    }
}

/// Breadth first, depth first and the right order are three orders.
#[test]
fn orders_that_all_differ() {
    let mut rng = Rng::new(34);
    let mut three = 0;
    for _ in 0..1000 {
        let bytes = forms::trees(&mut rng, 5, 7).relist(&mut rng).bytes();
        let sheet = parse(&bytes).expect("a good sheet");
        let [breadth, depth] = [0, 1].map(|way| near_forms::WAYS[way].1(&sheet));
        let right = form(&bytes);
        three += u32::from(breadth != depth && breadth != right && depth != right);
    }
    assert!(three > 200, "{three}");
}
