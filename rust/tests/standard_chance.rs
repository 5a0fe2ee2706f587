//! Standard forms of chance sheets: beside the builder, beside those of relistings, and in Route and Refit, under the same dead wires. A
//! relisting of the other mark is one too, but has a form of its own mark.
#![cfg(feature = "alloc")]

mod chance;

use chance::Chance;
use std::collections::BTreeMap;
use trackrouter::dead;
use trackrouter::sheet::{Mark, Net, Sheet};
use trackrouter::{refit, route, standard, Refusal, Routed, MAX_ENTRIES, MAX_SHEET, UNPLACED};

fn form(sheet: &[u8]) -> Vec<u8> {
    let mut out = [0; MAX_SHEET];
    standard(sheet, &mut out)
        .expect("an accepted sheet")
        .to_vec()
}

/// The sheet in another order.
fn relisted(chance: &mut Chance, sheet: &Sheet) -> Sheet {
    let mut nets = sheet.nets().to_vec();
    chance.shuffle(&mut nets);
    listed(sheet, &nets, |channels| chance.shuffle(channels))
}

/// The sheet with the other mark, if that has room for its net numbers.
fn remarked(sheet: &Sheet) -> Option<Sheet> {
    let mark = match sheet.mark() {
        Mark::Short => Mark::Long,
        Mark::Long => Mark::Short,
    };
    let other = sheet.clone().with_mark(mark);
    other.bytes().is_ok().then_some(other)
}

/// These nets, built from their channels in the order that is given to them.
fn listed(sheet: &Sheet, nets: &[Net], mut order: impl FnMut(&mut [u16])) -> Sheet {
    let chip = sheet.chip();
    let mut listed = Sheet::new(chip.columns, chip.rows, sheet.kind(), sheet.width());
    listed = listed.with_mark(sheet.mark());
    for net in nets {
        let mut channels: Vec<u16> = net.channels().collect();
        order(&mut channels);
        let joints: Vec<(u16, u16)> = net.joints().collect();
        listed.push(Net::new(net.number(), &channels, &joints).expect("a tree"));
    }
    listed
}

/// In the builder, of the channels with a joint to an entry the first in the order given is next; in rising order that is the lowest.
fn by_the_builder(sheet: &Sheet) -> Sheet {
    let mut nets = sheet.nets().to_vec();
    nets.sort_by_key(Net::number);
    listed(sheet, &nets, <[u16]>::sort)
}

/// The track of each net number and channel.
fn tracks(sheet: &Sheet, ticket: &[u8]) -> BTreeMap<(u32, u16), u8> {
    let each = sheet.parts().flat_map(|(net, part)| {
        let places = net.channels().map(|channel| (net.number(), channel));
        places.zip(ticket[part].iter().copied())
    });
    each.collect()
}

/// The results, and the track of each net number and channel.
type Told = Result<([u32; 3], BTreeMap<(u32, u16), u8>), Refusal>;

fn told(sheet: &Sheet, answer: Result<Routed, Refusal>) -> Told {
    answer.map(|routed| {
        let results = [routed.width, routed.trials, routed.moved];
        (results, tracks(sheet, routed.ticket))
    })
}

/// The old ticket in which each third net has its tracks.
fn old(sheet: &Sheet, tracks: &BTreeMap<(u32, u16), u8>) -> Vec<u8> {
    let byte = |number: u32, channel| match number % 3 {
        0 => tracks[&(number, channel)],
        _ => UNPLACED,
    };
    let nets = sheet.nets().iter();
    nets.flat_map(|net| net.channels().map(|channel| byte(net.number(), channel)))
        .collect()
}

#[test]
fn chance_sheets() {
    let mut chance = Chance(101);
    let (mut routed, mut changed, mut marks) = (0, 0, [0; 2]);
    for _ in 0..300 {
        let sheet = chance::sheet(&mut chance);
        let bytes = sheet.bytes().expect("bytes");
        let standard = by_the_builder(&sheet);
        assert_eq!(Ok(form(&bytes)), standard.bytes());
        changed += usize::from(form(&bytes) != bytes);
        let relisted = relisted(&mut chance, &sheet);
        let other = relisted.bytes().expect("bytes");
        assert_eq!(form(&other), form(&bytes));
        let remarked = remarked(&relisted);
        if let Some(other) = &remarked {
            let form = form(&other.bytes().expect("bytes"));
            assert_eq!(Ok(form), by_the_builder(other).bytes());
            marks[usize::from(other.mark() == Mark::Short)] += 1;
        }

        let mut out = [0; MAX_ENTRIES];
        let mut list = chance::dead(&mut chance, &sheet, 4);
        let lists = [(); 2].map(|()| {
            chance.shuffle(&mut list);
            dead::bytes(&list)
        });
        let one = told(&sheet, route(&bytes, &lists[0], 2_000, &mut out));
        let other = route(&form(&bytes), &lists[1], 2_000, &mut out);
        assert_eq!(told(&standard, other), one);
        if let Some(other) = &remarked {
            let bytes = other.bytes().expect("bytes");
            let answer = route(&bytes, &lists[1], 2_000, &mut out);
            assert_eq!(told(other, answer), one);
        }
        let Ok((_, tracks)) = one else { continue };
        let before = [&sheet, &standard].map(|sheet| old(sheet, &tracks));
        let one = told(
            &sheet,
            refit(&bytes, &lists[0], &before[0], 2_000, &mut out),
        );
        let other = refit(&form(&bytes), &lists[1], &before[1], 2_000, &mut out);
        assert_eq!(told(&standard, other), one);
        if let Some(other) = &remarked {
            let (bytes, before) = (other.bytes().expect("bytes"), old(other, &tracks));
            let answer = refit(&bytes, &lists[0], &before, 2_000, &mut out);
            assert_eq!(told(other, answer), one);
        }
        routed += 1;
    }
    assert!(routed > 50 && changed > 200, "{routed} {changed}");
    assert!(marks.iter().all(|&count| count > 15), "{marks:?}");
}

/// 64 nets of 32 entries, with rows and without.
#[test]
fn the_largest_sheet() {
    let short = include_bytes!("../../sheets/largest.sheet");
    let long = include_bytes!("../../sheets/largest_long.sheet");
    assert_eq!((short.len(), long.len()), (8_588, MAX_SHEET));
    for bytes in [&short[..], long] {
        let sheet = Sheet::read(bytes).expect("a sheet");
        assert_eq!(Ok(form(bytes)), by_the_builder(&sheet).bytes());
        let other = relisted(&mut Chance(7), &sheet).bytes().expect("bytes");
        assert_ne!(other, bytes);
        assert_eq!(form(&other), form(bytes));
        // By other rows.
        let chip = sheet.chip();
        let rows = chance::rows(&mut Chance(8));
        let mut by_rows = Sheet::new(chip.columns, chip.rows, rows, sheet.width());
        by_rows = by_rows.with_mark(sheet.mark());
        sheet
            .nets()
            .iter()
            .for_each(|net| by_rows.push(net.clone()));
        let bytes = by_rows.bytes().expect("bytes");
        assert_eq!(Ok(form(&bytes)), by_the_builder(&by_rows).bytes());
        let other = relisted(&mut Chance(7), &by_rows).bytes().expect("bytes");
        assert_eq!(form(&other), form(&bytes));
    }
}
