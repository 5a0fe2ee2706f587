//! Chance sheets of the short mark beside the same records with net numbers of four bytes: every call gives the same results and writes the
//! same bytes.
#![cfg(feature = "alloc")]

mod chance;

use chance::Chance;
use trackrouter::sheet::{Mark, Sheet};
use trackrouter::*;

/// The length of an output: longer than a ticket, so that what stands behind it is compared too.
const ROOM: usize = MAX_ENTRIES + 8;

/// A chance sheet of the short mark.
fn short(chance: &mut Chance) -> Sheet {
    loop {
        let sheet = chance::sheet(chance);
        if sheet.mark() == Mark::Short {
            return sheet;
        }
    }
}

/// What a call answers, and the whole output after it.
type Told = (Result<[u32; 3], Refusal>, Vec<u8>);

fn told(call: impl for<'a> FnOnce(&'a mut [u8]) -> Result<Routed<'a>, Refusal>) -> Told {
    let mut out = vec![0xAA; ROOM];
    let answer = call(&mut out).map(|routed| [routed.width, routed.trials, routed.moved]);
    (answer, out)
}

/// The old ticket in which some nets are unplaced.
fn old(chance: &mut Chance, sheet: &Sheet, ticket: &[u8]) -> Vec<u8> {
    let mut old = ticket.to_vec();
    for (_, part) in sheet.parts() {
        if chance.below(3) == 0 {
            old[part].fill(UNPLACED);
        }
    }
    old
}

#[test]
fn the_same_results_and_bytes() {
    let mut chance = Chance(106);
    let (mut routed, mut refitted) = (0, 0);
    for _ in 0..150 {
        let sheet = short(&mut chance);
        let dead = dead::bytes(&chance::dead(&mut chance, &sheet, 3));
        let long = sheet.clone().with_mark(Mark::Long);
        let both = [&sheet, &long].map(|sheet| sheet.bytes().expect("bytes"));
        let [one, other] = &both;
        assert_eq!(one.len() + 2 * sheet.nets().len(), other.len());
        assert_eq!(read(one), read(other));
        let answers = both.each_ref().map(|sheet| {
            let route = told(|out| route(sheet, &dead, 2_000, out));
            (route, told(|out| least(sheet, &dead, 2_000, out)))
        });
        assert_eq!(answers[0], answers[1]);
        let (answer, written) = &answers[0].0;
        if answer.is_err() {
            continue;
        }
        routed += 1;
        let ticket = &written[..sheet.entry_count()];
        let old = old(&mut chance, &sheet, ticket);
        let mut wrong = old.clone();
        if let Some(byte) = wrong.first_mut() {
            *byte = 0;
        }
        for ticket in [ticket, &old, &wrong] {
            let answers = both.each_ref().map(|sheet| {
                let refit = told(|out| refit(sheet, &dead, ticket, 2_000, out));
                (check(sheet, &dead, ticket), refit)
            });
            assert_eq!(answers[0], answers[1]);
            refitted += usize::from(answers[0].1 .0.is_ok());
            let numbers = sheet.nets().iter().map(|net| net.number());
            for net in numbers.flat_map(|number| [number, number ^ 65_536, number ^ 1]) {
                let answers = both.each_ref().map(|sheet| {
                    let mut out = vec![0xAA; ROOM];
                    let answer = remove(sheet, ticket, net, &mut out).map(<[u8]>::len);
                    (answer, out)
                });
                assert_eq!(answers[0], answers[1]);
            }
        }
    }
    assert!(routed > 20 && refitted > 40, "{routed} {refitted}");
}

/// A record starts later by two bytes for each before it, and has two zeros more behind its number. The form has its sheet's mark.
#[test]
fn records_and_forms() {
    let mut chance = Chance(107);
    for _ in 0..150 {
        let sheet = short(&mut chance);
        let long = sheet.clone().with_mark(Mark::Long);
        let [one, other] = [&sheet, &long].map(|sheet| sheet.bytes().expect("bytes"));
        let start = |sheet: &[u8], part: &[u8]| part.as_ptr() as usize - sheet.as_ptr() as usize;
        for place in 0..sheet.nets().len() {
            let (short, long) = (record(&one, place), record(&other, place));
            assert_eq!(start(&one, short) + 2 * place, start(&other, long));
            let (number, rest) = short.split_at(2);
            assert_eq!(long, [number, &[0, 0], rest].concat());
        }
        let mut out = [0; MAX_SHEET];
        let form = standard(&one, &mut out).expect("a form").to_vec();
        let widened = Sheet::read(&form).expect("a sheet").with_mark(Mark::Long);
        let form = standard(&other, &mut out).expect("a form");
        assert_eq!(widened.bytes().as_deref(), Ok(form));
    }
}
