//! 02 M-102: "Sheets are of one kind 3 only if these 12 bytes agree, and the
//! standard form keeps them."

mod form;

use form::{designs, form};
use model::near_rows;
use model::relisting::are_relistings;
use model::sheet::{parse, Sheet};
use sheets::row_forms::{formed, row_changed, row_example, tiny_by_rows};
use sheets::{forms, random, rows, Design, Raw, Rng};

fn parsed(raw: &Raw) -> Sheet {
    parse(&raw.bytes()).expect("a good sheet")
}

/// The bytes by hand, in just enough room; one byte less is 14.
#[test]
fn forms_by_hand() {
    for one in formed() {
        assert_eq!(form(&one.sheet), one.form, "{}", one.name);
        assert_eq!(form(&one.form), one.form, "{}", one.name);
        let mut short = vec![0x5A; one.sheet.len() - 1];
        assert_eq!(model::standard(&one.sheet, &mut short), 14);
        assert!(short.iter().all(|&byte| byte == 0x5A));
    }
}

/// The 12 bytes stand before the trailer as they were; the rest is the form of the
/// sheet of kind 0 with the same nets, but for the kind and the length.
#[test]
fn rows_are_kept() {
    let mut rng = Rng::new(60);
    for design in designs(65, 600) {
        let design = design.with_rows(rows::any(&mut rng));
        let raw = design.relist(&mut rng);
        let mut kept = form(&raw.bytes());
        let at = kept.len() - 24;
        let row_bytes: Vec<u8> = kept.drain(at..at + 12).collect();
        assert_eq!(row_bytes, raw.row_bytes);
        assert_eq!(kept[at + 2], 3);
        kept[at + 2] = 0;
        let length = (kept.len() as u16).to_le_bytes();
        kept[at + 8..at + 10].copy_from_slice(&length);
        assert_eq!(kept, form(&design.with_kind(0).list().bytes()));
    }
}

/// Other rows, also such as act alike at W: no relisting, and another form.
#[test]
fn other_rows_are_another_kind() {
    let mut rng = Rng::new(61);
    let mut alike = 0;
    for _ in 0..1500 {
        let design = random::any(&mut rng).with_rows(rows::any(&mut rng));
        let Some(other) = row_changed(&design, &mut rng) else {
            continue;
        };
        let [one, twin] = [0, 1].map(|_| design.relist(&mut rng));
        let other = other.relist(&mut rng);
        assert!(are_relistings(&parsed(&one), &parsed(&twin)));
        assert!(!are_relistings(&parsed(&one), &parsed(&other)));
        assert_eq!(form(&one.bytes()), form(&twin.bytes()));
        assert_ne!(form(&one.bytes()), form(&other.bytes()));
        let shifts = |raw: &Raw| {
            let width = i32::from(raw.width);
            let shift = |byte: &[u8]| (byte[0], i32::from(byte[1] as i8).rem_euclid(width));
            raw.row_bytes.chunks(2).map(shift).collect::<Vec<_>>()
        };
        alike += u32::from(shifts(&one) == shifts(&other));
    }
    assert!(alike > 100, "{alike}");
}

/// A published kind and its rows are two kinds.
#[test]
fn by_rows_is_no_relisting() {
    let mut rng = Rng::new(62);
    for kind in 0..3 {
        let design = random::any(&mut rng).with_kind(kind);
        let (one, other) = (design.list(), design.by_rows().list());
        assert!(!are_relistings(&parsed(&one), &parsed(&other)));
        assert_ne!(form(&one.bytes()), form(&other.bytes()));
    }
}

/// Relistings of one mark exactly if the forms are equal, on pairs that often are.
/// Those of different marks have different forms.
#[test]
fn relistings_exactly_if_equal() {
    let mut rng = Rng::new(63);
    let mut all = Vec::new();
    for _ in 0..500 {
        let raw = tiny_by_rows(&mut rng).relist(&mut rng);
        all.push((parsed(&raw), form(&raw.bytes())));
    }
    let mut seen = [0, 0];
    for one in &all {
        for other in &all {
            let equal = one.1 == other.1;
            let alike = one.0.mark == other.0.mark && are_relistings(&one.0, &other.0);
            assert_eq!(alike, equal);
            seen[usize::from(equal)] += 1;
        }
    }
    assert!(seen[0] > 10_000 && seen[1] > 1000, "{seen:?}");
}

/// Whether a wrong way to keep the rows gives another form.
fn told(raw: &Raw, way: fn(&Sheet) -> Vec<u8>) -> bool {
    way(&parsed(raw)) != form(&raw.bytes())
}

#[test]
fn wrong_ways_are_told() {
    let mut rng = Rng::new(64);
    let mut by_chance = |design: fn(&mut Rng) -> Design| {
        let raws = (0..400).map(|_| design(&mut rng).relist(&mut rng));
        raws.collect::<Vec<_>>()
    };
    let any = by_chance(random::any);
    let branching = by_chance(|rng| forms::trees(rng, 5, 7));
    for (name, way) in near_rows::WAYS {
        assert!(told(&row_example(), way), "{name}");
        for all in [&any, &branching] {
            let count = all.iter().filter(|raw| told(raw, way)).count();
            assert!(count > 20, "{name}: {count}");
        }
    }
}
