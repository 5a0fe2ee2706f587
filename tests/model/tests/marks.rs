//! 02 M-106, longer net numbers. Sheets are made here byte by byte under either
//! mark, and what is expected of them is taken from the text alone.

use model::mark::Mark;
use model::near_marks::{self, ORDERS, PRINTS, READS, SAMES, WAYS};
use model::sheet::{parse, Sheet, LONGEST};
use model::widen::widened;
use model::word::Word;
use model::{brute, brute_standard, chip::Chip, lines::least_lines, relisting::are_relistings};
use model::{check, least, read, record, refit, remove, route, standard, Answer, Counts, Part};

// ---- Sheets made here

/// A mark's bytes, and how many bytes a net number has under it.
type Form = ([u8; 2], usize);

const OLD: Form = ([0x57, 0x48], 2);
const NEW: Form = ([0x57, 0x49], 4);
const BOTH: [Form; 2] = [OLD, NEW];

/// Net number, and channel and parent of each entry.
type Net = (u32, Vec<(u16, u16)>);

const ROOT: u16 = 65535;

/// Numbers with equal halves, and the ends of either length, rising.
const NUMBERS: [u32; 12] = [
    0,
    1,
    65_534,
    65_535,
    65_536,
    65_537,
    131_072,
    2_147_418_112,
    2_147_483_647,
    2_147_483_648,
    4_294_901_761,
    4_294_967_295,
];

#[derive(Clone, Debug)]
struct Plan {
    chip: (u8, u8),
    kind: u8,
    w: u8,
    rows: Vec<u8>,
    nets: Vec<Net>,
}

impl Plan {
    fn bytes(&self, (mark, number_bytes): Form) -> Vec<u8> {
        let mut out = Vec::new();
        let mut offsets = Vec::new();
        for (number, entries) in &self.nets {
            offsets.extend((out.len() as u16).to_le_bytes());
            out.extend(&number.to_le_bytes()[..number_bytes]);
            out.extend((entries.len() as u16).to_le_bytes());
            for (channel, parent) in entries {
                out.extend(channel.to_le_bytes());
                out.extend(parent.to_le_bytes());
            }
        }
        let directory = out.len() as u16;
        out.extend(offsets);
        out.extend(&self.rows);
        out.extend([self.chip.0, self.chip.1, self.kind, self.w]);
        out.extend((self.nets.len() as u16).to_le_bytes());
        out.extend(directory.to_le_bytes());
        out.extend((out.len() as u16 + 4).to_le_bytes());
        out.extend(mark);
        out
    }

    fn both(&self) -> [Vec<u8>; 2] {
        BOTH.map(|form| self.bytes(form))
    }

    fn with(mut self, change: impl FnOnce(&mut Plan)) -> Plan {
        change(&mut self);
        self
    }

    fn numbered(mut self, numbers: &[u32]) -> Plan {
        for (net, number) in self.nets.iter_mut().zip(numbers) {
            net.0 = *number;
        }
        self
    }
}

/// Nets on chip 3 by 2, each a first channel and others joined to it.
fn plan(w: u8, nets: &[(u32, &[u16])]) -> Plan {
    let entry = |(place, &channel): (usize, &u16)| (channel, if place == 0 { ROOT } else { 0 });
    let net = |&(number, channels): &(u32, &[u16])| {
        let entries = channels.iter().enumerate().map(entry).collect();
        (number, entries)
    };
    Plan {
        chip: (3, 2),
        kind: 0,
        w,
        rows: Vec::new(),
        nets: nets.iter().map(net).collect(),
    }
}

fn t() -> Plan {
    plan(2, &[(1, &[0, 1]), (2, &[1, 5]), (3, &[0, 5])])
}

/// T on a 4 by 4 chip, in an inner box.
fn t_inside() -> Plan {
    plan(2, &[(1, &[3, 4]), (2, &[4, 17]), (3, &[3, 17])]).with(|p| p.chip = (4, 4))
}

/// Kind 3 with good rows.
fn with_rows(plan: Plan) -> Plan {
    plan.with(|p| {
        p.kind = 3;
        p.rows = vec![0, 1, 1, 2, 0, 255, 1, 224, 0, 31, 1, 0];
    })
}

/// 64 nets of 32 entries: along row 0, up on the right, back along row 1 and up on
/// the left.
fn largest() -> Plan {
    let channels = (0..15).chain([255]).chain((15..30).rev()).chain([256]);
    let entry = |(place, channel): (u16, u16)| (channel, place.checked_sub(1).unwrap_or(ROOT));
    let entries: Vec<_> = (0..).zip(channels).map(entry).collect();
    Plan {
        chip: (16, 16),
        kind: 0,
        w: 32,
        rows: Vec::new(),
        nets: (0..64).map(|number| (number, entries.clone())).collect(),
    }
}

/// A sheet without nets, filled up with bytes before its trailer.
fn padded(form: Form, length: usize) -> Vec<u8> {
    let trailer = plan(1, &[]).bytes(form);
    let mut out = vec![0; length - trailer.len()];
    out.extend(trailer);
    put(&mut out, length - 4, length);
    out
}

fn put(out: &mut [u8], at: usize, number: usize) {
    out[at..at + 2].copy_from_slice(&(number as u16).to_le_bytes());
}

/// The bytes with the field at this distance from the end set.
fn field(bytes: &[u8], from_end: usize, number: usize) -> Vec<u8> {
    let mut out = bytes.to_vec();
    let at = out.len() - from_end;
    put(&mut out, at, number);
    out
}

fn number(bytes: &[u8]) -> u32 {
    read(bytes).number
}

/// What Route, Least and Refit give: the answer, and the whole output.
fn answers(bytes: &[u8], old: &[u8]) -> [(Answer, Vec<u8>); 3] {
    let budget = 1_000_000;
    let run = |call: &dyn Fn(&mut [u8]) -> Answer| {
        let mut out = vec![77; 2050];
        (call(&mut out), out)
    };
    [
        run(&|out| route(bytes, &[], budget, out)),
        run(&|out| least(bytes, &[], budget, out)),
        run(&|out| refit(bytes, &[], old, budget, out)),
    ]
}

fn ticket_at(bytes: &[u8]) -> (Answer, Vec<u8>) {
    let [(answer, mut out), ..] = answers(bytes, &[]);
    let entries = read(bytes).entries as usize;
    assert!(out[entries..].iter().all(|byte| *byte == 77));
    out.truncate(entries);
    (answer, out)
}

fn form(bytes: &[u8]) -> Vec<u8> {
    let mut out = vec![77; bytes.len() + 3];
    assert_eq!(standard(bytes, &mut out), 0);
    assert_eq!(out.split_off(bytes.len()), [77; 3]);
    out
}

// ---- The bytes

#[test]
fn t_in_both_marks() {
    let old = [
        0x01, 0x00, 0x02, 0x00, 0x00, 0x00, 0xFF, 0xFF, 0x01, 0x00, 0x00, 0x00, //
        0x02, 0x00, 0x02, 0x00, 0x01, 0x00, 0xFF, 0xFF, 0x05, 0x00, 0x00, 0x00, //
        0x03, 0x00, 0x02, 0x00, 0x00, 0x00, 0xFF, 0xFF, 0x05, 0x00, 0x00, 0x00, //
        0x00, 0x00, 0x0C, 0x00, 0x18, 0x00, //
        0x03, 0x02, 0x00, 0x02, 0x03, 0x00, 0x24, 0x00, 0x36, 0x00, 0x57, 0x48,
    ];
    let new = [
        0x01, 0x00, 0x00, 0x00, 0x02, 0x00, 0x00, 0x00, 0xFF, 0xFF, 0x01, 0x00, 0x00, 0x00, //
        0x02, 0x00, 0x00, 0x00, 0x02, 0x00, 0x01, 0x00, 0xFF, 0xFF, 0x05, 0x00, 0x00, 0x00, //
        0x03, 0x00, 0x00, 0x00, 0x02, 0x00, 0x00, 0x00, 0xFF, 0xFF, 0x05, 0x00, 0x00, 0x00, //
        0x00, 0x00, 0x0E, 0x00, 0x1C, 0x00, //
        0x03, 0x02, 0x00, 0x02, 0x03, 0x00, 0x2A, 0x00, 0x3C, 0x00, 0x57, 0x49,
    ];
    assert_eq!(t().both(), [old.to_vec(), new.to_vec()]);
    for sheet in [&old[..], &new] {
        let told = Counts {
            number: 0,
            nets: 3,
            entries: 6,
        };
        assert_eq!(read(sheet), told);
        assert_eq!(form(sheet), sheet, "T stands in standard form");
    }
    assert_eq!(widened(&old), Some(new.to_vec()));
    let marks = [&old[..], &new].map(|sheet| parse(sheet).map(|s| s.mark));
    assert_eq!(marks, Mark::ALL.map(Ok));
}

#[test]
fn records_are_2_bytes_longer() {
    let nets: [(u32, &[u16]); 3] = [(7, &[0]), (8, &[1, 0, 5]), (9, &[6])];
    let part = |(offset, length)| Part { offset, length };
    let told = [
        [(0, 8), (8, 16), (24, 8), (0, 0)],
        [(0, 10), (10, 18), (28, 10), (0, 0)],
    ];
    for (sheet, told) in plan(2, &nets).both().iter().zip(told) {
        let parts = [0, 1, 2, 3].map(|place| record(sheet, place));
        assert_eq!(parts, told.map(part));
    }
    let bytes = plan(2, &nets).numbered(&[7, 0x0102_0304, 9]).bytes(NEW);
    assert_eq!(record(&bytes, 1), part((10, 18)));
    assert_eq!(bytes[10..18], [4, 3, 2, 1, 3, 0, 1, 0]);
    let refused = field(&bytes, 2, 0x4A57);
    assert_eq!(record(&refused, 1), Part::default());
}

// ---- The marked cases under both marks

fn answer(number: u32, width: u32, trials: u32, moved: u32) -> Answer {
    Answer {
        number,
        width,
        trials,
        moved,
    }
}

#[test]
fn marked_cases() {
    for form in BOTH {
        let sheet = |plan: Plan| plan.bytes(form);
        let routed = |plan: Plan, budget: u32| route(&sheet(plan), &[], budget, &mut [0; 9]);
        assert_eq!(routed(t(), 10), answer(15, 0, 10, 0), "m1");
        assert_eq!(routed(t(), 9), answer(16, 0, 9, 0), "m2");
        let found = |plan: Plan| ticket_at(&sheet(plan));
        let m3 = (answer(0, 3, 6, 0), vec![0, 0, 1, 1, 2, 2]);
        assert_eq!(found(t().with(|p| p.w = 3)), m3);

        // By M-104 m4 and m5 are so on the rim, and as before in an inner box.
        for kind in [1, 2] {
            let rim = t().with(|p| p.kind = kind);
            assert_eq!(routed(rim, 10), answer(15, 0, 10, 0));
        }
        let inside = |kind| t_inside().with(|p| p.kind = kind);
        let m4 = (answer(0, 2, 5, 0), vec![0, 0, 1, 1, 1, 0]);
        let m5 = (answer(0, 2, 5, 0), vec![0, 0, 1, 0, 1, 1]);
        assert_eq!([found(inside(2)), found(inside(1))], [m4, m5]);

        let [_, m6, _] = answers(&sheet(t()), &[]);
        assert_eq!(m6.0, answer(0, 3, 16, 0));
        assert_eq!(m6.1[..7], [0, 0, 1, 1, 2, 2, 77]);
        let m7 = plan(2, &[(1, &[0]), (2, &[1]), (3, &[0, 1])]);
        let [.., m7] = answers(&sheet(m7), &[0, 1, 255, 255]);
        assert_eq!((m7.0, &m7.1[..4]), (answer(0, 2, 10, 1), &[0, 0, 1, 1][..]));
        assert_eq!(routed(plan(2, &[]), 0), answer(0, 2, 0, 0), "m8");
        let m8 = least(&sheet(plan(2, &[])), &[], 0, &mut []);
        assert_eq!(m8, answer(0, 1, 0, 0));
        let m9 = plan(2, &[(1, &[0]), (2, &[0]), (3, &[0])]);
        assert_eq!(routed(m9, 0), answer(15, 0, 0, 0));
        let m10 = check(&sheet(inside(2)), &[], &[0, 0, 1, 0, 1, 1]);
        assert_eq!(m10, 12);
        let m11 = t().with(|p| p.nets[1].1[1].1 = 1);
        assert_eq!(number(&sheet(m11)), 8);
        assert_eq!(check(&sheet(t()), &[], &[0; 5]), 10, "m12");
        let printed = "answer 0 width 3 trials 16\n1 0.0 1.0\n2 1.1 5.1\n3 0.2 5.2\n";
        assert_eq!(least_lines(&sheet(t())), printed);
    }
}

// ---- Refusals

#[test]
fn number_1() {
    for form in BOTH {
        let empty = plan(1, &[]).bytes(form);
        assert_eq!((empty.len(), number(&empty)), (12, 0));
        assert_eq!(number(&empty[1..]), 1);
        // From 13 bytes on this sheet's directory is not where it is said to be.
        for length in [13, 8_588, 8_589, 8_600, 8_601, 8_716, 8_717, 8_728] {
            assert_eq!(number(&padded(form, length)), 5, "{length}");
        }
        assert_eq!(number(&padded(form, 8_729)), 1);
        assert_eq!(number(&padded(form, 60_000)), 1);
    }
    assert_eq!([number(&[]), number(&[0; 11]), number(&[0; 12])], [1, 1, 2]);
    assert_eq!([number(&[0; 8_728]), number(&[0; 8_729])], [2, 1]);
    assert_eq!(LONGEST, 8_728);
}

#[test]
fn number_2() {
    let wrong = [
        [0x57, 0x47],
        [0x57, 0x4A],
        [0x57, 0],
        [0x56, 0x49],
        [0x58, 0x49],
        [0x49, 0x57],
        [0x48, 0x57],
        [0x49, 0x48],
        [0, 0x49],
    ];
    for bytes in t().both() {
        for mark in wrong {
            assert_eq!(
                number(&field(&bytes, 2, u16::from_le_bytes(mark).into())),
                2
            );
        }
        for length in [0, bytes.len() - 1, bytes.len() + 1, bytes.len() + 6] {
            assert_eq!(number(&field(&bytes, 4, length)), 2);
        }
    }
    // The length field of the twin.
    let [old, new] = t().both();
    assert_eq!(number(&field(&old, 4, new.len())), 2);
    assert_eq!(number(&field(&new, 4, old.len())), 2);
}

#[test]
fn numbers_3_and_4() {
    for form in BOTH {
        let changed = |change: fn(&mut Plan)| number(&t().with(change).bytes(form));
        assert_eq!(changed(|p| p.chip.0 = 1), 3);
        assert_eq!(changed(|p| p.chip.0 = 17), 3);
        assert_eq!(changed(|p| p.chip.1 = 1), 3);
        assert_eq!(changed(|p| p.chip.1 = 17), 3);
        assert_eq!(changed(|p| p.kind = 4), 3);
        assert_eq!(changed(|p| p.w = 0), 3);
        assert_eq!(changed(|p| p.w = 33), 3);
        assert_eq!(changed(|p| p.w = 32), 0);
        let single: Vec<Net> = (0..65).map(|n| (n, vec![(0, ROOT)])).collect();
        let many = |count: usize| plan(1, &[]).with(|p| p.nets = single[..count].to_vec());
        assert_eq!(number(&many(65).bytes(form)), 4);
        assert_eq!(number(&many(64).bytes(form)), 0);
    }
}

#[test]
fn number_5() {
    for form in BOTH {
        let bytes = t().bytes(form);
        let directory = 3 * (form.1 + 2 + 8);
        for wrong in [directory - 2, directory + 2, directory - 6, 0] {
            assert_eq!(number(&field(&bytes, 6, wrong)), 5);
        }
        for place in 0..3 {
            let mut moved = bytes.clone();
            put(&mut moved, directory + 2 * place, place * (form.1 + 10) + 2);
            assert_eq!(number(&moved), 5);
        }
        for n in [0, 1, 3, 33, 65_535] {
            let mut counted = bytes.clone();
            put(&mut counted, form.1, n);
            assert_eq!(number(&counted), 5, "{n} entries");
        }
        let entries = largest().nets.remove(0).1;
        let of = |entries: &[(u16, u16)]| {
            let one = largest().with(|p| p.nets = vec![(1, entries.to_vec())]);
            number(&one.bytes(form))
        };
        assert_eq!(of(&entries), 0);
        assert_eq!(of(&[&entries[..], &[(272, 31)]].concat()), 5);
        assert_eq!(of(&[]), 5);
        // Kind 3 without its rows, and rows without kind 3.
        assert_eq!(number(&t().with(|p| p.kind = 3).bytes(form)), 5);
        let rows = with_rows(t()).with(|p| p.kind = 0);
        assert_eq!(number(&rows.bytes(form)), 5);
        // One record more or fewer in the count.
        assert_eq!(number(&field(&bytes, 8, 2)), 5);
        assert_eq!(number(&field(&bytes, 8, 4)), 5);
    }
}

/// Records of the one mark under the other.
#[test]
fn mark_of_the_twin() {
    let [old, new] = t().both();
    assert_eq!(number(&field(&old, 2, 0x4957)), 5);
    assert_eq!(number(&field(&new, 2, 0x4857)), 5);
    // High half 2 stands where the old mark has its count of 2.
    let tall = t().numbered(&[131_073, 131_074, 131_075]).bytes(NEW);
    assert_eq!(number(&tall), 0);
    assert_eq!(number(&field(&tall, 2, 0x4857)), 5);
    // Without records the marks differ in nothing.
    let [old, new] = plan(1, &[]).both();
    assert_eq!(field(&old, 2, 0x4957), new);
}

/// Bad rows, 18, stand between 5 and 6.
#[test]
fn number_18() {
    for form in BOTH {
        let good = with_rows(t());
        assert_eq!(number(&good.bytes(form)), 0);
        for column in 0..6 {
            for (at, bad) in [(0, 2), (0, 255), (1, 32), (1, 223)] {
                let bad = good.clone().with(|p| p.rows[2 * column + at] = bad);
                assert_eq!(number(&bad.bytes(form)), 18);
                let with_6 = bad.clone().with(|p| p.nets[0].1[0].0 = 7);
                assert_eq!(number(&with_6.bytes(form)), 18);
                let mut with_5 = bad.bytes(form);
                put(&mut with_5, form.1, 0);
                assert_eq!(number(&with_5), 5);
            }
        }
    }
}

#[test]
fn numbers_6_to_9() {
    for form in BOTH {
        let changed = |change: fn(&mut Plan)| number(&t().with(change).bytes(form));
        assert_eq!(changed(|p| p.nets[2].1[1].0 = 7), 6);
        assert_eq!(changed(|p| p.nets[2].1[1].0 = 65_535), 6);
        assert_eq!(changed(|p| p.nets[2].1[1].0 = 6), 8, "it meets no parent");
        assert_eq!(changed(|p| p.nets[2].1[1].0 = 0), 7);
        assert_eq!(changed(|p| p.nets[0].1[0].1 = 0), 8);
        assert_eq!(changed(|p| p.nets[0].1[0].1 = 65_534), 8);
        assert_eq!(changed(|p| p.nets[0].1[1].1 = 1), 8);
        assert_eq!(changed(|p| p.nets[0].1[1].1 = 65_535), 8);
        assert_eq!(changed(|p| p.nets[2].0 = 1), 9);
        // Each test is over the whole sheet, and the lowest number is given.
        assert_eq!(changed(|p| (p.nets[0].1[1].1, p.nets[2].0) = (1, 1)), 8);
        assert_eq!(
            changed(|p| (p.nets[0].1[1].1, p.nets[2].1[1].0) = (1, 0)),
            7
        );
        assert_eq!(
            changed(|p| (p.nets[0].1[1].0, p.nets[2].1[1].0) = (0, 7)),
            6
        );
    }
}

/// 9 compares whole numbers.
#[test]
fn whole_numbers_are_compared() {
    for one in NUMBERS {
        for other in NUMBERS {
            let bytes = t().numbered(&[one, 5, other]).bytes(NEW);
            let told = if one == other { 9 } else { 0 };
            assert_eq!(number(&bytes), told, "{one} and {other}");
        }
    }
    let bytes = t().numbered(&[65_535, 0, 65_535]).bytes(OLD);
    assert_eq!(number(&bytes), 9);
}

// ---- The largest sheets

#[test]
fn largest_sheets() {
    let high = (0..64).map(|n| n * 65_536 + 1).collect::<Vec<u32>>();
    let sizes = [
        (largest(), [8_588, 8_716]),
        (with_rows(largest()), [8_600, 8_728]),
    ];
    for (plan, sizes) in sizes {
        let told = Counts {
            number: 0,
            nets: 64,
            entries: 2_048,
        };
        let [old, new] = plan.both();
        assert_eq!([old.len(), new.len()], sizes);
        assert_eq!([read(&old), read(&new)], [told; 2]);
        assert_eq!(widened(&old), Some(new));

        let new = plan.numbered(&high).bytes(NEW);
        assert_eq!(read(&new), told, "equal low halves");
        let last = Part {
            offset: 63 * 134,
            length: 134,
        };
        assert_eq!(record(&new, 63), last);
        // 64 nets in a channel of 32 tracks.
        let answer = route(&new, &[], 1, &mut [0; 2_048]);
        assert_eq!((answer.number, answer.trials), (15, 0));
        assert_eq!(form(&form(&new)), form(&new));
    }
}

// ---- Where the long number counts

#[test]
fn printed_numbers() {
    let numbers = [0, 65_535, 65_536, 4_294_967_295];
    let four = plan(4, &[(0, &[0]), (0, &[1]), (0, &[2]), (0, &[3])]);
    let lines = least_lines(&four.numbered(&numbers).bytes(NEW));
    let told = "answer 0 width 1 trials 4\n0 0.0\n65535 1.0\n65536 2.0\n4294967295 3.0\n";
    assert_eq!(lines, told);
}

/// The three nets of T want a track each, so that with W 3 a net's track is the
/// number of lower nets: trials 1 + 2 + 3.
#[test]
fn nets_rise_by_long_numbers() {
    for one in NUMBERS {
        for two in NUMBERS {
            for three in NUMBERS {
                let numbers = [one, two, three];
                let bytes = t().with(|p| p.w = 3).numbered(&numbers).bytes(NEW);
                if number(&bytes) == 9 {
                    continue;
                }
                let rank = |n: u32| numbers.iter().filter(|m| **m < n).count() as u8;
                let tracks = numbers.map(rank);
                let told: Vec<u8> = tracks.into_iter().flat_map(|t| [t, t]).collect();
                assert_eq!(ticket_at(&bytes), (answer(0, 3, 6, 0), told));
                let [a, b, c] = tracks;
                let lines = format!(
                    "answer 0 width 3 trials 16\n{one} 0.{a} 1.{a}\n{two} 1.{b} 5.{b}\n{three} 0.{c} 5.{c}\n"
                );
                assert_eq!(least_lines(&bytes), lines);
            }
        }
    }
}

#[test]
fn refit_rises_by_long_numbers() {
    let m7 = plan(2, &[(0, &[0]), (0, &[1]), (0, &[0, 1])]);
    for numbers in [[65_535, 65_536, 4_294_967_295], [1, 65_537, 131_072]] {
        let bytes = m7.clone().numbered(&numbers).bytes(NEW);
        let [.., (told, out)] = answers(&bytes, &[0, 1, 255, 255]);
        assert_eq!((told, &out[..4]), (answer(0, 2, 10, 1), &[0, 0, 1, 1][..]));
    }
}

/// M-100 takes out the net with just this number, else 17.
#[test]
fn taking_out_by_long_number() {
    let ticket = [0, 0, 1, 1, 2, 2];
    let out_of = |bytes: &[u8], net: u32| {
        let mut out = [77; 7];
        (remove(bytes, &ticket, net, &mut out), out)
    };
    let nets = t().with(|p| p.w = 3);
    for three in NUMBERS.windows(3) {
        let bytes = nets.clone().numbered(three).bytes(NEW);
        for asked in NUMBERS {
            let told = match three.iter().position(|n| *n == asked) {
                Some(0) => (0, [255, 255, 1, 1, 2, 2, 77]),
                Some(1) => (0, [0, 0, 255, 255, 2, 2, 77]),
                Some(_) => (0, [0, 0, 1, 1, 255, 255, 77]),
                None => (17, [77; 7]),
            };
            assert_eq!(out_of(&bytes, asked), told, "{asked} of {three:?}");
        }
    }
    let short = nets.numbered(&[0, 1, 65_535]).bytes(OLD);
    let asked = [1, 65_535, 65_536, 65_537, 131_071, 4_294_967_295];
    let told = asked.map(|net| out_of(&short, net).0);
    assert_eq!(told, [0, 0, 17, 17, 17, 17]);
}

// ---- The standard form

#[test]
fn form_by_long_numbers() {
    let first = [(1, ROOT), (0, 0), (2, 0)];
    let joined = Plan {
        chip: (4, 4),
        kind: 2,
        w: 5,
        rows: Vec::new(),
        nets: NUMBERS.map(|number| (number, first.to_vec())).to_vec(),
    };
    // From the home 0, then 1 and from there 2.
    let told = joined.clone().with(|p| {
        for net in &mut p.nets {
            net.1 = vec![(0, ROOT), (1, 0), (2, 1)];
        }
    });
    let (joined, told) = (with_rows(joined), with_rows(told));
    let mut stirred = Random(7);
    for _ in 0..50 {
        let mixed = joined.clone().with(|p| stirred.shuffle(&mut p.nets));
        assert_eq!(form(&mixed.bytes(NEW)), told.bytes(NEW));
    }
}

#[test]
fn form_keeps_the_mark_and_its_room() {
    let mixed = t().with(|p| p.nets.reverse());
    for (mixed, told) in mixed.both().iter().zip(t().both()) {
        assert_eq!(form(mixed), told);
        let mut short = vec![77; mixed.len() - 1];
        assert_eq!(standard(mixed, &mut short), 14);
        assert!(short.iter().all(|byte| *byte == 77));
        assert_eq!(standard(mixed, &mut vec![0; mixed.len()]), 0);
    }
    // The old sheet's room is not enough for the new one.
    let [old, new] = mixed.both();
    assert_eq!(standard(&new, &mut vec![0; old.len()]), 14);
}

// ---- Twins

#[test]
fn no_twin() {
    let [old, new] = t().both();
    assert!(widened(&old).is_some());
    assert_eq!(widened(&new), None);
    assert_eq!(widened(&field(&old, 4, 0)), None);
    assert_eq!(widened(&t().numbered(&[1, 1]).bytes(OLD)), None);
    assert_eq!(widened(&[]), None);
    let [old, new] = with_rows(plan(32, &[])).both();
    assert_eq!(widened(&old), Some(new));
}

#[test]
fn twins_are_relistings() {
    let sheets = |plan: Plan| plan.both().map(|bytes| parse(&bytes).expect("accepted"));
    let [old, new] = sheets(t());
    let [mixed_old, mixed_new] = sheets(t().with(|p| p.nets.reverse()));
    let like = [&old, &new, &mixed_old, &mixed_new];
    for one in like {
        assert!(like.iter().all(|other| are_relistings(one, other)));
    }
    // Net 65,537 is not net 1, though its low half is.
    let tall = parse(&t().numbered(&[65_537]).bytes(NEW)).expect("accepted");
    assert!(are_relistings(&tall, &tall));
    for other in like {
        assert!(!are_relistings(&tall, other) && !are_relistings(other, &tall));
    }
}

/// Small numbers from a seed.
struct Random(u64);

impl Random {
    fn below(&mut self, limit: usize) -> usize {
        self.0 = self.0.wrapping_mul(6_364_136_223_846_793_005);
        self.0 = self.0.wrapping_add(1_442_695_040_888_963_407);
        (self.0 >> 33) as usize % limit
    }

    fn shuffle<T>(&mut self, all: &mut [T]) {
        for place in (1..all.len()).rev() {
            all.swap(place, self.below(place + 1));
        }
    }

    /// A tree of up to four channels, each joined to an earlier one it meets.
    fn tree(&mut self, chip: Chip) -> Vec<(u16, u16)> {
        let count = chip.channel_count() as usize;
        let mut entries = vec![(self.below(count) as u16, ROOT)];
        for _ in 0..self.below(8) {
            let (channel, parent) = (self.below(count) as u16, self.below(entries.len()));
            let meets = chip.meeting(channel.into(), entries[parent].0.into());
            let new = entries.iter().all(|entry| entry.0 != channel);
            if meets.is_some() && new && entries.len() < 4 {
                entries.push((channel, parent as u16));
            }
        }
        entries
    }

    /// A sheet of up to four nets with numbers of 16 bits.
    fn plan(&mut self) -> Plan {
        let (columns, rows) = (2 + self.below(3), 2 + self.below(3));
        let chip = Chip {
            columns: columns as u32,
            rows: rows as u32,
        };
        let kind = self.below(4) as u8;
        let base = plan(1 + self.below(3) as u8, &[]);
        let made = if kind == 3 { with_rows(base) } else { base };
        let numbers = [0, 1, 255, 256, 32_767, 32_768, 65_534, 65_535];
        let net = |random: &mut Self| (numbers[random.below(8)], random.tree(chip));
        made.with(|p| {
            p.kind = kind;
            p.chip = (columns as u8, rows as u8);
            p.nets = (0..self.below(5)).map(|_| net(self)).collect();
        })
    }

    /// One thing wrong, or nothing.
    fn spoil(&mut self, plan: &mut Plan) {
        let net = self.below(plan.nets.len().max(1));
        let Some((_, entries)) = plan.nets.get_mut(net) else {
            return;
        };
        let place = self.below(entries.len());
        match self.below(8) {
            0 => entries[place].0 = self.below(30) as u16,
            1 => entries[place].1 = self.below(4) as u16,
            2 => entries.clear(),
            3 => plan.w = 33,
            4 => plan.rows.truncate(11),
            5 if plan.kind == 3 => plan.rows[7] = 100,
            _ => {}
        }
    }
}

/// Each refusal is the same under both marks, and so is all that calls answer but
/// Record's parts and the standard form.
#[test]
fn twins_answer_alike() {
    let mut random = Random(106);
    let mut seen = std::collections::BTreeSet::new();
    for _ in 0..3_000 {
        let mut plan = random.plan();
        random.spoil(&mut plan);
        let [old, new] = plan.both();
        assert_eq!(read(&old), read(&new), "{plan:?}");
        seen.insert(number(&old));
        if number(&old) != 0 {
            assert_eq!(widened(&old), None);
            continue;
        }
        assert_eq!(widened(&old).as_ref(), Some(&new), "{plan:?}");
        assert_eq!(widened(&form(&old)), Some(form(&new)));
        for place in 0..=plan.nets.len() {
            let (short, long) = (record(&old, place), record(&new, place));
            let told = match short.length {
                0 => Part::default(),
                length => Part {
                    offset: short.offset + 2 * place,
                    length: length + 2,
                },
            };
            assert_eq!(long, told);
        }
        let entries = read(&old).entries as usize;
        let byte = |random: &mut Random| [0, 1, 2, 255][random.below(4)];
        let ticket: Vec<u8> = (0..entries).map(|_| byte(&mut random)).collect();
        for tracks in [vec![255; entries], ticket] {
            assert_eq!(answers(&old, &tracks), answers(&new, &tracks));
            assert_eq!(check(&old, &[], &tracks), check(&new, &[], &tracks));
            for asked in [0, 255, 32_768, 65_535, 65_536, 98_304] {
                let out = |bytes: &[u8]| {
                    let mut out = vec![77; entries];
                    (remove(bytes, &tracks, asked, &mut out), out)
                };
                assert_eq!(out(&old), out(&new));
            }
        }
        assert_eq!(least_lines(&old), least_lines(&new));
    }
    assert!(seen.into_iter().eq([0, 3, 5, 6, 7, 8, 9, 18]));
}

/// Other numbers in the same order change no answer, and the form has them in the
/// same places. Brute force agrees.
#[test]
fn only_the_order_of_numbers_counts() {
    let mut random = Random(49);
    for _ in 0..1_000 {
        let plan = random.plan();
        let count = plan.nets.len();
        let mut ranks: Vec<usize> = (0..count).collect();
        random.shuffle(&mut ranks);
        let mut drawn = NUMBERS;
        random.shuffle(&mut drawn);
        drawn[..count].sort_unstable();
        let small: Vec<u32> = ranks.iter().map(|rank| *rank as u32).collect();
        let tall: Vec<u32> = ranks.iter().map(|rank| drawn[*rank]).collect();
        let low = plan.clone().numbered(&small).bytes(NEW);
        let high = plan.clone().numbered(&tall).bytes(NEW);
        let unplaced = vec![255; read(&low).entries as usize];
        let told = answers(&high, &unplaced);
        assert_eq!(answers(&low, &unplaced), told);

        let sheet = parse(&high).expect("accepted");
        if let Some(settled) = brute::route(&sheet, &[]) {
            assert_eq!(settled.answer, told[0].0);
            assert_eq!(settled.ticket, told[0].1[..settled.ticket.len()]);
        }
        let records = brute_standard::records(&sheet).expect("small");
        let numbers: Vec<u32> = records.iter().map(|listed| listed.number).collect();
        assert_eq!(numbers, drawn[..count]);
        let nets = records
            .into_iter()
            .map(|listed| (listed.number, listed.entries));
        let listed = plan.clone().with(|p| p.nets = nets.collect());
        assert_eq!(form(&high), listed.bytes(NEW));
        let relabelled = listed.numbered(&(0..count as u32).collect::<Vec<_>>());
        assert_eq!(form(&low), relabelled.bytes(NEW));
    }
}

// ---- Wrong ways

/// Sheets of the tests above, under both marks.
fn battery() -> Vec<Vec<u8>> {
    let t = || t().with(|p| p.w = 3);
    let mut all = Vec::new();
    for form in BOTH {
        let low = [t(), t_inside(), with_rows(t()), plan(1, &[]), largest()];
        all.extend(low.iter().map(|plan| plan.bytes(form)));
        let rising = |numbers: &[u32]| t().numbered(numbers).bytes(form);
        all.push(rising(&[32_767, 65_535, 32_768]));
        all.push(rising(&[1, 1, 2]));
        let uneven = plan(3, &[(2, &[0]), (1, &[0, 1]), (3, &[1])]);
        all.push(uneven.bytes(form));
        all.extend([8_600, 8_601, 8_728, 8_729].map(|length| padded(form, length)));
        all.push(field(&t().bytes(form), 2, 0x4A57));
    }
    all.push(with_rows(largest()).bytes(NEW));
    for numbers in NUMBERS.windows(3) {
        let reversed: Vec<u32> = numbers.iter().rev().copied().collect();
        all.push(t().numbered(numbers).bytes(NEW));
        all.push(t().numbered(&reversed).bytes(NEW));
    }
    all
}

#[test]
fn wrong_readings_are_told() {
    for (name, wrong) in READS {
        let alike = |bytes: &Vec<u8>| wrong(bytes) == parse(bytes);
        let alike: Vec<bool> = battery().iter().map(alike).collect();
        assert!(alike.contains(&false), "{name} is not told");
        assert!(alike.contains(&true), "{name} is never right");
    }
}

/// What some wrong readings give, so that they are the ones their names say.
#[test]
fn wrong_readings_are_near() {
    let gives = |name: &str, bytes: &[u8]| {
        let found = READS.iter().find(|read| read.0 == name);
        let sheet = found.expect("a reading has this name").1(bytes)?;
        Ok::<Vec<u32>, Word>(sheet.nets.iter().map(|net| net.number).collect())
    };
    let pair = t().numbered(&[1, 65_537, 2]).bytes(NEW);
    assert_eq!(gives("low halves compared", &pair), Err(Word::Name));
    assert_eq!(gives("low half alone", &pair), Err(Word::Name));
    let high = t().numbered(&[1, 65_538, 3]).bytes(NEW);
    assert_eq!(gives("low halves compared", &high), Ok(vec![1, 65_538, 3]));
    assert_eq!(gives("low half alone", &high), Ok(vec![1, 2, 3]));
    let turned = vec![65_536, 131_073, 196_608];
    assert_eq!(gives("high half first", &high), Ok(turned));
    for name in ["count two bytes early", "entries still after 4 bytes"] {
        assert_eq!(gives(name, &high), Err(Word::Directory));
    }
    let [old, new] = t().both();
    assert_eq!(
        gives("short mark's record grown too", &old),
        Err(Word::Directory)
    );
    assert_eq!(
        gives("short mark's record grown too", &new),
        Ok(vec![1, 2, 3])
    );
    let counted = vec![131_073, 131_074, 131_075];
    assert_eq!(
        gives("short number with the count above it", &old),
        Ok(counted)
    );
    let full = with_rows(largest()).bytes(NEW);
    assert_eq!(gives("the old limit", &full), Err(Word::Length));
    assert_eq!(gives("the old mark alone", &new), Err(Word::Mark));
}

#[test]
fn wrong_forms_are_told() {
    let sheets: Vec<_> = battery().iter().filter_map(|b| parse(b).ok()).collect();
    for (name, wrong) in WAYS {
        let alike = |sheet| wrong(sheet) == model::standard::form(sheet);
        assert!(!sheets.iter().all(alike), "{name} is not told");
        assert!(sheets.iter().any(alike), "{name} is never right");
    }
}

#[test]
fn wrong_orders_are_told() {
    let small = |bytes: &Vec<u8>| bytes.len() < 100;
    let bytes: Vec<_> = battery().into_iter().filter(small).collect();
    let sheets: Vec<_> = bytes.iter().filter_map(|b| parse(b).ok()).collect();
    for (name, wrong) in ORDERS {
        let alike = |sheet| {
            let seen = near_marks::under(sheet, wrong);
            brute::route(&seen, &[]) == brute::route(sheet, &[])
        };
        assert!(!sheets.iter().all(alike), "{name} is not told");
        assert!(sheets.iter().any(alike), "{name} is never right");
    }
}

#[test]
fn wrong_names_are_told() {
    let sheets: Vec<_> = battery().iter().filter_map(|b| parse(b).ok()).collect();
    for (name, same) in SAMES {
        let right = |sheet: &Sheet, asked: u32| {
            near_marks::named(sheet, asked, same) == sheet.numbered(asked)
        };
        let alike = |asked: &u32| sheets.iter().all(|sheet| right(sheet, *asked));
        assert!(!NUMBERS.iter().all(alike), "{name} is not told");
    }
}

#[test]
fn wrong_lines_are_told() {
    let numbers = [0, 65_535, 65_536, 4_294_967_295];
    let four = plan(4, &[(0, &[0]), (0, &[1]), (0, &[2]), (0, &[3])]);
    let right = least_lines(&four.numbered(&numbers).bytes(NEW));
    assert_eq!(near_marks::lines(&right, |n| n.to_string()), right);
    for (name, print) in PRINTS {
        assert_ne!(near_marks::lines(&right, print), right, "{name}");
    }
}
