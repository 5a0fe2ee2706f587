//! The speed of the standard form, two ways.
#![forbid(unsafe_code)]

use crate::sheets::largest;
use crate::{clock, standard};
use std::hint::black_box;
use trackrouter::{Refusal, MAX_SHEET};

type Form = for<'a> fn(&[u8], &'a mut [u8]) -> Result<&'a [u8], Refusal>;

const FORMS: [(&str, Form); 2] = [
    ("library", trackrouter::standard),
    ("plain Rust", standard::standard),
];

/// The turns of each way in a round, and the calls in a turn.
const TURNS: usize = 10;
const CALLS: usize = 200;

struct Case {
    sheet: Vec<u8>,
    /// The form that all calls give.
    form: Vec<u8>,
}

impl Case {
    fn new(sheet: Vec<u8>) -> Case {
        let mut out = [0; MAX_SHEET];
        let form = trackrouter::standard(&sheet, &mut out).expect("a good sheet");
        assert!(form != sheet, "a sheet in standard form");
        let form = form.to_vec();
        Case { sheet, form }
    }

    /// The seconds of a call; says where its form differs. With `wrong`, a byte of the form is another.
    fn run(&self, form: Form, wrong: bool) -> Result<f64, String> {
        let mut out = [0; MAX_SHEET];
        let form = black_box(form);
        let (given, seconds) = clock::timed(|| form(&self.sheet, &mut out).map(<[u8]>::len));
        let length = given.map_err(|refusal| refusal.to_string())?;
        if wrong {
            out[length / 2] ^= 1;
        }
        let mut pairs = out[..length].iter().zip(&self.form);
        match pairs.position(|(byte, other)| byte != other) {
            Some(at) => Err(format!("byte {at} is {}, not {}", out[at], self.form[at])),
            None if length != self.form.len() => Err(format!("{length} bytes")),
            None => Ok(seconds),
        }
    }
}

/// The seconds of a call, over one turn.
fn turn(cases: &[Case], form: Form, wrong: bool) -> Result<f64, String> {
    let calls = cases.iter().cycle().take(CALLS);
    let seconds: Result<f64, String> = calls.map(|case| case.run(form, wrong)).sum();
    Ok(seconds? / CALLS as f64)
}

/// The two take turns. Says where they differ; with `wrong`, plain Rust has a wrong byte.
pub fn report(rounds: usize, wrong: bool) -> Result<(), String> {
    let cases = largest().map(Case::new);
    let turns = rounds * TURNS;
    let mut best = [f64::INFINITY; 2];
    for _ in 0..turns {
        for ((name, form), best) in FORMS.into_iter().zip(&mut best) {
            let wrong = wrong && name == "plain Rust";
            let seconds = turn(&cases, form, wrong);
            let seconds = seconds.map_err(|what| format!("Standard, {name}: {what}"))?;
            *best = best.min(seconds);
        }
    }
    let [library, plain] = best.map(|seconds| 1e9 * seconds);
    let ratio = plain / library;
    println!(
        "Standard, in nanoseconds of processor time: the best of {turns} turns of {CALLS} calls."
    );
    println!("The output buffer is cleared before each call, outside the timing.");
    println!();
    println!("64 nets of 32 entries: library {library:.0}, plain Rust {plain:.0}");
    println!("speed, library/plain Rust: {ratio:.2}");
    Ok(())
}
