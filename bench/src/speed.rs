//! The speed of Route, three ways.
#![forbid(unsafe_code)]

use crate::sheets::{hard, Sheet};
use crate::tables::{Answer, Tables, ROOM};
use crate::{by_value, clock, in_place, tables};
use trackrouter::Refusal;

type Route = fn(&[u8], u32, &mut [u8]) -> Answer;

const ROUTES: [(&str, Route); 3] = [
    ("library", |sheet, budget, out| {
        tables::answer(trackrouter::route(sheet, &[], budget, out))
    }),
    ("by value", |sheet, budget, out| {
        tables::route(by_value::search, sheet, budget, out)
    }),
    ("in place", |sheet, budget, out| {
        tables::route(in_place::search, sheet, budget, out)
    }),
];

/// A sheet's runs so far.
struct Runs {
    sheet: Sheet,
    /// The answer and the output that all runs give.
    given: Option<(Answer, [u8; ROOM])>,
    /// The least seconds of each route.
    best: [f64; 3],
}

impl Runs {
    fn new(sheet: Sheet) -> Runs {
        Runs {
            sheet,
            given: None,
            best: [f64::INFINITY; 3],
        }
    }

    /// One run of each route; says where they differ. With `wrong`, one of them counts a trial more.
    fn run(&mut self, wrong: bool) -> Result<(), String> {
        let Sheet {
            name,
            budget,
            bytes,
        } = &self.sheet;
        for ((route_name, route), best) in ROUTES.into_iter().zip(&mut self.best) {
            let mut out = [0; ROOM];
            let (mut answer, seconds) = clock::timed(|| route(bytes, *budget, &mut out));
            *best = best.min(seconds);
            if wrong && route_name == "in place" {
                answer = answer.map_err(|refusal| Refusal {
                    trials: refusal.trials + 1,
                    ..refusal
                });
            }
            let given = self.given.get_or_insert((answer, out));
            if answer != given.0 {
                let other = given.0;
                return Err(format!("{name}, {route_name}: {answer:?}, not {other:?}"));
            }
            if out != given.1 {
                return Err(format!("{name}, {route_name}: another output"));
            }
        }
        Ok(())
    }

    /// Prints a line, and gives the library's speed by each of the others'.
    fn print(&self) -> [f64; 2] {
        let tables = Tables::prepare(&self.sheet.bytes);
        let (width, nets, entries) = (tables.width, tables.nets, tables.entries());
        let (answer, _) = self.given.expect("a run");
        let (number, trials) = match answer {
            Ok(routed) => (0, routed.trials),
            Err(refusal) => (refusal.number, refusal.trials),
        };
        assert!(trials > 0, "{}: no trials", self.sheet.name);
        let [library, by_value, in_place] =
            self.best.map(|seconds| f64::from(trials) / seconds / 1e6);
        let ratios = [library / by_value, library / in_place];
        println!(
            "{:28} {width:>2} {nets:>4} {entries:>7} {number:>6} {trials:>9} | \
             {library:>7.1} {by_value:>8.1} {in_place:>8.1} | {:>16.2} {:>16.2}",
            self.sheet.name, ratios[0], ratios[1]
        );
        ratios
    }
}

/// Rounds over all sheets, so that each sheet's runs are spread over the time. Says where the three routes differ.
pub fn report(rounds: usize, wrong: bool) -> Result<(), String> {
    println!("Route, in million trials per second of processor time: the best of {rounds} runs.");
    println!("The output buffer is cleared before each call, outside the timing.");
    println!();
    let mut all: Vec<Runs> = hard().into_iter().map(Runs::new).collect();
    for round in 1..=rounds {
        eprintln!("round {round} of {rounds}");
        all.iter_mut().try_for_each(|runs| runs.run(wrong))?;
    }
    println!(
        "{:28} {:>2} {:>4} {:>7} {:>6} {:>9} | {:>7} {:>8} {:>8} | {:>16} {:>16}",
        "sheet",
        "W",
        "nets",
        "entries",
        "number",
        "trials",
        "library",
        "by value",
        "in place",
        "library/by value",
        "library/in place"
    );
    let mut logs = [0.0; 2];
    for runs in &all {
        for (log, ratio) in logs.iter_mut().zip(runs.print()) {
            *log += ratio.ln();
        }
    }
    let [by_value, in_place] = logs.map(|log| (log / all.len() as f64).exp());
    println!("geometric means: library/by value {by_value:.2}, library/in place {in_place:.2}");
    Ok(())
}
