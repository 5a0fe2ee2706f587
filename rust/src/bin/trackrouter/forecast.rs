//! How long a large budget may take, for someone who waits at a terminal.

use crate::print;
use crate::routing::Call;
use std::io::{self, IsTerminal};
use std::time::Instant;
use trackrouter::{number, MAX_ENTRIES};

/// Budgets over this one get a forecast.
const LARGE: u32 = 100_000_000;

/// The budget of the short run that is timed.
const SHORT: u32 = 1_000_000;

/// Says one line before the call if its budget is large and standard error is a terminal.
pub fn tell(call: &Call, sheet: &[u8], dead: &[u8], budget: u32) {
    if budget <= LARGE || !io::stderr().is_terminal() {
        return;
    }
    let mut scratch = [0; MAX_ENTRIES];
    let start = Instant::now();
    let answer = call.run(sheet, dead, SHORT, &mut scratch);
    let seconds = start.elapsed().as_secs_f64();
    match answer {
        Ok(routed) => ends(routed.trials, seconds),
        Err(refusal) if refusal.number == number::UNROUTABLE => ends(refusal.trials, seconds),
        Err(refusal) if refusal.number == number::SPENT => {
            let trial = seconds / f64::from(SHORT);
            let longest = duration(trial * f64::from(budget));
            print::say(&format!(
                "up to {budget} trials: about {longest} at most ({:.1} ns a trial here)",
                trial * 1e9
            ));
        }
        // The call is refused without a trial.
        Err(_) => {}
    }
}

/// The short run is the whole one.
fn ends(trials: u32, seconds: f64) {
    let time = match seconds < 1.0 {
        true => "under a second".to_string(),
        false => format!("about {}", duration(seconds)),
    };
    print::say(&format!("the run takes {trials} trials, {time}"));
}

/// A time in seconds, minutes or hours.
fn duration(seconds: f64) -> String {
    if seconds < 1.0 {
        "1 s".to_string()
    } else if seconds < 100.0 {
        format!("{seconds:.0} s")
    } else if seconds < 6_000.0 {
        format!("{:.0} min", seconds / 60.0)
    } else {
        format!("{:.1} h", seconds / 3_600.0)
    }
}
