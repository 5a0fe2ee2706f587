//! Relistings in pairs: what demand 3 compares. A standard form is a relisting of
//! its sheet.

use crate::battery::{bound, Kind};
use crate::call::Call;
use crate::coverage::{dead, marks, rims, rows, standards};
use crate::failure::{describe, Failure};
use crate::judge::Judge;
use crate::listing::Listing;
use crate::outcome::Outcome;
use crate::{olds, removing};
use model::sheet::{parse, Sheet};
use sheets::dead::shuffled;
use sheets::{random, Answer, Ask, Design, Mark, Rng};

/// A chance design in two listings, under one mark or, with short numbers, under both.
pub fn pair(judge: &mut Judge, rng: &mut Rng) -> Result<(), Failure> {
    let design = if rng.chance(1, 2) {
        random::any(rng)
    } else {
        random::crowded(rng)
    };
    if design.is_short() && rng.chance(2, 3) {
        return of_both_marks(judge, &design, &[], rng);
    }
    let one = Listing::new(design.relist(rng));
    let other = Listing::new(design.relist(rng));
    answered_alike(judge, rng, [&one, &other])
}

/// A design of short numbers in two listings, one under each mark: they are relistings
/// too (02 M-106), under the same list.
pub fn of_both_marks(
    judge: &mut Judge,
    design: &Design,
    dead: &[u8],
    rng: &mut Rng,
) -> Result<(), Failure> {
    let mut listed = |mark| {
        let design = design.clone().with_mark(mark);
        Listing::new(design.relist(rng)).under(&shuffled(dead, rng))
    };
    let [short, long] = [Mark::Short, Mark::Long].map(&mut listed);
    match rng.chance(1, 2) {
        true => answered_alike(judge, rng, [&short, &long]),
        false => answered_alike(judge, rng, [&long, &short]),
    }
}

/// Two listings through all calls that write a ticket or check one.
pub fn answered_alike(
    judge: &mut Judge,
    rng: &mut Rng,
    listings: [&Listing; 2],
) -> Result<(), Failure> {
    let [one, other] = listings;
    let routed = both(judge, rng, listings.map(|listing| (listing, Kind::Route)))?;
    both(judge, rng, listings.map(|listing| (listing, Kind::Least)))?;

    let sheet = parse(&one.bytes).expect("a good sheet");
    let mut altered = olds::placed_by_chance(&sheet, &one.dead, rng);
    olds::alter(&mut altered, &sheet, rng);
    let olds = [
        olds::placed_by_chance(&sheet, &one.dead, rng),
        olds::placed_to_the_last(&sheet, &one.dead, rng),
        altered,
    ];
    for old in &olds {
        let old_other = one.carried(old, other);
        let kinds = [Kind::Refit(old), Kind::Refit(&old_other)];
        both(judge, rng, [(one, kinds[0]), (other, kinds[1])])?;
        let tickets = [(one, &old[..]), (other, &old_other[..])];
        removed(judge, rng, &sheet, tickets)?;
    }
    let full = match routed.answer() {
        (answer, ticket) if answer.number == 0 => ticket.to_vec(),
        _ => olds::all_first(&sheet),
    };
    checked(judge, rng, &sheet, listings, full)
}

/// Check on a full ticket, then on a wrong one made from it.
fn checked(
    judge: &mut Judge,
    rng: &mut Rng,
    sheet: &Sheet,
    [one, other]: [&Listing; 2],
    mut ticket: Vec<u8>,
) -> Result<(), Failure> {
    for _ in 0..2 {
        let carried = one.carried(&ticket, other);
        let ask = |ticket: &[u8]| Ask::Check {
            ticket: ticket.to_vec(),
        };
        compared(judge, [(one, ask(&ticket)), (other, ask(&carried))])?;
        olds::alter(&mut ticket, sheet, rng);
    }
    Ok(())
}

/// Takes a net out of both, and tries another number.
fn removed(
    judge: &mut Judge,
    rng: &mut Rng,
    sheet: &Sheet,
    tickets: [(&Listing, &[u8]); 2],
) -> Result<(), Failure> {
    for _ in 0..2 {
        let net = removing::number(sheet, rng);
        let asked = tickets.map(|(listing, ticket)| {
            let room = ticket.len() + rng.below(3);
            (listing, removing::ask(ticket, net, room))
        });
        compared(judge, asked)?;
    }
    Ok(())
}

/// Asks both with one budget, then with one near what the run needs: the outcome
/// with the first budget.
fn both(
    judge: &mut Judge,
    rng: &mut Rng,
    asked: [(&Listing, Kind); 2],
) -> Result<Outcome, Failure> {
    let room = asked[0].0.entry_count();
    let outcome = with_budget(judge, asked, bound(rng), room)?;
    let need = outcome.answer().0.trials;
    let near = need.saturating_sub(rng.below(2) as u32);
    with_budget(judge, asked, near, room + rng.below(3))?;
    Ok(outcome)
}

fn with_budget(
    judge: &mut Judge,
    asked: [(&Listing, Kind); 2],
    budget: u32,
    room: usize,
) -> Result<Outcome, Failure> {
    let asked = asked.map(|(listing, kind)| (listing, kind.ask(budget, room)));
    compared(judge, asked)
}

/// Asks both and compares what they give: the outcome of the first.
fn compared(judge: &mut Judge, asked: [(&Listing, Ask); 2]) -> Result<Outcome, Failure> {
    let [(one, ask), (other, ask_other)] = asked;
    let before = judge.output_before(&ask);
    let outcome = judge.compare(one.board(), &ask, &before)?;
    let before_other = judge.output_before(&ask_other);
    let mut outcome_other = judge.compare(other.board(), &ask_other, &before_other)?;
    if let Some(wrong) = judge.wrong() {
        if other.is_form {
            wrong.spoil_form(&mut outcome_other);
        }
        if one.mark() != other.mark() {
            wrong.spoil_relisted(&mut outcome_other);
        }
    }
    if alike(one, &outcome, other, &outcome_other) {
        if outcome.number() == Some(0) {
            note(judge, [one, other], &ask);
        }
        return Ok(outcome);
    }
    let call = describe(one.board(), &ask, &before);
    let call_other = describe(other.board(), &ask_other, &before_other);
    let failure = Failure::new("two relistings are answered differently", &call);
    Err(failure
        .with("answer", outcome)
        .with("the other listing", call_other)
        .with("answer", outcome_other))
}

/// Notes what two listings show that were answered alike, with success.
fn note(judge: &mut Judge, [one, other]: [&Listing; 2], ask: &Ask) {
    let call = Call::from(ask);
    let under_list = !one.dead.is_empty() && call.takes_list();
    let relisted = !other.is_form && one.bytes != other.bytes;
    let mut see = |listing: &Listing, call, kind| judge.coverage.see(&listing.bytes, call, kind);
    if other.is_form {
        see(one, "standard", standards::answered(ask));
    }
    if under_list && other.is_form {
        see(one, call.name(), dead::FORMED);
    }
    if under_list && relisted && one.dead != other.dead {
        see(one, call.name(), dead::RELISTED);
    }
    let by_rows = rows::has_own_rows(&one.bytes) && rims::turns_inside(&one.bytes);
    if by_rows && one.bytes != other.bytes {
        see(one, call.name(), rows::RELISTED);
    }
    if one.mark() != other.mark() {
        let short = match one.mark() {
            Mark::Short => one,
            Mark::Long => other,
        };
        see(short, call.name(), marks::RELISTED);
        if under_list {
            see(short, call.name(), marks::RELISTED_DEAD);
        }
    }
}

/// Equal number, width, trials and moved, and on success equal tracks.
fn alike(one: &Listing, from_one: &Outcome, other: &Listing, from_other: &Outcome) -> bool {
    let (answer, output) = results(from_one);
    let (answer_other, output_other) = results(from_other);
    let tracks = one.tracks(output);
    let tracks_other = other.tracks(output_other);
    answer == answer_other && (answer.number != 0 || tracks == tracks_other)
}

/// Check and Remove have the number alone, as if all else were 0.
fn results(outcome: &Outcome) -> (Answer, &[u8]) {
    match outcome {
        Outcome::Number(number) => (Answer::refused(*number, 0), &[]),
        Outcome::Written { number, output } => (Answer::refused(*number, 0), output),
        _ => outcome.answer(),
    }
}
