//! The model made wrong at its boxes alone: Check, Remove and Route by a wrong rule
//! for the boxes that run straight (02 M-104).

use super::Wrong;
use crate::board::Board;
use crate::call::Call;
use crate::outcome::Outcome;
use model::dead::Dead;
use model::near_rims::{under, Rule, RULES};
use model::rivals::Rivals;
use model::search::{run, Account, Outcome as Found};
use model::sheet::{parse, Sheet};
use model::word::{refuse_if, Word};
use model::{lay, ticket};
use sheets::{Answer, Ask};

/// The fields and the names of their rules.
const FIELDS: [(&str, &str); 7] = [
    ("straight", "the table everywhere"),
    ("search", "the table everywhere"),
    ("inner", "inner boxes too"),
    ("rows", "kind 3 by its rows everywhere"),
    ("corner", "corners alone"),
    ("end", "from the lower channel alone"),
    ("own", "fewer than four of the net's own"),
];

/// The rule that a field stands for.
fn rule(field: &str) -> Option<Rule> {
    let (_, name) = FIELDS.iter().find(|(known, _)| *known == field)?;
    let found = RULES.iter().find(|(known, _)| known == name);
    Some(found.expect("a rule of this name").1)
}

impl Wrong {
    /// What the rule gives; nothing where `--wrong` names none, where the call looks
    /// at no track, or where the sheet or the list is refused. With `search` only Route is wrong.
    pub fn by_rule(&self, board: Board, call: Call, before: &[u8]) -> Option<Outcome> {
        let rule = rule(&self.field).filter(|_| self.call == "rim")?;
        let sheet = parse(board.sheet).ok()?;
        let dead = Dead::read(sheet.chip, board.dead).ok()?;
        let seen = under(&sheet, rule);
        match call {
            Call::Listed(Ask::Route { budget, .. }) => Some(routed(&seen, &dead, *budget, before)),
            _ if self.field == "search" => None,
            Call::Listed(Ask::Check { ticket }) => {
                let verdict = ticket::right(&seen, &dead, seen.width, ticket);
                Some(Outcome::Number(verdict.map_or_else(Word::number, |()| 0)))
            }
            Call::Listed(Ask::Remove { ticket, net, .. }) => {
                Some(removed(&seen, ticket, *net, before))
            }
            _ => None,
        }
    }
}

fn removed(sheet: &Sheet, ticket: &[u8], net: u32, before: &[u8]) -> Outcome {
    let left = || {
        ticket::right_where_placed(sheet, &Dead::default(), ticket)?;
        let net = sheet.numbered(net).ok_or(Word::Stranger)?;
        refuse_if(before.len() < ticket.len(), Word::Space)?;
        Ok(ticket::without(net, ticket))
    };
    let mut output = before.to_vec();
    let number = match left() {
        Ok(left) => {
            output[..left.len()].copy_from_slice(&left);
            0
        }
        Err(word) => Word::number(word),
    };
    Outcome::Written { number, output }
}

fn routed(sheet: &Sheet, dead: &Dead, budget: u32, before: &[u8]) -> Outcome {
    let (width, entries) = (sheet.width, sheet.entry_count());
    let mut account = Account::new(budget);
    let found = if before.len() < entries {
        Err(Word::Space)
    } else if dead.overloads(sheet, width) {
        Err(Word::Unroutable)
    } else {
        match run(&Rivals::new(sheet, dead, width), None, &mut account) {
            Found::Found(homes) => Ok(homes),
            Found::None => Err(Word::Unroutable),
            Found::Spent => Err(Word::Spent),
        }
    };
    let mut output = before.to_vec();
    let answer = match found {
        Ok(homes) => {
            let mut by_place = vec![0; homes.len()];
            for (place, home) in sheet.rising().into_iter().zip(homes) {
                by_place[place] = home;
            }
            output[..entries].copy_from_slice(&lay::ticket(sheet, width, &by_place));
            Answer {
                number: 0,
                width,
                trials: account.trials(),
                moved: 0,
            }
        }
        Err(word) => Answer::refused(word.number(), account.trials()),
    };
    Outcome::Answer { answer, output }
}

#[cfg(test)]
mod tests {
    use super::*;
    use crate::by_model;
    use sheets::rim;

    /// Where a rule is right, so is what it gives: on boxes that the rules see alike.
    #[test]
    fn right_where_the_rule_is() {
        let wrong = Wrong::parse("rim.rows").expect("a field");
        let mut same = 0;
        for case in rim::calls().iter().chain(&rim::no_inner()) {
            let by_rows = case.sheet[case.sheet.len() - 10] == 3;
            let call = Call::Listed(&case.ask);
            let before = vec![7; call.room().unwrap_or(0)];
            let told = by_model::ask(Board::from(&case.sheet), call, &before);
            let given = wrong.by_rule(Board::from(&case.sheet), call, &before);
            if let (false, Some(given)) = (by_rows, given) {
                assert_eq!(given, told, "{}", case.name);
                same += 1;
            }
        }
        assert!(same > 50, "{same}");
    }

    /// Every rule gives something that the list does not tell, `search` by Route.
    #[test]
    fn wrong_somewhere() {
        for (field, _) in FIELDS {
            let wrong = Wrong::parse(&format!("rim.{field}")).expect("a field");
            let differs = |case: &sheets::Case| {
                let call = Call::Listed(&case.ask);
                let before = vec![7; call.room().unwrap_or(0)];
                let told = Outcome::told(&case.told, &before);
                let given = wrong.by_rule(Board::from(&case.sheet), call, &before);
                given.is_some_and(|given| given != told)
            };
            let names: Vec<&str> = rim::calls()
                .iter()
                .filter(|case| differs(case))
                .map(|case| Call::Listed(&case.ask).name())
                .collect();
            assert!(names.contains(&"route"), "{field}: {names:?}");
            assert_eq!(names.contains(&"check"), field != "search", "{field}");
        }
    }
}
