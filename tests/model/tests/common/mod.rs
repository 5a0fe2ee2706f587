//! Asks the model a case, without dead wires.

use sheets::{Answer, Ask, Case, Told};

pub fn ask(sheet: &[u8], ask: &Ask) -> Told {
    match ask {
        Ask::Read => {
            let counts = model::read(sheet);
            Told::Counts {
                number: counts.number,
                nets: counts.nets,
                entries: counts.entries,
            }
        }
        Ask::Record { place } => {
            let part = model::record(sheet, *place);
            Told::Part {
                offset: part.offset,
                length: part.length,
            }
        }
        Ask::Check { ticket } => Told::Number(model::check(sheet, &[], ticket)),
        Ask::Route { budget, room } => answer(*room, |out| model::route(sheet, &[], *budget, out)),
        Ask::Least { budget, room } => answer(*room, |out| model::least(sheet, &[], *budget, out)),
        Ask::Refit { old, budget, room } => {
            answer(*room, |out| model::refit(sheet, &[], old, *budget, out))
        }
        Ask::Remove { ticket, net, room } => {
            let remove = |out: &mut [u8]| model::remove(sheet, ticket, *net, out);
            let (number, written) = called(*room, remove);
            Told::Ticket { number, written }
        }
    }
}

/// Calls with an output of 238s; those that keep this value were not written.
fn called<Given>(room: usize, call: impl FnOnce(&mut [u8]) -> Given) -> (Given, Vec<u8>) {
    const KEPT: u8 = 238;
    let mut out = vec![KEPT; room];
    let got = call(&mut out);
    let written = out.iter().position(|&byte| byte == KEPT).unwrap_or(room);
    assert!(out[written..].iter().all(|&byte| byte == KEPT));
    out.truncate(written);
    (got, out)
}

fn answer(room: usize, call: impl FnOnce(&mut [u8]) -> model::Answer) -> Told {
    let (got, written) = called(room, call);
    Told::Answer {
        answer: Answer {
            number: got.number,
            width: got.width,
            trials: got.trials,
            moved: got.moved,
        },
        written,
    }
}

pub fn hold(cases: &[Case]) {
    for case in cases {
        let told = ask(&case.sheet, &case.ask);
        assert_eq!(told, case.told, "{}: {:?}", case.name, case.ask);
    }
}
