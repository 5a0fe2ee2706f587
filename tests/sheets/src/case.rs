//! A call with its inputs, and what the paper tells of its outcome.

use crate::mark::Mark;
use crate::numbers::Spread;
use crate::raw::Raw;
use crate::rows;

/// One call's inputs beside the sheet and the list of dead wires. `room` is the
/// output's length.
#[derive(Clone, Debug, Hash)]
pub enum Ask {
    Read,
    Record {
        place: usize,
    },
    Check {
        ticket: Vec<u8>,
    },
    Route {
        budget: u32,
        room: usize,
    },
    Least {
        budget: u32,
        room: usize,
    },
    Refit {
        old: Vec<u8>,
        budget: u32,
        room: usize,
    },
    Remove {
        ticket: Vec<u8>,
        net: u32,
        room: usize,
    },
}

impl Ask {
    /// The output's length; calls that write nothing have no output.
    pub fn room(&self) -> Option<usize> {
        match self {
            Ask::Read | Ask::Record { .. } | Ask::Check { .. } => None,
            Ask::Route { room, .. } | Ask::Least { room, .. } => Some(*room),
            Ask::Refit { room, .. } | Ask::Remove { room, .. } => Some(*room),
        }
    }

    /// Whether the call takes a list of dead wires (02 M-105).
    pub fn takes_list(&self) -> bool {
        match self {
            Ask::Check { .. } | Ask::Route { .. } | Ask::Least { .. } | Ask::Refit { .. } => true,
            Ask::Read | Ask::Record { .. } | Ask::Remove { .. } => false,
        }
    }

    /// The ticket that is lent.
    pub fn ticket(&self) -> Option<&[u8]> {
        match self {
            Ask::Check { ticket } | Ask::Remove { ticket, .. } => Some(ticket),
            Ask::Refit { old, .. } => Some(old),
            _ => None,
        }
    }
}

/// What Route, Least and Refit return.
#[derive(Clone, Copy, Debug, Default, PartialEq, Eq, Hash)]
pub struct Answer {
    pub number: u32,
    pub width: u32,
    pub trials: u32,
    pub moved: u32,
}

impl Answer {
    pub fn refused(number: u32, trials: u32) -> Self {
        Answer {
            number,
            trials,
            ..Answer::default()
        }
    }
}

/// One call's outcome.
#[derive(Clone, Debug, PartialEq, Eq)]
pub enum Told {
    Counts {
        number: u32,
        nets: u32,
        entries: u32,
    },
    Part {
        offset: usize,
        length: usize,
    },
    Number(u32),
    /// The bytes written, none with a refusal.
    Answer {
        answer: Answer,
        written: Vec<u8>,
    },
    /// What Remove gives: the number, and the bytes written.
    Ticket {
        number: u32,
        written: Vec<u8>,
    },
}

impl Told {
    /// What Route, Least or Refit gives on success.
    pub fn found(width: u32, trials: u32, moved: u32, written: &[u8]) -> Self {
        let answer = Answer {
            number: 0,
            width,
            trials,
            moved,
        };
        Told::Answer {
            answer,
            written: written.to_vec(),
        }
    }

    /// The refusal with this number, as the call that was asked gives it.
    pub fn refusal(ask: &Ask, number: u32, trials: u32) -> Self {
        match ask {
            Ask::Read => Told::Counts {
                number,
                nets: 0,
                entries: 0,
            },
            Ask::Record { .. } => Told::Part {
                offset: 0,
                length: 0,
            },
            Ask::Check { .. } => Told::Number(number),
            Ask::Remove { .. } => Told::Ticket {
                number,
                written: Vec::new(),
            },
            _ => Told::Answer {
                answer: Answer::refused(number, trials),
                written: Vec::new(),
            },
        }
    }
}

#[derive(Clone, Debug)]
pub struct Case {
    pub name: String,
    pub sheet: Vec<u8>,
    /// The list of dead wires, for a call that takes one (02 M-105).
    pub dead: Vec<u8>,
    pub ask: Ask,
    pub told: Told,
}

impl Case {
    /// A case with no dead wires.
    pub fn new(name: impl Into<String>, sheet: Vec<u8>, ask: Ask, told: Told) -> Self {
        Case {
            name: name.into(),
            sheet,
            dead: Vec::new(),
            ask,
            told,
        }
    }

    /// A case that is refused with every other result 0.
    pub fn refused(name: impl Into<String>, sheet: Vec<u8>, ask: Ask, number: u32) -> Self {
        let told = Told::refusal(&ask, number, 0);
        Case::new(name, sheet, ask, told)
    }

    /// The case under this list of dead wires.
    pub fn under(mut self, dead: &[u8]) -> Self {
        self.dead = dead.to_vec();
        self
    }

    /// The case with the sheet of kind 3 that has the same boxes (02 M-102); what
    /// is told stays. `None` where there is no such sheet.
    pub fn by_rows(&self) -> Option<Self> {
        let sheet = rows::by_rows(&self.sheet)?;
        let name = format!("{}, by rows", self.name);
        let case = Case::new(name, sheet, self.ask.clone(), self.told.clone());
        Some(case.under(&self.dead))
    }
}

/// The cases that can be asked by rows, asked so.
pub fn by_rows(cases: &[Case]) -> Vec<Case> {
    cases.iter().filter_map(Case::by_rows).collect()
}

impl Case {
    /// The case with the sheet under the second mark, its numbers spread (02 M-106);
    /// what is told stays but for parts. `None` where the sheet is not laid out as one
    /// of the first mark, or is too long then.
    pub fn long(&self, spread: Spread) -> Option<Self> {
        let raw = Raw::read(&self.sheet).filter(|raw| raw.form == Mark::Short)?;
        let raw = raw.spread(spread);
        let nets: Vec<u32> = raw.records.iter().map(|record| record.number).collect();
        let mut ask = self.ask.clone();
        if let Ask::Remove { net, .. } = &mut ask {
            *net = spread.asked(*net, &nets);
        }
        let told = match (&self.ask, &self.told) {
            (Ask::Record { place }, Told::Part { offset, length }) if *length > 0 => Told::Part {
                offset: offset + 2 * place,
                length: length + 2,
            },
            (_, told) => told.clone(),
        };
        let name = format!("{}{}", self.name, Mark::Long.tag());
        let case = Case::new(name, raw.bytes(), ask, told).under(&self.dead);
        // 65 nets may pass the limit of 1.
        (case.sheet.len() <= 8728).then_some(case)
    }
}

/// The cases that can be asked under the second mark, asked so, spread in turn.
pub fn long(cases: &[Case]) -> Vec<Case> {
    let spreads = Spread::FAR.iter().cycle();
    let all = cases.iter().zip(spreads);
    all.filter_map(|(case, spread)| case.long(*spread))
        .collect()
}

#[cfg(test)]
mod tests {
    use super::{Ask, Case, Told};
    use crate::numbers::Spread;
    use crate::paper::{t_raw, T, T_LONG};

    #[test]
    fn cases_under_the_second_mark() {
        let part = |offset, length| Told::Part { offset, length };
        let record = |place, told| Case::new("", T.to_vec(), Ask::Record { place }, told);
        let long = record(2, part(24, 12)).long(Spread::Same).expect("a case");
        assert_eq!((&long.sheet[..], long.told), (&T_LONG[..], part(28, 14)));
        let long = record(3, part(0, 0)).long(Spread::Same).expect("a case");
        assert_eq!(long.told, part(0, 0));
        assert!(long_of(&long).is_none(), "it has the second mark already");
        let mut bad = T.to_vec();
        bad[0x26] = 13;
        let bad = Case::refused("", bad, Ask::Read, 5);
        assert!(long_of(&bad).is_none(), "it is laid out as no sheet is");
    }

    fn long_of(case: &Case) -> Option<Case> {
        case.long(Spread::High)
    }

    #[test]
    fn nets_are_asked_for_by_their_long_numbers() {
        let ask = |net| Ask::Remove {
            ticket: vec![255; 6],
            net,
            room: 6,
        };
        let case = |net| Case::refused("", t_raw(0, 2).bytes(), ask(net), 17);
        let asked = |net| match long_of(&case(net)).expect("a case").ask {
            Ask::Remove { net, .. } => net,
            _ => unreachable!("the call stays"),
        };
        assert_eq!(asked(2), 2 << 16 | 7);
        assert_eq!(asked(65_538), 7, "a half of it alone");
    }
}
