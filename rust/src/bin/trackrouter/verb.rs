//! The verbs: what each reads, prints and accepts.

use crate::flag::{self, Flag, Set};
use crate::options::Options;
use crate::{drawing, explaining, forms, reading, removing, routing, Outcome};

pub struct Verb {
    pub name: &'static str,
    /// What stands behind it, in this order; what is optional stands last.
    pub inputs: &'static [Input],
    /// One line for the list of verbs.
    pub phrase: &'static str,
    /// What it reads and prints.
    pub about: &'static str,
    /// The options beside those for the forms of sheet, ticket and list.
    pub own: &'static [Flag],
    pub run: fn(&Options) -> Outcome,
}

/// An input as a verb has it.
pub struct Input {
    pub role: Role,
    /// What the usage line calls it.
    pub name: &'static str,
    pub optional: bool,
}

/// What an input is to the verb.
#[derive(Clone, Copy, PartialEq, Eq)]
pub enum Role {
    Sheet,
    Ticket,
    /// The list of dead wires, which an option names.
    Dead,
    /// The place of a record.
    Place,
    /// The number of a net.
    Net,
}

impl Role {
    /// Whether it is a file, so that - is standard input.
    pub fn is_file(self) -> bool {
        match self {
            Role::Sheet | Role::Ticket | Role::Dead => true,
            Role::Place | Role::Net => false,
        }
    }
}

const SHEET: Input = Input {
    role: Role::Sheet,
    name: "SHEET",
    optional: false,
};

const TICKET: Input = Input {
    role: Role::Ticket,
    name: "TICKET",
    optional: false,
};

const TICKET_IF_GIVEN: Input = Input {
    optional: true,
    ..TICKET
};

const OLD: Input = Input {
    name: "OLD",
    ..TICKET
};

const PLACE: Input = Input {
    role: Role::Place,
    name: "PLACE",
    optional: false,
};

const NET: Input = Input {
    role: Role::Net,
    name: "NET",
    optional: false,
};

impl Verb {
    /// The inputs as the usage line has them.
    pub fn usage(&self) -> String {
        let shown = |input: &Input| match input.optional {
            true => format!("[{}]", input.name),
            false => input.name.to_string(),
        };
        let names: Vec<String> = self.inputs.iter().map(shown).collect();
        names.join(" ")
    }

    /// Whether it reads such an input, at its place or by an option.
    pub fn reads(&self, role: Role) -> bool {
        match role {
            Role::Dead => self.own.iter().any(|flag| matches!(flag.set, Set::Dead)),
            _ => self.inputs.iter().any(|input| input.role == role),
        }
    }

    /// All its options.
    pub fn flags(&self) -> impl Iterator<Item = &'static Flag> {
        let forms = |role, forms: &'static [Flag]| match self.reads(role) {
            true => forms,
            false => &[],
        };
        let ticket = forms(Role::Ticket, &flag::TICKET_FORMS);
        let dead = forms(Role::Dead, &flag::DEAD_FORMS);
        let forms = flag::SHEET_FORMS.iter().chain(ticket).chain(dead);
        self.own.iter().chain(forms).chain([&flag::HELP])
    }
}

pub fn find(name: &str) -> Option<&'static Verb> {
    VERBS.iter().find(|verb| verb.name == name)
}

pub static VERBS: [Verb; 12] = [
    Verb {
        name: "read",
        inputs: &[SHEET],
        phrase: "whether the sheet is accepted, and its counts",
        about: "Prints `answer N nets N entries E`: whether the sheet is accepted, and its counts.",
        own: &[],
        run: reading::read,
    },
    Verb {
        name: "record",
        inputs: &[SHEET, PLACE],
        phrase: "where a record stands in the sheet's bytes",
        about: "Prints `offset O length L`: where in the sheet's bytes the record at PLACE stands (from 0,\n\
                in the sheet's order), from its net number to its last entry. If the sheet is refused or\n\
                has no such record, both are 0 and the status is 1.",
        own: &[],
        run: reading::record,
    },
    Verb {
        name: "check",
        inputs: &[SHEET, TICKET],
        phrase: "whether the ticket is right for the sheet",
        about: "Prints `answer N`: 0 if the ticket is right for the sheet and has no net on a dead wire. In a\n\
                ticket in lines every net has its line.",
        own: &[flag::DEAD],
        run: reading::check,
    },
    Verb {
        name: "route",
        inputs: &[SHEET],
        phrase: "the first right ticket at the sheet's width",
        about: "Prints `answer N width W trials T` and, on success, the first right ticket at the sheet's\n\
                width in lines: the net number, then channel.track for each entry. No net is on a dead wire.",
        own: &[flag::DEAD, flag::BUDGET, flag::OUT_BESIDES],
        run: routing::route,
    },
    Verb {
        name: "least",
        inputs: &[SHEET],
        phrase: "the least width from 1 to 32, and the first right ticket there",
        about: "Prints `answer N width W trials T` with the least width from 1 to 32 that has a right\n\
                ticket and, on success, the first right ticket there in lines: the net number, then\n\
                channel.track for each entry. No net is on a dead wire.",
        own: &[flag::DEAD, flag::BUDGET, flag::OUT_BESIDES],
        run: routing::least,
    },
    Verb {
        name: "refit",
        inputs: &[SHEET, OLD],
        phrase: "a full ticket from a partly filled one, moving the fewest nets",
        about: "Prints `answer N width W trials T moved M` and, on success, a right ticket in lines that\n\
                moves as few as possible of the nets that OLD, a ticket, has placed. A net is unplaced in\n\
                OLD if all its bytes are 255 or, in lines, if it has the line `NUMBER unplaced` or none.\n\
                No net is on a dead wire. A net that OLD has on one is refused: remove takes it out.",
        own: &[flag::DEAD, flag::BUDGET, flag::OUT_BESIDES],
        run: routing::refit,
    },
    Verb {
        name: "remove",
        inputs: &[SHEET, TICKET, NET],
        phrase: "the ticket with one net taken out, the others as before",
        about: "Prints `answer N` and, on success, TICKET in lines with the net of the number NET taken out,\n\
                all others as before. A net that is unplaced has no line. TICKET may be partly filled, like\n\
                OLD of refit; so is what is printed, and for a sheet without the unplaced nets it is full.\n\
                No wire is dead to it: a net on such a wire is taken out like any other.",
        own: &[flag::OUT_BESIDES],
        run: removing::remove,
    },
    Verb {
        name: "standard",
        inputs: &[SHEET],
        phrase: "the sheet in standard form: the same for the same nets",
        about: "Writes an accepted sheet in standard form, as text: nets in rising number, each from its home\n\
                on. Two sheets of the same mark, chip, kind (with its rows) and width have the same nets,\n\
                channels and joints exactly if these texts, or the bytes in FILE, are equal. The mark is kept,\n\
                comments are not.",
        own: &[flag::SHEET_OUT_BESIDES],
        run: forms::standard,
    },
    Verb {
        name: "pack",
        inputs: &[SHEET, TICKET_IF_GIVEN],
        phrase: "the sheet, the ticket or the list of dead wires in bytes",
        about: "Writes the sheet in bytes, accepted or not; with TICKET, the ticket in bytes: lines are\n\
                matched with the sheet by net number and channel, and every net has its line; with --dead,\n\
                the list in bytes, accepted or not. Bytes are not written to a terminal.",
        own: &[flag::DEAD_INSTEAD, flag::OUT_INSTEAD],
        run: forms::pack,
    },
    Verb {
        name: "unpack",
        inputs: &[SHEET, TICKET_IF_GIVEN],
        phrase: "the sheet or the list of dead wires as text, or the ticket in lines",
        about: "Writes an accepted sheet as text; with TICKET, the ticket in lines, with `NUMBER unplaced`\n\
                for a net whose bytes are all 255; with --dead, the list as text. The ticket need not be right,\n\
                only of its size, and the list only of whole items.",
        own: &[flag::DEAD_INSTEAD, flag::OUT_INSTEAD],
        run: forms::unpack,
    },
    Verb {
        name: "explain",
        inputs: &[SHEET, TICKET_IF_GIVEN],
        phrase: "where the sheet, the list of dead wires or the ticket breaks a rule",
        about: "Prints `answer N` and then where the sheet, with --dead the list, or with TICKET the ticket\n\
                breaks its rule: record, entry, item and byte (each counted from 0), the values, and the rule.",
        own: &[flag::DEAD, flag::OLD],
        run: explaining::explain,
    },
    Verb {
        name: "draw",
        inputs: &[SHEET, TICKET_IF_GIVEN],
        phrase: "a picture of the sheet and the ticket, as SVG",
        about: "Writes a picture of the chip as SVG, with the tracks of the ticket. Nets that are unplaced\n\
                are dashed; without TICKET all are. Dead wires below the width have a stripe and crosses. Nets\n\
                on tracks that are no partners, on dead wires, or that clash are drawn all the same, and the\n\
                status is 1.",
        own: &[flag::DEAD, flag::OUT_INSTEAD],
        run: drawing::draw,
    },
];
