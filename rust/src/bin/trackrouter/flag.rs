//! The options of the verbs.

/// An option as a verb has it.
pub struct Flag {
    pub name: &'static str,
    /// What its value is called; empty if it has none.
    pub value: &'static str,
    pub help: &'static str,
    pub set: Set,
}

/// What an option sets.
#[derive(Clone, Copy)]
pub enum Set {
    Bytes,
    Text,
    TicketBytes,
    TicketText,
    Dead,
    DeadBytes,
    DeadText,
    Budget,
    Out,
    Old,
    Help,
}

pub const SHEET_FORMS: [Flag; 2] = [
    Flag {
        name: "--bytes",
        value: "",
        help: "the sheet is in bytes, whatever it holds",
        set: Set::Bytes,
    },
    Flag {
        name: "--text",
        value: "",
        help: "the sheet is text, whatever it holds",
        set: Set::Text,
    },
];

pub const TICKET_FORMS: [Flag; 2] = [
    Flag {
        name: "--ticket-bytes",
        value: "",
        help: "the ticket is in bytes, whatever it holds",
        set: Set::TicketBytes,
    },
    Flag {
        name: "--ticket-text",
        value: "",
        help: "the ticket is in lines, whatever it holds",
        set: Set::TicketText,
    },
];

pub const DEAD: Flag = Flag {
    name: "--dead",
    value: "FILE",
    help: "the list of dead wires (none if not given)",
    set: Set::Dead,
};

pub const DEAD_INSTEAD: Flag = Flag {
    help: "write this list of dead wires, and not the sheet",
    ..DEAD
};

pub const DEAD_FORMS: [Flag; 2] = [
    Flag {
        name: "--dead-bytes",
        value: "",
        help: "the list is in bytes, whatever it holds",
        set: Set::DeadBytes,
    },
    Flag {
        name: "--dead-text",
        value: "",
        help: "the list is text, whatever it holds",
        set: Set::DeadText,
    },
];

pub const BUDGET: Flag = Flag {
    name: "--budget",
    value: "NUMBER",
    help: "the most trials, 0 to 4294967295 (1000000 if not given)",
    set: Set::Budget,
};

pub const OUT_BESIDES: Flag = Flag {
    name: "--out",
    value: "FILE",
    help: "on success write the ticket's bytes to FILE besides",
    set: Set::Out,
};

pub const SHEET_OUT_BESIDES: Flag = Flag {
    help: "on success write the standard form's bytes to FILE besides",
    ..OUT_BESIDES
};

pub const OUT_INSTEAD: Flag = Flag {
    name: "--out",
    value: "FILE",
    help: "write to FILE instead of standard output",
    set: Set::Out,
};

pub const OLD: Flag = Flag {
    name: "--old",
    value: "",
    help: "judge the ticket as Refit and, without --dead, Remove do: nets may be unplaced",
    set: Set::Old,
};

pub const HELP: Flag = Flag {
    name: "--help",
    value: "",
    help: "print this",
    set: Set::Help,
};
