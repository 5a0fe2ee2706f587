//! The arguments behind the verb: options and inputs, in any order.

use crate::flag::{Flag, Set};
use crate::verb::{Role, Verb};
use crate::Problem;
use std::ffi::{OsStr, OsString};
use std::fmt::Display;
use std::path::PathBuf;
use std::str::FromStr;

/// How an input is written.
#[derive(Clone, Copy, PartialEq, Eq)]
pub enum Form {
    Bytes,
    Text,
}

/// The options that exclude each other.
const SHEET_FORMS: &str = "--bytes and --text";
const TICKET_FORMS: &str = "--ticket-bytes and --ticket-text";
const DEAD_FORMS: &str = "--dead-bytes and --dead-text";

pub struct Options {
    verb: &'static Verb,
    pub help: bool,
    pub sheet_form: Option<Form>,
    pub ticket_form: Option<Form>,
    pub dead_form: Option<Form>,
    pub budget: Option<u32>,
    /// What `--out` names.
    pub out_file: Option<PathBuf>,
    /// Whether the ticket is judged as Refit's old one.
    pub old: bool,
    /// The inputs, each with its role, whether its place or an option gives it that.
    inputs: Vec<(Role, OsString)>,
}

impl Options {
    pub fn parse(
        verb: &'static Verb,
        mut arguments: impl Iterator<Item = OsString>,
    ) -> Result<Options, Problem> {
        let mut options = Options {
            verb,
            help: false,
            sheet_form: None,
            ticket_form: None,
            dead_form: None,
            budget: None,
            out_file: None,
            old: false,
            inputs: Vec::new(),
        };
        let mut words = Vec::new();
        let mut ended = false;
        while let Some(argument) = arguments.next() {
            let dashed = argument != "-" && argument.as_encoded_bytes().starts_with(b"-");
            if ended || !dashed {
                words.push(argument);
            } else if argument == "--" {
                ended = true;
            } else {
                options.take(&argument, &mut arguments)?;
            }
        }
        if !options.help {
            options.give_roles(words)?;
            options.fit()?;
        }
        Ok(options)
    }

    /// Takes an option, and its value from behind `=` or from the next argument.
    fn take(
        &mut self,
        argument: &OsStr,
        rest: &mut impl Iterator<Item = OsString>,
    ) -> Result<(), Problem> {
        let Some(word) = argument.to_str() else {
            let shown = argument.to_string_lossy();
            return Err(self.bad_usage(format!("the option {shown} is no text in UTF-8")));
        };
        let (name, behind) = match word.split_once('=') {
            Some((name, value)) => (name, Some(OsString::from(value))),
            None if word == "-h" => ("--help", None),
            None => (word, None),
        };
        let flag = self.verb.flags().find(|flag| flag.name == name);
        let Some(flag) = flag else {
            return Err(self.bad_usage(format!("no such option: {name}")));
        };
        if flag.value.is_empty() {
            return match behind {
                None => self.set(flag, OsString::new()),
                Some(_) => Err(self.bad_usage(format!("{name} takes no value"))),
            };
        }
        match behind.or_else(|| rest.next()) {
            Some(value) if !value.is_empty() => self.set(flag, value),
            _ => Err(self.bad_usage(format!("{name} needs a {}", flag.value))),
        }
    }

    /// Notes an option. The value is empty where the option has none.
    fn set(&mut self, flag: &Flag, value: OsString) -> Result<(), Problem> {
        match flag.set {
            Set::Bytes => self.sheet_form = self.form(self.sheet_form, Form::Bytes, SHEET_FORMS)?,
            Set::Text => self.sheet_form = self.form(self.sheet_form, Form::Text, SHEET_FORMS)?,
            Set::TicketBytes => {
                self.ticket_form = self.form(self.ticket_form, Form::Bytes, TICKET_FORMS)?;
            }
            Set::TicketText => {
                self.ticket_form = self.form(self.ticket_form, Form::Text, TICKET_FORMS)?;
            }
            Set::Dead => {
                self.first(flag, self.input(Role::Dead).is_none())?;
                self.inputs.push((Role::Dead, value));
            }
            Set::DeadBytes => {
                self.dead_form = self.form(self.dead_form, Form::Bytes, DEAD_FORMS)?;
            }
            Set::DeadText => self.dead_form = self.form(self.dead_form, Form::Text, DEAD_FORMS)?,
            Set::Budget => {
                self.first(flag, self.budget.is_none())?;
                self.budget = Some(self.number(flag.name, "from 0 to 4294967295", &value)?);
            }
            Set::Out if value == "-" => {
                return Err(self.bad_usage("--out needs a FILE, not -"));
            }
            Set::Out => {
                self.first(flag, self.out_file.is_none())?;
                self.out_file = Some(value.into());
            }
            Set::Old => self.old = true,
            Set::Help => self.help = true,
        }
        Ok(())
    }

    fn form(&self, before: Option<Form>, form: Form, pair: &str) -> Result<Option<Form>, Problem> {
        match before {
            Some(other) if other != form => {
                Err(self.bad_usage(format!("{pair} exclude each other")))
            }
            _ => Ok(Some(form)),
        }
    }

    fn first(&self, flag: &Flag, first: bool) -> Result<(), Problem> {
        match first {
            true => Ok(()),
            false => Err(self.bad_usage(format!("{} is given twice", flag.name))),
        }
    }

    /// Gives the words that are no options the roles of their places.
    fn give_roles(&mut self, words: Vec<OsString>) -> Result<(), Problem> {
        let verb = self.verb;
        if words.len() > verb.inputs.len() {
            let complaint = format!("too much for {}: it takes {}", verb.name, verb.usage());
            return Err(self.bad_usage(complaint));
        }
        let roles = verb.inputs.iter().map(|input| input.role);
        self.inputs.extend(roles.zip(words));
        for input in verb.inputs.iter().filter(|input| !input.optional) {
            self.needed(input.role)?;
        }
        Ok(())
    }

    /// Whether inputs and options go together.
    fn fit(&self) -> Result<(), Problem> {
        let from_stdin = |(role, word): &&(Role, OsString)| role.is_file() && word == "-";
        let no_ticket = self.input(Role::Ticket).is_none();
        let complaint = if self.inputs.iter().filter(from_stdin).count() > 1 {
            "only one input can be standard input"
        } else if no_ticket && self.ticket_form.is_some() {
            "--ticket-bytes and --ticket-text need a ticket"
        } else if self.input(Role::Dead).is_none() && self.dead_form.is_some() {
            "--dead-bytes and --dead-text need --dead"
        } else if no_ticket && self.old {
            "--old needs a ticket"
        } else {
            return Ok(());
        };
        Err(self.bad_usage(complaint))
    }

    pub fn input(&self, role: Role) -> Option<&OsStr> {
        let mut inputs = self.inputs.iter();
        let (_, word) = inputs.find(|(other, _)| *other == role)?;
        Some(word)
    }

    /// An input that the verb cannot do without.
    pub fn needed(&self, role: Role) -> Result<&OsStr, Problem> {
        let verb = self.verb;
        self.input(role)
            .ok_or_else(|| self.bad_usage(format!("{} needs {}", verb.name, verb.usage())))
    }

    /// The number that a word of decimal digits says; `name` and `range` are for the complaint.
    pub fn number<N: FromStr>(&self, name: &str, range: &str, word: &OsStr) -> Result<N, Problem> {
        let digits = |text: &&str| text.bytes().all(|byte| byte.is_ascii_digit());
        let number = word
            .to_str()
            .filter(digits)
            .and_then(|text| text.parse().ok());
        let shown = word.to_string_lossy();
        number.ok_or_else(|| self.bad_usage(format!("{name} is a number {range}, not {shown}")))
    }

    /// Bad usage of the verb.
    pub fn bad_usage(&self, complaint: impl Display) -> Problem {
        let name = self.verb.name;
        Problem::new(format!("{complaint}; try trackrouter {name} --help"))
    }
}
