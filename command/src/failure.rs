//! What can go wrong, how it is told, and the exit status of each.

use std::ffi::{OsStr, OsString};
use std::fmt::Display;
use std::io::{self, ErrorKind, Write};
use std::process::ExitCode;

use griffeljol::Refusal;

use crate::files::STANDARD;

/// Why the command has no answer.
pub enum Failure {
    /// The library refused: status 1.
    Refused(Refused),
    /// The library refused so many of many values, whose lines tell it: status 1.
    RefusedValues { refused: u64, count: u64 },
    /// The arguments are wrong, or a file cannot be read or written: status 2 and one line.
    Message(String),
    /// Whoever read standard output stopped reading: status 141, as of a command that SIGPIPE ended, and no word.
    ClosedPipe,
}

/// A refusal with its meaning in words, and of two sheets the one at fault.
pub struct Refused {
    pub refusal: Refusal,
    pub meaning: &'static str,
    /// What its place is; none where it is always 0.
    pub place: Option<&'static str>,
    pub at_fault: Option<AtFault>,
}

/// The sheet at fault of two: what the arguments call it, and its file.
pub struct AtFault {
    pub sheet: &'static str,
    pub file: OsString,
}

const REFUSED: u8 = 1;
const MESSAGE: u8 = 2;
const CLOSED_PIPE: u8 = 128 + 13;

impl Failure {
    /// Wrong arguments.
    pub fn arguments(what: impl Display) -> Self {
        Failure::Message(format!("{what}; see griffeljol --help"))
    }

    /// A file that cannot be read.
    pub fn read(name: &OsStr, error: io::Error) -> Self {
        Failure::Message(format!("cannot read {}: {error}", input(name)))
    }

    /// A file that cannot be written.
    pub fn write(name: &OsStr, error: io::Error) -> Self {
        match error.kind() {
            ErrorKind::BrokenPipe => Failure::ClosedPipe,
            _ => Failure::Message(format!("cannot write {}: {error}", shown(name, "standard output"))),
        }
    }

    /// Tells it on standard error, and gives the exit status. A standard error that takes no word changes nothing.
    pub fn tell(&self) -> ExitCode {
        let (text, status) = match self {
            Failure::Refused(refused) => (refused.told(), REFUSED),
            Failure::RefusedValues { refused, count } => (format!("refused {refused} of {count} values\n"), REFUSED),
            Failure::Message(message) => (format!("griffeljol: {message}\n"), MESSAGE),
            Failure::ClosedPipe => (String::new(), CLOSED_PIPE),
        };
        let _ = io::stderr().write_all(text.as_bytes());
        ExitCode::from(status)
    }
}

impl From<Refused> for Failure {
    fn from(refused: Refused) -> Self {
        Failure::Refused(refused)
    }
}

impl From<Refusal> for Failure {
    fn from(refusal: Refusal) -> Self {
        Refused::from(refusal).into()
    }
}

impl From<Refusal> for Refused {
    fn from(refusal: Refusal) -> Self {
        Refused { refusal, meaning: refusal.meaning(), place: refusal.place_meaning(), at_fault: None }
    }
}

impl Refused {
    /// The line `refused N at P`, and one with its meaning, behind the sheet at fault.
    fn told(&self) -> String {
        let whose = match &self.at_fault {
            None => String::new(),
            Some(AtFault { sheet, file }) => format!("{sheet}, {}: ", input(file)),
        };
        format!("{}\n{whose}{}\n", self.refusal, self.explained())
    }

    /// Its meaning, with that of its place if it has one.
    fn explained(&self) -> String {
        match self.place {
            None => self.meaning.to_owned(),
            Some(place) => format!("{}; place {} is {place}", self.meaning, self.refusal.place),
        }
    }
}

/// The name of a file that is read, as a message has it.
pub fn input(name: &OsStr) -> String {
    shown(name, "standard input")
}

/// A file's name as a message has it.
fn shown(name: &OsStr, standard: &str) -> String {
    if name == STANDARD {
        standard.to_owned()
    } else {
        format!("{name:?}")
    }
}
