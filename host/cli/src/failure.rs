//! What ends a command without an answer: its message and its exit status.
use crate::fault::Fault;
use crate::input;
use chaldoref::Refusal;
use std::ffi::OsString;
use std::io;

/// The exit statuses. Of several files the greatest counts.
pub const SUCCESS: u8 = 0;
const REFUSED: u8 = 1;
const BAD_USAGE: u8 = 2;

pub enum Failure {
    /// What is wrong with the arguments, and how they are to be.
    Usage(String, String),
    /// The film or slip could not be read.
    Input(io::Error),
    /// The film was refused, and why, if that is known; and what to do about it.
    Film(Refusal, Option<String>, Option<String>),
    /// The question was refused; and a hint, if there is one.
    Refused(Refusal, Option<String>),
    /// The slip is malformed.
    Malformed(Fault),
    /// The file of that name could not be written.
    NotWritten(OsString, io::Error),
    /// Standard output could not be written.
    Output(io::Error),
    /// Slips, a profile or a film's rules were checked, and not all is good: the report says why. Whether some could not be read.
    NotAllGood { unread: bool },
    /// Films were left out of a return, for reasons that were told. Whether some could not be read.
    Skipped { unread: bool },
}

impl From<Refusal> for Failure {
    fn from(refusal: Refusal) -> Failure {
        // The room lent is enough, unless there was no memory for it.
        if refusal == Refusal::NoRoom {
            return Failure::Input(io::ErrorKind::OutOfMemory.into());
        }
        Failure::Refused(refusal, None)
    }
}

impl From<io::Error> for Failure {
    fn from(error: io::Error) -> Failure {
        Failure::Output(error)
    }
}

impl Failure {
    /// The refusal, if it is one.
    pub fn refusal(&self) -> Option<Refusal> {
        match self {
            Failure::Film(refusal, ..) | Failure::Refused(refusal, _) => Some(*refusal),
            Failure::Malformed(fault) => Some(fault.refusal()),
            _ => None,
        }
    }

    /// What is said beside a refusal and is not proved.
    pub fn hint(&self) -> Option<&str> {
        match self {
            Failure::Film(_, _, hint) | Failure::Refused(_, hint) => hint.as_deref(),
            Failure::Malformed(fault) => fault.hint(),
            _ => None,
        }
    }

    /// Whoever reads standard output has seen enough, which is no failure.
    fn is_broken_pipe(&self) -> bool {
        matches!(self, Failure::Output(error) if error.kind() == io::ErrorKind::BrokenPipe)
    }

    pub fn status(&self) -> u8 {
        match self {
            Failure::Film(..)
            | Failure::Refused(..)
            | Failure::Malformed(_)
            | Failure::NotAllGood { unread: false }
            | Failure::Skipped { unread: false } => REFUSED,
            _ if self.is_broken_pipe() => SUCCESS,
            _ => BAD_USAGE,
        }
    }

    /// What standard error is told of it, the file being the one that was read.
    pub fn message(&self, file: &str) -> String {
        match self {
            Failure::Usage(wrong, usage) => format!("chaldoref: {wrong}\n{usage}"),
            Failure::Input(error) => format!("chaldoref: {file}: {}\n", in_words(error)),
            Failure::Film(refusal, why, hint) => refused(file, *refusal, &(not_proved(why) + &hinted(hint))),
            Failure::Refused(refusal, hint) => refused(file, *refusal, &hinted(hint)),
            Failure::Malformed(fault) => {
                refused(file, fault.refusal(), &(fault.lines() + &hinted(&fault.hint().map(String::from))))
            }
            Failure::NotWritten(name, error) => format!("chaldoref: {}: {}\n", input::named(name), in_words(error)),
            Failure::Output(_) if self.is_broken_pipe() => String::new(),
            Failure::Output(error) => format!("chaldoref: standard output: {}\n", in_words(error)),
            Failure::NotAllGood { .. } | Failure::Skipped { .. } => String::new(),
        }
    }
}

/// Of two failures the one with the greater status, so that output that no one reads to the end changes no verdict.
pub fn worse(one: Result<(), Failure>, other: Result<(), Failure>) -> Result<(), Failure> {
    match (one, other) {
        (Err(one), Err(other)) if one.status() <= other.status() => Err(other),
        (one, other) => one.and(other),
    }
}

/// An error of the system, without the number that Rust puts after its words.
pub fn in_words(error: &io::Error) -> String {
    let text = error.to_string();
    text.split_once(" (os error ").map_or(text.clone(), |(words, _)| words.into())
}

/// What is said of every refusal, and what else is said of this one.
fn refused(file: &str, refusal: Refusal, more: &str) -> String {
    format!("chaldoref: {file}: refused {}: {refusal}\n{more}", refusal.number())
}

/// The line that says what to do.
fn hinted(hint: &Option<String>) -> String {
    hint.as_ref().map_or(String::new(), |words| format!("chaldoref: hint: {words}\n"))
}

/// The line that says why. It is told apart from what the proved library says.
fn not_proved(why: &Option<String>) -> String {
    why.as_ref().map_or(String::new(), |words| format!("chaldoref: not proved: {words}\n"))
}
