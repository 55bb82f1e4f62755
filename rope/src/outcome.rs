//! How the program ends: its exit codes, and what it says when it fails.

use std::fmt;
use std::io;
use std::path::Path;
use std::process::ExitCode;

use ropelog::Refusal;

/// How a command ended that did what it was asked.
#[derive(Clone, Copy, Debug, PartialEq, Eq)]
pub enum Outcome {
    /// All is done, or readable, or ready.
    Done,
    /// A card is refused, and the command said so.
    Refused,
    /// The plan waits. Nothing was written.
    Waiting,
    /// The question was not answered with yes. Nothing was written.
    Declined,
}

/// Why a command ended early.
#[derive(Debug)]
pub enum Failure {
    /// The command line is not one; what was expected.
    Usage(String),
    /// A file, the input or the output failed, is busy, or is not what it was.
    Io(String),
    /// What was asked is refused by a number, or the cards do not belong together.
    Refused(String),
}

impl Outcome {
    /// The exit code, as the help lists them.
    pub fn code(self) -> u8 {
        match self {
            Outcome::Done => 0,
            Outcome::Refused => 3,
            Outcome::Waiting => 4,
            Outcome::Declined => 5,
        }
    }
}

impl Failure {
    /// The exit code, as the help lists them.
    pub fn code(&self) -> u8 {
        match self {
            Failure::Io(_) => 1,
            Failure::Usage(_) => 2,
            Failure::Refused(_) => 3,
        }
    }

    /// What could not be done with a file.
    pub fn file(path: &Path, what: &str, error: &io::Error) -> Failure {
        Failure::Io(format!("{}: {what}: {error}", path.display()))
    }
}

/// The output failed: a full disk, or nobody reads it any more.
impl From<io::Error> for Failure {
    fn from(error: io::Error) -> Failure {
        Failure::Io(format!("the output could not be written: {error}"))
    }
}

impl From<Refusal> for Failure {
    fn from(refusal: Refusal) -> Failure {
        Failure::Refused(crate::words::refused(refusal))
    }
}

impl fmt::Display for Failure {
    fn fmt(&self, f: &mut fmt::Formatter<'_>) -> fmt::Result {
        match self {
            Failure::Usage(text) | Failure::Io(text) | Failure::Refused(text) => f.write_str(text),
        }
    }
}

/// The exit code of a command.
pub fn exit_code(ended: &Result<Outcome, Failure>) -> ExitCode {
    ExitCode::from(match ended {
        Ok(outcome) => outcome.code(),
        Err(failure) => failure.code(),
    })
}
