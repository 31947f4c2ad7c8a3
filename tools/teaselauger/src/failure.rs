//! How a command can end, and the exit status of each way.
use std::{fmt, io};

/// A command that has said all that it has to say.
#[derive(Clone, Copy, Debug, PartialEq, Eq)]
pub enum Status {
    /// Status 0.
    Done,
    /// A refusal was its answer: status 1.
    Refused,
}

#[derive(Debug, PartialEq, Eq)]
pub enum Failure {
    /// A model file or a text was refused, or a run was not as it must be: status 1.
    Refused(String),
    /// Wrong usage: status 2.
    Usage(String),
    /// Input or output failed: status 3.
    Io(String),
}

impl Failure {
    pub fn status(&self) -> u8 {
        match self {
            Failure::Refused(_) => 1,
            Failure::Usage(_) => 2,
            Failure::Io(_) => 3,
        }
    }

    /// Of a path that could not be read or written.
    pub fn of_path(path: &str, error: io::Error) -> Failure {
        Failure::Io(format!("{path}: {error}"))
    }
}

// Whoever reads standard output may stop when it has read enough: the status tells it, and nothing is said.
impl From<io::Error> for Failure {
    fn from(error: io::Error) -> Failure {
        match error.kind() {
            io::ErrorKind::BrokenPipe => Failure::Io(String::new()),
            _ => Failure::Io(format!("standard output: {error}")),
        }
    }
}

impl fmt::Display for Failure {
    fn fmt(&self, f: &mut fmt::Formatter) -> fmt::Result {
        match self {
            Failure::Refused(text) | Failure::Usage(text) | Failure::Io(text) => f.write_str(text),
        }
    }
}
