//! Why a command brings nothing, and the program's exit codes.

use std::fmt;
use std::io;
use std::path::{Path, PathBuf};

use sofretu::Refusal;

/// A value, or an accepted sheet.
pub const FINE: u8 = 0;
/// Refused, or stopped.
pub const REFUSED: u8 = 1;
/// The command line is wrong.
pub const USAGE: u8 = 2;
/// A file cannot be read or written.
pub const FILE: u8 = 3;
/// The explanation disagrees with the library.
pub const DISAGREES: u8 = 4;

/// Why a command brings nothing.
#[derive(Debug)]
pub enum Failure {
    /// The command line is wrong.
    Usage(String),
    /// A file cannot be read or written.
    File(PathBuf, io::Error),
    /// A file is refused.
    Refused(PathBuf, String),
    /// The output cannot be written.
    Output(io::Error),
}

impl Failure {
    /// A sheet that is refused, where the command is not the one that shows its faults.
    pub fn sheet(path: &Path, refusal: Refusal) -> Failure {
        Failure::Refused(
            path.into(),
            format!("{refusal} ('sofretu check' shows the place)"),
        )
    }

    /// The exit code. Who closes the output has seen enough: that is no failure.
    pub fn code(&self) -> u8 {
        match self {
            Failure::Usage(_) => USAGE,
            Failure::File(..) => FILE,
            Failure::Refused(..) => REFUSED,
            Failure::Output(error) if error.kind() == io::ErrorKind::BrokenPipe => FINE,
            Failure::Output(_) => FILE,
        }
    }
}

impl fmt::Display for Failure {
    fn fmt(&self, f: &mut fmt::Formatter<'_>) -> fmt::Result {
        match self {
            Failure::Usage(what) => f.write_str(what),
            Failure::File(path, error) => write!(f, "{}: {error}", path.display()),
            Failure::Refused(path, what) => write!(f, "{}: {what}", path.display()),
            Failure::Output(error) => write!(f, "standard output: {error}"),
        }
    }
}

impl From<io::Error> for Failure {
    /// Commands write to standard output; the errors of files are made with their paths.
    fn from(error: io::Error) -> Failure {
        Failure::Output(error)
    }
}
