//! Why a command ended early: what is told on standard error, and the status.

use std::ffi::OsStr;
use std::fmt;
use std::io;
use ups::Refusal;

/// Why a command ended early.
#[derive(Debug)]
pub enum Failure {
    /// The library refused; `file` is the net file that was refused where it was read.
    Refused {
        file: Option<String>,
        refusal: Refusal,
    },
    /// Wrong usage, a file that cannot be read or written, or another line in it than is due.
    Usage(String),
}

impl Failure {
    pub fn usage(what: impl Into<String>) -> Failure {
        Failure::Usage(what.into())
    }

    /// A net file that the library refused.
    pub fn refused(file: &OsStr, refusal: Refusal) -> Failure {
        let file = Some(named(file, "standard input"));
        Failure::Refused { file, refusal }
    }

    /// A file that cannot be read.
    pub fn reading(name: &OsStr, error: &io::Error) -> Failure {
        let name = named(name, "standard input");
        Failure::Usage(format!("{name}: {error}"))
    }

    /// A file that cannot be written.
    pub fn writing(name: &OsStr, error: &io::Error) -> Failure {
        let name = named(name, "standard output");
        Failure::Usage(format!("{name}: {error}"))
    }

    /// Another line than the one that is due; lines count from 1.
    pub fn line(name: &OsStr, number: usize, due: &str) -> Failure {
        let name = named(name, "standard input");
        Failure::Usage(format!("{name}: line {number}: {due}"))
    }

    /// The status of the program.
    pub fn status(&self) -> u8 {
        match self {
            Failure::Refused { .. } => 1,
            Failure::Usage(_) => 2,
        }
    }
}

impl From<Refusal> for Failure {
    fn from(refusal: Refusal) -> Failure {
        let file = None;
        Failure::Refused { file, refusal }
    }
}

impl fmt::Display for Failure {
    fn fmt(&self, to: &mut fmt::Formatter) -> fmt::Result {
        match self {
            Failure::Usage(what) => to.write_str(what),
            Failure::Refused { file, refusal } => {
                if let Some(file) = file {
                    write!(to, "{file}: ")?;
                }
                write!(to, "refused {}: {refusal}", refusal.number())
            }
        }
    }
}

/// A word as it is shown: on one line, whatever is in it.
pub fn shown(word: &OsStr) -> String {
    let one_line = |c: char| match c.is_control() {
        true => c.escape_default().collect(),
        false => c.to_string(),
    };
    word.to_string_lossy().chars().map(one_line).collect()
}

/// The name of a file as it is shown; `-` is what it stands for.
fn named(name: &OsStr, standard: &str) -> String {
    if name == "-" {
        return standard.to_owned();
    }
    shown(name)
}
