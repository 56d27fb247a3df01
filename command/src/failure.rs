//! How a subcommand ends without its answer.

use std::fmt;
use std::io::{self, Write};
use std::path::Path;

use volefleece::Refusal;

/// Why there is no answer.
#[derive(Debug)]
pub enum Failure {
    /// The library refused, for this reason, with what a reader may look at first.
    Refused {
        refusal: Refusal,
        hint: Option<String>,
    },
    /// The command was used wrongly, or a file cannot be read or written: what is wrong and where, a line each.
    Problem(String),
}

pub type Outcome<T = ()> = Result<T, Failure>;

impl Failure {
    pub fn problem(message: impl Into<String>) -> Self {
        Failure::Problem(message.into())
    }

    /// A file or folder with which something is not possible.
    pub fn file(path: &Path, error: &io::Error) -> Self {
        Failure::Problem(format!("{}: {error}", path.display()))
    }

    /// Its lines as comments of a text.
    pub fn commented(&self) -> String {
        let lines = self.to_string();
        lines.lines().map(|line| format!("# {line}\n")).collect()
    }

    /// The exit status: 1 for a refusal, 2 for a problem.
    pub fn status(&self) -> u8 {
        match self {
            Failure::Refused { .. } => 1,
            Failure::Problem(_) => 2,
        }
    }
}

impl From<Refusal> for Failure {
    fn from(refusal: Refusal) -> Self {
        Failure::Refused {
            refusal,
            hint: None,
        }
    }
}

impl fmt::Display for Failure {
    fn fmt(&self, f: &mut fmt::Formatter<'_>) -> fmt::Result {
        match self {
            Failure::Refused {
                refusal,
                hint: None,
            } => write!(f, "{refusal}"),
            Failure::Refused {
                refusal,
                hint: Some(hint),
            } => write!(f, "{refusal}\nhint: {hint}"),
            Failure::Problem(message) => write!(f, "{message}"),
        }
    }
}

/// Says something on standard error, beside the answer. Where that cannot be written nobody reads it.
pub fn note(line: &str) {
    let _ = writeln!(io::stderr(), "{line}");
}
