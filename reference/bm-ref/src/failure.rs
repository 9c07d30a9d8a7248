//! Why a command gives no answer.

use std::fmt;

/// What a command prints, or why it prints nothing.
pub type Answer = Result<String, Failure>;

pub enum Failure {
    /// A wrong argument, and the command whose help says what is right.
    Argument(String, Option<&'static str>),
    /// A file that cannot be read or written.
    File(String),
    /// A file whose content is not what the command needs.
    Content(String),
}

impl Failure {
    /// A wrong argument of no command in particular.
    pub fn wrong(text: impl Into<String>) -> Failure {
        Failure::Argument(text.into(), None)
    }

    /// The status of the process.
    pub fn status(&self) -> u8 {
        match self {
            Failure::Content(_) => 1,
            Failure::Argument(..) | Failure::File(_) => 2,
        }
    }
}

impl fmt::Display for Failure {
    fn fmt(&self, f: &mut fmt::Formatter<'_>) -> fmt::Result {
        match self {
            Failure::File(text) | Failure::Content(text) => f.write_str(text),
            Failure::Argument(text, None) => write!(f, "{text}; see 'bm-ref help'"),
            Failure::Argument(text, Some(name)) => {
                write!(f, "{name}: {text}; see 'bm-ref {name} --help'")
            }
        }
    }
}
