//! The errors of a line.

use p2p_directory::{OutOfMemory, SetupError};
use std::fmt::Display;

/// The error of a line with what was expected, or out of memory.
#[derive(Debug)]
pub enum Fault {
    Memory,
    Line(String),
}

impl Fault {
    /// An error with this text.
    pub fn new(text: impl Into<String>) -> Fault {
        Fault::Line(text.into())
    }

    /// There is no such name of this kind. This is the nearest one.
    pub fn unknown(kind: &str, nearest: &str) -> Fault {
        Fault::new(format!(
            "unknown {kind}, expected {nearest} or another of --help"
        ))
    }

    /// An argument has another form than this.
    pub fn form(expected: &str) -> Fault {
        Fault::new(format!("unreadable argument, expected {expected}"))
    }

    /// A number of this kind is above the maximum.
    pub fn too_large(kind: &str, greatest: impl Display) -> Fault {
        Fault::new(format!("{kind} too large, expected at most {greatest}"))
    }
}

impl From<OutOfMemory> for Fault {
    fn from(_refused: OutOfMemory) -> Fault {
        Fault::Memory
    }
}

impl From<SetupError> for Fault {
    fn from(error: SetupError) -> Fault {
        match error {
            SetupError::OutOfMemory => Fault::Memory,
            other => Fault::new(other.to_string()),
        }
    }
}
