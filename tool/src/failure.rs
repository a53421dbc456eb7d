//! Why a command ends early.

use std::fmt::Display;

/// Exit status of a command that did all that was asked.
pub const DONE: u8 = 0;
/// Exit status where a call was refused unexpectedly, a file is bad, or reading or writing failed.
pub const BAD: u8 = 1;
/// Exit status where the command line is wrong.
pub const WRONG_USE: u8 = 2;

/// What is said on standard error, and the exit status.
#[derive(Debug)]
pub struct Failure {
    pub status: u8,
    pub message: String,
}

impl Failure {
    /// Something is wrong with a file, in reading it, or in writing.
    pub fn bad(message: impl Display) -> Failure {
        Failure { status: BAD, message: message.to_string() }
    }

    /// The command line is wrong: the mistake first, the usage after it.
    pub fn wrong_use(mistake: impl Display) -> Failure {
        Failure { status: WRONG_USE, message: format!("{mistake}\n\n{}", crate::usage::commands()) }
    }
}
