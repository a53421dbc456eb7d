//! Standard output and standard error, in the order in which they are written.

use crate::failure::{Failure, BAD, DONE};
use std::fmt::Display;
use std::io::{self, BufWriter, StdoutLock, Write};

/// What a command prints, and how many complaints it had.
pub struct Output {
    out: BufWriter<StdoutLock<'static>>,
    complaints: usize,
}

impl Output {
    pub fn new() -> Output {
        Output { out: BufWriter::new(io::stdout().lock()), complaints: 0 }
    }

    /// Prints a line on standard output.
    pub fn line(&mut self, text: impl Display) -> Result<(), Failure> {
        writeln!(self.out, "{text}").map_err(lost)
    }

    /// Prints lines on standard output.
    pub fn lines(&mut self, lines: impl IntoIterator<Item = impl Display>) -> Result<(), Failure> {
        lines.into_iter().try_for_each(|line| self.line(line))
    }

    /// Prints on standard error what is wrong; the exit status will say so.
    pub fn complain(&mut self, text: impl Display) -> Result<(), Failure> {
        self.complaints += 1;
        self.warn(text)
    }

    /// Prints on standard error what to look out for. What was printed before comes out first.
    pub fn warn(&mut self, text: impl Display) -> Result<(), Failure> {
        self.out.flush().map_err(lost)?;
        say(text);
        Ok(())
    }

    /// Writes out what is left, and gives the exit status.
    pub fn finish(mut self) -> Result<u8, Failure> {
        self.out.flush().map_err(lost)?;
        Ok(if self.complaints == 0 { DONE } else { BAD })
    }
}

/// Prints a line on standard error. Where that fails there is nobody left to tell.
pub fn say(text: impl Display) {
    let _ = writeln!(io::stderr(), "{text}");
}

fn lost(error: io::Error) -> Failure {
    Failure::bad(format!("standard output: {error}"))
}
