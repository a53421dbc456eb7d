//! The tool, run in a folder.

use std::ffi::OsStr;
use std::path::Path;
use std::process::{Command, Output, Stdio};

/// Seconds after which the tool is taken to wait for ever, on a FIFO for instance. It is stopped then, with status 124.
const PATIENCE: &str = "20";

/// The tool, to be started in a folder, so that the paths in what it prints are relative.
pub fn command(folder: &Path) -> Command {
    let mut command = Command::new("timeout");
    command.arg(PATIENCE).arg(env!("CARGO_BIN_EXE_hekthumar")).current_dir(folder).stdin(Stdio::null());
    command
}

/// Runs the tool with these words.
pub fn run(folder: &Path, words: &[impl AsRef<OsStr>]) -> Came {
    came(command(folder).args(words))
}

/// Starts a command, and waits for its end.
pub fn came(command: &mut Command) -> Came {
    command.output().expect("it can be started").into()
}

/// What came back from the tool.
pub struct Came {
    pub output: String,
    pub errors: String,
    pub status: i32,
}

impl From<Output> for Came {
    fn from(came: Output) -> Came {
        let text = |bytes: Vec<u8>| String::from_utf8_lossy(&bytes).into_owned();
        Came { output: text(came.stdout), errors: text(came.stderr), status: came.status.code().unwrap_or(-1) }
    }
}

impl Came {
    /// All of it as one text.
    pub fn text(&self) -> String {
        let errors = if self.errors.is_empty() { String::new() } else { format!("--- standard error\n{}", self.errors) };
        format!("{}{errors}--- exit status {}\n", self.output, self.status)
    }

    /// What no output may be, whatever was asked: no text, a line without an end, or a character that a terminal obeys.
    pub fn unfit(&self) -> Option<&'static str> {
        let obeyed = |character: char| character.is_control() && !"\n\t".contains(character);
        [&self.output, &self.errors].into_iter().find_map(|text| {
            if text.contains(char::REPLACEMENT_CHARACTER) {
                Some("bytes that are no text were printed")
            } else if text.contains(obeyed) {
                Some("a control character was printed")
            } else if !text.is_empty() && !text.ends_with('\n') {
                Some("the last line has no end")
            } else {
                None
            }
        })
    }
}
