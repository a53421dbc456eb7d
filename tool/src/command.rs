//! The command line.

use crate::failure::Failure;
use crate::output::{say, Output};
use crate::text::{count, name};
use crate::{apply, demo, run, show, usage};
use std::ffi::OsString;
use std::process::ExitCode;

/// Carries out the command that the words name, and gives the exit status.
pub fn main(words: Vec<OsString>) -> ExitCode {
    let mut out = Output::new();
    let status = choose(&words, &mut out).and_then(|()| out.finish()).unwrap_or_else(|failure| {
        say(format_args!("hekthumar: {}", failure.message));
        failure.status
    });
    ExitCode::from(status)
}

fn choose(words: &[OsString], out: &mut Output) -> Result<(), Failure> {
    let Some((command, rest)) = words.split_first() else {
        return Err(Failure::wrong_use("a command is missing"));
    };
    let asks_for_help = |word: &OsString| ["--help", "-h"].iter().any(|help| word == help);
    if asks_for_help(command) || command == "help" || rest.iter().any(asks_for_help) {
        return out.line(usage::whole().trim_end());
    }
    match (command.to_str(), rest) {
        (Some("--version" | "-V"), []) => out.line(format_args!("hekthumar {}", env!("CARGO_PKG_VERSION"))),
        (Some("demo"), []) => demo::demo(out),
        (Some("run"), [snapshot, script]) => run::run(snapshot.as_ref(), script.as_ref(), out),
        (Some("show"), [_, ..]) => show::show(rest, out),
        (Some("apply"), [list, account, data, target]) => apply::apply(list.as_ref(), account, data.as_ref(), target.as_ref(), out),
        _ => Err(wrong_words(command, rest.len())),
    }
}

/// A command that there is not, or too few or too many words after it.
fn wrong_words(command: &OsString, given: usize) -> Failure {
    let command = if command == "-V" { "--version".as_ref() } else { command.as_os_str() };
    match usage::COMMANDS.iter().find(|known| command == known.name) {
        Some(known) => {
            let wanted = if known.words.is_empty() { "no word" } else { known.words };
            Failure::wrong_use(format!("{} takes {wanted}; found {}", known.name, count(given as u64, "word")))
        }
        None => Failure::wrong_use(format!("there is no command '{}'", name(command))),
    }
}
