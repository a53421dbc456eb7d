//! The command `show`: what files hold, and every rule that the library would refuse them for.

mod control;
mod kind;
mod list;
mod pool;
mod snapshot;

use crate::apply::LIST;
use crate::failure::Failure;
use crate::files::{self, Limit};
use crate::output::Output;
use crate::rules::Broken;
use crate::run::SNAPSHOT;
use crate::session::{CONTROL, POOL};
use crate::text::{count, name};
use kind::Kind;
use std::ffi::OsString;
use std::fmt::Display;

/// A file, by what it is.
struct Shown {
    kind: Kind,
    name: String,
    bytes: Vec<u8>,
}

/// The files that others are judged by.
struct Beside<'a> {
    snapshot: Option<&'a [u8]>,
    pool: Option<&'a [u8]>,
}

/// Shows the files, in their order.
pub fn show(words: &[OsString], out: &mut Output) -> Result<(), Failure> {
    let shown = words.iter().map(read).collect::<Result<Vec<Shown>, Failure>>()?;
    let beside = Beside { snapshot: only(&shown, Kind::Snapshot)?, pool: only(&shown, Kind::Pool)? };
    for (number, file) in shown.iter().enumerate() {
        if number > 0 {
            out.line("")?;
        }
        out.line(format_args!("{}: {} of {}", file.name, file.kind.name(), count(file.bytes.len() as u64, "byte")))?;
        match file.kind {
            Kind::Snapshot => snapshot::show(file, out)?,
            Kind::Control => control::show(file, &beside, out)?,
            Kind::Pool => pool::show(file, out)?,
            Kind::List => list::show(file, &beside, out)?,
        }
    }
    Ok(())
}

/// Reads a file, and tells what it is.
fn read(word: &OsString) -> Result<Shown, Failure> {
    let (said, path) = kind::said(word);
    let bytes = files::read(path, said.map_or(LIST, limit))?;
    let known = said.or_else(|| kind::guess(&bytes));
    let kind = known.ok_or_else(|| Failure::bad(format!("{}: {}", name(path), kind::unknown(&bytes))))?;
    Ok(Shown { kind, name: name(path), bytes })
}

/// What a file is read as.
fn limit(kind: Kind) -> Limit {
    match kind {
        Kind::Snapshot => SNAPSHOT,
        Kind::Control => CONTROL,
        Kind::Pool => POOL,
        Kind::List => LIST,
    }
}

/// The only file of a kind, if there is one.
fn only(shown: &[Shown], kind: Kind) -> Result<Option<&[u8]>, Failure> {
    let mut files = shown.iter().filter(|file| file.kind == kind);
    match (files.next(), files.next()) {
        (Some(first), Some(second)) => {
            let (first, second, kind) = (&first.name, &second.name, kind.name());
            Err(Failure::wrong_use(format!("{first} and {second} are both {kind}; the other files are judged by it, so give one")))
        }
        (first, _) => Ok(first.map(|file| file.bytes.as_slice())),
    }
}

/// Complains of every rule that a file breaks.
fn complain(name: &str, broken: &[Broken], out: &mut Output) -> Result<(), Failure> {
    broken.iter().try_for_each(|broken| out.complain(format_args!("{name}: {broken}")))
}

/// Says what the library says of a file. Where it is not valid, the broken rules follow on standard error.
fn verdict(file: &Shown, valid: bool, as_what: impl Display, broken: &[Broken], out: &mut Output) -> Result<(), Failure> {
    if valid {
        return out.line(format_args!("  valid{as_what}"));
    }
    out.line(format_args!("  not valid{as_what}"))?;
    if broken.is_empty() {
        return out.complain(format_args!("{}: the library refuses it, for a rule that is not known here", file.name));
    }
    complain(&file.name, broken, out)
}
