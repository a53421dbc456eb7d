//! The command `run`: a script over a snapshot.

use crate::answer::{listed, Answer};
use crate::failure::Failure;
use crate::files::{self, Limit};
use crate::output::Output;
use crate::rules::snapshot;
use crate::script::{self, Line};
use crate::session::Session;
use crate::text::{count, name, printable};
use crate::verdict::{account_valid, snapshot_valid};
use crate::world::World;
use hekthumar::layout::MAX_SNAPSHOT;
use std::path::Path;

/// What a snapshot and a script are read as.
pub const SNAPSHOT: Limit = Limit { what: "a snapshot", most: MAX_SNAPSHOT };
const SCRIPT: Limit = Limit { what: "a script", most: isize::MAX as usize };

/// Carries out a script, and says which statements were not answered as expected.
pub fn run(snapshot: &Path, script: &Path, out: &mut Output) -> Result<(), Failure> {
    let bytes = files::read(snapshot, SNAPSHOT)?;
    let text = files::read(script, SCRIPT)?;
    let script = name(script);
    match script::read(&text) {
        Err(complaints) => complaints.iter().try_for_each(|complaint| out.complain(format_args!("{script}:{complaint}"))),
        Ok(lines) if judge(&name(snapshot), &bytes, out)? => carry_out(&script, &lines, Session::new(bytes), out),
        Ok(_) => Ok(()),
    }
}

/// Whether a snapshot is valid; otherwise every broken rule is complained of. An account that is not valid is worth a warning: every call
/// on it is refused, no other is.
fn judge(path: &str, bytes: &[u8], out: &mut Output) -> Result<bool, Failure> {
    if !snapshot_valid(bytes) {
        snapshot::broken(bytes).iter().try_for_each(|broken| out.complain(format_args!("{path}: {broken}")))?;
        return Ok(false);
    }
    let accounts = World { snapshot: bytes, control: &[], pool: &[] }.accounts() as u16;
    for account in (0..accounts).filter(|&account| !account_valid(bytes, account)) {
        for broken in snapshot::account_broken(bytes, account) {
            out.warn(format_args!("{path}: warning: account {account} is not valid: {broken}"))?;
        }
    }
    Ok(true)
}

/// Carries out the statements one by one. One that cannot be carried out ends the script.
fn carry_out(script: &str, lines: &[Line], mut session: Session, out: &mut Output) -> Result<(), Failure> {
    if lines.is_empty() {
        out.warn(format_args!("{script}: warning: there is no statement in it"))?;
    }
    let mut unexpected = 0;
    for line in lines {
        let at = format!("{script}:{}:{}", line.number, line.column);
        out.line(printable(&line.text))?;
        let answer = match session.carry_out(&line.statement) {
            Ok(answer) => answer,
            Err(failure) => return out.complain(format_args!("{at}: {}", failure.message)),
        };
        out.lines(&answer.lines)?;
        if let Some(warning) = answer.warning {
            out.warn(format_args!("{at}: warning: {warning}"))?;
        }
        if let Some(complaint) = otherwise(line, &answer) {
            unexpected += 1;
            out.complain(format_args!("{script}:{complaint}"))?;
        }
    }
    if unexpected > 0 {
        out.warn(format_args!("{script}: {unexpected} of {} not answered as expected", count(lines.len() as u64, "statement")))?;
    }
    Ok(())
}

/// What was not answered as the line expects, with its line and column.
fn otherwise(line: &Line, answer: &Answer) -> Option<String> {
    let number = line.number;
    match (&line.expected, answer.refusal) {
        (Some(expected), _) if answer.facts.starts_with(&expected.facts) => None,
        (Some(expected), _) => {
            let found = &answer.facts[..answer.facts.len().min(expected.facts.len())];
            Some(format!("{number}:{}: expected {}; found {}", expected.column, listed(&expected.facts), listed(found)))
        }
        (None, Some(refusal)) => {
            let column = line.column;
            Some(format!(
                "{number}:{column}: refused with {0}; => {0} after the statement would say that this is expected",
                refusal.number()
            ))
        }
        (None, None) => None,
    }
}
