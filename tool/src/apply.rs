//! The command `apply`: a change list over an account's data.

use crate::failure::Failure;
use crate::files::{self, Limit};
use crate::numbers::number;
use crate::output::Output;
use crate::rules::list::{broken, Target};
use crate::session::pages_of;
use crate::text::{count, name};
use std::ffi::OsStr;
use std::os::unix::ffi::OsStrExt;
use std::path::Path;

/// What a change list and an account's data are read as; the library sets them no limit.
pub const LIST: Limit = Limit { what: "a change list", most: isize::MAX as usize };
const DATA: Limit = Limit { what: "an account's data", most: isize::MAX as usize };

/// Applies a change list to an account's data, and writes what that gives.
pub fn apply(list: &Path, account: &OsStr, data: &Path, target: &Path, out: &mut Output) -> Result<(), Failure> {
    let account = number(account.as_bytes()).and_then(|number| u16::try_from(number).ok()).ok_or_else(|| not_an_account(account))?;
    let bytes = files::read(list, LIST)?;
    let mut data = files::read(data, DATA)?;
    if let Err(refusal) = hekthumar::apply(&bytes, account, &mut data) {
        out.line(format_args!("  {} {}", refusal.number(), refusal.sentence()))?;
        let broken = broken(&bytes, Some(Target { account, length: data.len() }));
        return broken.iter().try_for_each(|broken| out.complain(format_args!("{}: {broken}", name(list))));
    }
    files::write(target, &data)?;
    out.line("  0 done")?;
    let pages = pages_of(&bytes, account);
    match pages.len() {
        0 => out.line(format_args!("  the list has no page of account {account}: the data is as it was"))?,
        replaced => out.line(format_args!("  {} of account {account} replaced", count(replaced as u64, "page")))?,
    }
    out.lines(pages)?;
    out.line(format_args!("  wrote {} to {}", count(data.len() as u64, "byte"), name(target)))
}

fn not_an_account(word: &OsStr) -> Failure {
    Failure::wrong_use(format!("ACCOUNT is to be a number from 0 to {}; found '{}'", u16::MAX, name(word)))
}
