//! What a change list holds, judged for the accounts of a snapshot where one is given.

use super::{complain, verdict, Beside, Shown};
use crate::failure::Failure;
use crate::output::Output;
use crate::rules::list::{broken, Target};
use crate::session::pages;
use crate::verdict::{account_valid, list_applies, list_entries, list_valid, snapshot_valid};
use hekthumar::account_data;
use std::collections::BTreeSet;

/// Shows the entries, and for each account of the snapshot whether the list can be applied to its data.
pub fn show(file: &Shown, beside: &Beside, out: &mut Output) -> Result<(), Failure> {
    let valid = list_valid(&file.bytes);
    verdict(file, valid, "", &broken(&file.bytes, None), out)?;
    out.lines(pages(&file.bytes))?;
    match beside.snapshot {
        Some(snapshot) if valid && snapshot_valid(snapshot) => show_targets(file, snapshot, out),
        _ => Ok(()),
    }
}

fn show_targets(file: &Shown, snapshot: &[u8], out: &mut Output) -> Result<(), Failure> {
    let accounts: BTreeSet<u16> = list_entries(&file.bytes).map(|entry| entry.account).collect();
    for account in accounts {
        if !account_valid(snapshot, account) {
            out.complain(format_args!("{}: the entry of account {account} in the snapshot is not valid", file.name))?;
            continue;
        }
        let Some(data) = account_data(snapshot, account) else {
            out.complain(format_args!("{}: account {account} is none of the snapshot's", file.name))?;
            continue;
        };
        if list_applies(&file.bytes, account, data) {
            out.line(format_args!("  can be applied to the data of account {account}"))?;
        } else {
            out.line(format_args!("  cannot be applied to the data of account {account}: refused with 12"))?;
            complain(&file.name, &broken(&file.bytes, Some(Target { account, length: data.len() })), out)?;
        }
    }
    Ok(())
}
