//! What a snapshot holds.

use super::{complain, verdict, Shown};
use crate::failure::Failure;
use crate::output::Output;
use crate::rules::snapshot::{account_broken, broken};
use crate::text::count;
use crate::verdict::{account_valid, snapshot_valid};
use hekthumar::inspect::{AccountEntry, SnapshotHeader};

/// Shows a snapshot's header and its accounts.
pub fn show(file: &Shown, out: &mut Output) -> Result<(), Failure> {
    let valid = snapshot_valid(&file.bytes);
    if let Some(header) = SnapshotHeader::read(&file.bytes) {
        out.line(described(header))?;
    }
    verdict(file, valid, "", &broken(&file.bytes), out)?;
    let accounts = SnapshotHeader::read(&file.bytes).filter(|_| valid).map_or(0, |header| header.accounts as u16);
    (0..accounts).try_for_each(|account| show_account(file, account, out))
}

fn described(header: SnapshotHeader) -> String {
    let (accounts, contexts) = (count(header.accounts.into(), "account"), count(header.contexts.into(), "block context"));
    let transaction = count(header.transaction.into(), "byte");
    format!(
        "  {accounts}, {contexts} from {}, a transaction of {transaction} from {}, data from {}",
        header.contexts_at, header.transaction_at, header.data_at
    )
}

/// Shows an account's entry: flags, owner and data.
fn show_account(file: &Shown, account: u16, out: &mut Output) -> Result<(), Failure> {
    let Some(entry) = AccountEntry::read(&file.bytes, account) else {
        return Ok(());
    };
    let valid = account_valid(&file.bytes, account);
    let flags = match (entry.exists(), entry.writable()) {
        (false, _) => "does not exist",
        (true, false) => "exists, read only",
        (true, true) => "exists, writable",
    };
    let data = format!(", owner {}, {} from {}", entry.owner, count(entry.length.into(), "byte"), entry.data_at);
    let verdict = if valid { "" } else { ": not valid, every call on it is refused with 1" };
    let data = if entry.exists() { data.as_str() } else { "" };
    out.line(format_args!("  account {account}: flags {} ({flags}){data}{verdict}", entry.flags))?;
    if valid {
        return Ok(());
    }
    complain(&format!("{}: account {account}", file.name), &account_broken(&file.bytes, account), out)
}
