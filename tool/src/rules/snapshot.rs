//! The rules of a snapshot.

use super::{Broken, Findings};
use hekthumar::inspect::{AccountEntry, SnapshotHeader};
use hekthumar::layout::*;

/// The rules that a snapshot's header or length breaks.
pub fn broken(snapshot: &[u8]) -> Vec<Broken> {
    let mut findings = Findings::default();
    let Some(header) = SnapshotHeader::read(snapshot) else {
        let rule = format!("a snapshot has a header of {SNAPSHOT_HEADER} bytes; found {}", snapshot.len());
        findings.broken(snapshot.len(), rule);
        return findings.0;
    };
    findings.at_most(0, "the account count", MAX_ACCOUNTS, header.accounts);
    findings.at_most(4, "the block context count", MAX_CONTEXTS, header.contexts);
    findings.at_most(8, "the transaction length", MAX_TRANSACTION, header.transaction);
    offsets(&mut findings, header);
    findings.equal(28, "the total, the file's length,", snapshot.len() as u64, header.total);
    findings.at_least(28, "the total, which is not below the data's offset,", header.data_at.into(), header.total);
    findings.at_most(28, "the total", MAX_SNAPSHOT, header.total);
    findings.0
}

/// The four offsets are those that the counts give.
fn offsets(findings: &mut Findings, header: SnapshotHeader) {
    let contexts_at = SNAPSHOT_HEADER as u64 + ACCOUNT_ENTRY as u64 * u64::from(header.accounts);
    let transaction_at = contexts_at + CONTEXT as u64 * u64::from(header.contexts);
    let data_at = transaction_at + u64::from(header.transaction);
    findings.equal(12, "the account table's offset", SNAPSHOT_HEADER as u64, header.accounts_at);
    findings.equal(16, "the contexts' offset, 32 + 80 * accounts,", contexts_at, header.contexts_at);
    findings.equal(20, "the transaction's offset, the contexts' + 120 * contexts,", transaction_at, header.transaction_at);
    findings.equal(24, "the data's offset, the transaction's + its length,", data_at, header.data_at);
}

/// The rules that an account's entry breaks, in a snapshot whose header is right.
pub fn account_broken(snapshot: &[u8], account: u16) -> Vec<Broken> {
    let mut findings = Findings::default();
    let (Some(header), Some(entry)) = (SnapshotHeader::read(snapshot), AccountEntry::read(snapshot, account)) else {
        return findings.0;
    };
    let at = AccountEntry::at(account);
    findings.at_most(at, "the word of flags, 1 exists and 2 writable,", 3, entry.flags);
    if entry.exists() {
        findings.at_most(at + 4, "the data's length", MAX_DATA, entry.length);
        findings.at_least(at + 8, "the data's offset, which is not below the accounts' data,", header.data_at.into(), entry.data_at);
        let end = u64::from(entry.data_at) + u64::from(entry.length);
        findings.at_most(at + 8, "the data's end, its offset + its length,", header.total as usize, end);
        findings.equal(at + 12, "the fourth word", 0, entry.zero);
    }
    findings.0
}
