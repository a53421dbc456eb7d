//! Snapshots.

use super::bytes::{with_word, words};
use super::layout::*;

/// The entry of an account, whether it keeps the rules or not.
#[derive(Clone, Copy)]
pub struct Account {
    pub flags: u16,
    pub owner: u16,
    pub length: usize,
    pub start: usize,
    pub zero: usize,
    /// Every byte of the metadata.
    pub metadata: u8,
}

impl Account {
    /// An account without data, of which nothing exists.
    pub const ABSENT: Account = Account { flags: 0, owner: 0, length: 0, start: 0, zero: 0, metadata: 0 };

    /// An account of program 0 that may not be written.
    pub fn fixed(length: usize, start: usize, metadata: u8) -> Account {
        Account { flags: EXISTS, length, start, metadata, ..Account::ABSENT }
    }

    /// A writable account.
    pub fn writable(owner: u16, length: usize, start: usize, metadata: u8) -> Account {
        Account { flags: EXISTS | WRITABLE, owner, ..Account::fixed(length, start, metadata) }
    }

    fn bytes(self) -> Vec<u8> {
        let fields = [self.flags.to_le_bytes(), self.owner.to_le_bytes()].concat();
        [fields, words([self.length, self.start, self.zero]), vec![self.metadata; METADATA]].concat()
    }
}

/// Where the accounts' data starts.
pub fn data_at(accounts: usize, contexts: usize, transaction: usize) -> usize {
    account_at(accounts) + CONTEXT * contexts + transaction
}

/// A snapshot of these parts; its block contexts are zeros.
pub fn snapshot(accounts: &[Account], contexts: usize, transaction: &[u8], data: &[u8]) -> Vec<u8> {
    let (contexts_at, data_at) = (account_at(accounts.len()), data_at(accounts.len(), contexts, transaction.len()));
    let counts = [accounts.len(), contexts, transaction.len()];
    let offsets = [SNAPSHOT_HEADER, contexts_at, contexts_at + CONTEXT * contexts, data_at, data_at + data.len()];
    let entries = accounts.iter().flat_map(|account| account.bytes()).collect();
    [words(counts), words(offsets), entries, vec![0; CONTEXT * contexts], transaction.to_vec(), data.to_vec()].concat()
}

/// 6,000 slots: slot i holds i % 251.
pub fn slots() -> Vec<u8> {
    (0..6_000).map(|slot| (slot % 251) as u8).collect()
}

/// The code of a program: 1, 2, .. 16.
pub fn code() -> Vec<u8> {
    (1..=16).collect()
}

/// A booking program, the slots that it owns, another program's account, one that does not exist, and another of the program's, over the
/// slots too.
pub fn sound_mill() -> Vec<u8> {
    let transaction: Vec<u8> = (0..40).collect();
    let at = data_at(5, 1, transaction.len());
    let accounts = [
        Account::fixed(16, at, 7),
        Account::writable(0, 6_000, at + 16, 8),
        Account::writable(9, 100, at + 16, 0),
        Account::ABSENT,
        Account::writable(0, 6_000, at + 16, 0),
    ];
    snapshot(&accounts, 1, &transaction, &[code(), slots()].concat())
}

/// The same, but the data of account 4 passes the total by a byte: its entry is not valid.
pub fn mill() -> Vec<u8> {
    with_word(&sound_mill(), account_at(4) + LENGTH, 6_001)
}

/// The snapshot of document 01's trials: program 0, its account 1, account 2 of a program that does not exist, and the slots, account
/// 5.
pub fn trials(contexts: usize, slots: &[u8]) -> Vec<u8> {
    let transaction = [0; 72];
    let at = data_at(6, contexts, transaction.len());
    let accounts = [
        Account::fixed(16, at, 0),
        Account::writable(0, 100, at, 0),
        Account::writable(3, 100, at, 0),
        Account::ABSENT,
        Account::ABSENT,
        Account::writable(0, slots.len(), at + 100, 0),
    ];
    snapshot(&accounts, contexts, &transaction, &[code().as_slice(), &[0; 84], slots].concat())
}

/// A program without code, its slots, an account that does not exist whatever else its entry holds, and one whose data passes the
/// total.
pub fn inspected() -> Vec<u8> {
    let transaction: Vec<u8> = (0..72).collect();
    let at = data_at(4, 1, transaction.len());
    let accounts = [
        Account::fixed(0, at, 7),
        Account::writable(0, 6_000, at, 8),
        Account { flags: WRITABLE, owner: 9, length: 9, start: 9, zero: 9, metadata: 9 },
        Account::writable(0, 1, at + 6_000, 6),
    ];
    snapshot(&accounts, 1, &transaction, &slots())
}

/// A snapshot without an account.
pub fn empty() -> Vec<u8> {
    snapshot(&[], 0, &[], &[])
}
