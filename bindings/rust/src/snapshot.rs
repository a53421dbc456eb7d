//! The read-only buffer: built from its parts, and asked for an account's data.

use crate::inspect::AccountEntry;
use crate::layout::*;
use crate::Account;
use std::fmt;

/// Puts a snapshot together, so that a host writes no offset by hand.
///
/// Accounts and block contexts are numbered in the order in which they are added.
///
/// ```
/// use hekthumar::{account_data, Account, SnapshotBuilder};
///
/// let mut builder = SnapshotBuilder::new();
/// builder.transaction(*b"two bookings");
/// let program = builder.account(Account::program([0x13, 0, 0, 0]));
/// let slots = builder.account(Account::data(program, *b"free").writable());
/// let snapshot = builder.build()?;
/// assert_eq!(account_data(&snapshot, slots), Some(b"free".as_slice()));
/// # Ok::<(), hekthumar::BuildError>(())
/// ```
#[derive(Clone, Debug, Default, PartialEq, Eq)]
pub struct SnapshotBuilder {
    transaction: Vec<u8>,
    contexts: Vec<[u8; CONTEXT]>,
    accounts: Vec<Account>,
}

impl SnapshotBuilder {
    /// A snapshot without transaction, block contexts and accounts.
    pub fn new() -> SnapshotBuilder {
        SnapshotBuilder::default()
    }

    /// Sets the transaction's bytes, at most 65,536.
    pub fn transaction(&mut self, bytes: impl Into<Vec<u8>>) {
        self.transaction = bytes.into();
    }

    /// Adds a block context, of at most 512, and gives its number.
    pub fn block_context(&mut self, context: &[u8; CONTEXT]) -> u16 {
        self.contexts.push(*context);
        last_number(self.contexts.len())
    }

    /// Adds an account, of at most 64 with at most 2^24 bytes of data each, and gives its number.
    pub fn account(&mut self, account: Account) -> u16 {
        self.accounts.push(account);
        last_number(self.accounts.len())
    }

    /// The snapshot's bytes. Its own limit of 2^31 bytes cannot be reached within the limits of its parts.
    pub fn build(&self) -> Result<Vec<u8>, BuildError> {
        self.check_limits()?;
        let contexts_at = SNAPSHOT_HEADER + ACCOUNT_ENTRY * self.accounts.len();
        let transaction_at = contexts_at + CONTEXT * self.contexts.len();
        let data_at = transaction_at + self.transaction.len();
        let total = data_at + self.accounts.iter().map(|account| account.data.len()).sum::<usize>();

        let mut bytes = Vec::with_capacity(total);
        let counts = [self.accounts.len(), self.contexts.len(), self.transaction.len()];
        for word in counts.into_iter().chain([SNAPSHOT_HEADER, contexts_at, transaction_at, data_at, total]) {
            bytes.extend((word as u32).to_le_bytes());
        }
        let mut at = data_at;
        for account in &self.accounts {
            account.write_entry(&mut bytes, at);
            at += account.data.len();
        }
        bytes.extend(self.contexts.as_flattened());
        bytes.extend(&self.transaction);
        bytes.extend(self.accounts.iter().flat_map(|account| &account.data));
        Ok(bytes)
    }

    fn check_limits(&self) -> Result<(), BuildError> {
        if self.accounts.len() > MAX_ACCOUNTS {
            return Err(BuildError::TooManyAccounts(self.accounts.len()));
        }
        if self.contexts.len() > MAX_CONTEXTS {
            return Err(BuildError::TooManyBlockContexts(self.contexts.len()));
        }
        if self.transaction.len() > MAX_TRANSACTION {
            return Err(BuildError::TransactionTooLong(self.transaction.len()));
        }
        match self.accounts.iter().position(|account| account.data.len() > MAX_DATA) {
            Some(account) => Err(BuildError::DataTooLong { account, length: self.accounts[account].data.len() }),
            None => Ok(()),
        }
    }
}

/// The number of the last of so many; past the 16 bits of a number there is nothing that could be built.
fn last_number(count: usize) -> u16 {
    u16::try_from(count - 1).unwrap_or(u16::MAX)
}

/// A limit that a snapshot exceeds.
#[derive(Clone, Copy, Debug, PartialEq, Eq)]
pub enum BuildError {
    /// More than 64 accounts: so many.
    TooManyAccounts(usize),
    /// More than 512 block contexts: so many.
    TooManyBlockContexts(usize),
    /// A transaction of more than 65,536 bytes: so many.
    TransactionTooLong(usize),
    /// An account with more than 2^24 bytes of data.
    DataTooLong {
        /// The account's number.
        account: usize,
        /// Its bytes of data.
        length: usize,
    },
}

impl fmt::Display for BuildError {
    fn fmt(&self, f: &mut fmt::Formatter<'_>) -> fmt::Result {
        match self {
            BuildError::TooManyAccounts(count) => write!(f, "{count} accounts, of at most {MAX_ACCOUNTS}"),
            BuildError::TooManyBlockContexts(count) => write!(f, "{count} block contexts, of at most {MAX_CONTEXTS}"),
            BuildError::TransactionTooLong(length) => write!(f, "a transaction of {length} bytes, of at most {MAX_TRANSACTION}"),
            BuildError::DataTooLong { account, length } => {
                write!(f, "account {account} with {length} bytes of data, of at most {MAX_DATA}")
            }
        }
    }
}

impl std::error::Error for BuildError {}

/// The original data of an account, where [`ChangeList::apply`](crate::ChangeList::apply) starts from; empty if the account does not
/// exist.
///
/// None if the snapshot has no such account or too few bytes. Whether it is valid otherwise, the calls on
/// [`Memory`](crate::Memory) tell.
pub fn account_data(snapshot: &[u8], account: u16) -> Option<&[u8]> {
    let entry = AccountEntry::read(snapshot, account)?;
    if !entry.exists() {
        return Some(&[]);
    }
    snapshot.get(entry.data_at as usize..)?.get(..entry.length as usize)
}
