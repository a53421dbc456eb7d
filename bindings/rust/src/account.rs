//! An account of a snapshot to be built.

use crate::inspect::{EXISTS, WRITABLE};
use crate::layout::METADATA;

/// An account to be put into a snapshot with [`SnapshotBuilder::account`](crate::SnapshotBuilder::account).
///
/// ```
/// use hekthumar::Account;
///
/// let program = Account::program([0x13, 0, 0, 0]);
/// let slots = Account::data(0, vec![0; 6_000]).writable().metadata([1; 64]);
/// # let _ = (program, slots);
/// ```
#[derive(Clone, Debug, PartialEq, Eq)]
pub struct Account {
    flags: u16,
    owner: u16,
    pub(crate) data: Vec<u8>,
    metadata: [u8; METADATA],
}

impl Account {
    /// An account with the code of a program: read only, owner 0.
    pub fn program(code: impl Into<Vec<u8>>) -> Account {
        Account::data(0, code)
    }

    /// An account with data, owned by the program with this account number. The owner may store to it once it is
    /// [writable](Account::writable).
    pub fn data(owner: u16, bytes: impl Into<Vec<u8>>) -> Account {
        Account { flags: EXISTS, owner, data: bytes.into(), metadata: [0; METADATA] }
    }

    /// An account number without an account behind it: no data, metadata of zeros.
    pub fn absent() -> Account {
        Account { flags: 0, owner: 0, data: Vec::new(), metadata: [0; METADATA] }
    }

    /// Lets the owner store to the account.
    pub fn writable(self) -> Account {
        Account { flags: self.flags | WRITABLE, ..self }
    }

    /// Sets the account's metadata, which is zeros otherwise.
    pub fn metadata(self, metadata: [u8; METADATA]) -> Account {
        Account { metadata, ..self }
    }

    /// Appends the account's entry for data at this offset.
    pub(crate) fn write_entry(&self, bytes: &mut Vec<u8>, data_at: usize) {
        bytes.extend(self.flags.to_le_bytes());
        bytes.extend(self.owner.to_le_bytes());
        for word in [self.data.len() as u32, data_at as u32, 0] {
            bytes.extend(word.to_le_bytes());
        }
        bytes.extend(self.metadata);
    }
}
