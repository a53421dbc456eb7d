//! The snapshot, read only: its header and the entries of accounts.

use super::bug::Bug;
use crate::bytes::*;

/// "Header of eight u32", where it is valid.
#[derive(Clone, Copy)]
pub struct Header {
    pub accounts: usize,
    pub contexts: usize,
    pub transaction: usize,
    pub contexts_at: usize,
    pub transaction_at: usize,
    pub data_at: usize,
    pub total: usize,
}

impl Header {
    pub fn read(snapshot: &[u8]) -> Option<Header> {
        if snapshot.len() < SNAPSHOT_HEADER {
            return None;
        }
        let words: Vec<usize> = (0..8).map(|word| u32_at(snapshot, 4 * word) as usize).collect();
        let (accounts, contexts, transaction) = (words[0], words[1], words[2]);
        // "account count A (0..64), block contexts B (0..512), transaction length T (0..65,536)"
        if accounts > 64 || contexts > 512 || transaction > 65_536 {
            return None;
        }
        // "the offsets of the account table (32), of the contexts (32+80A), of the transaction (32+80A+120B) and of the data"
        let contexts_at = SNAPSHOT_HEADER + ACCOUNT_ENTRY * accounts;
        let transaction_at = contexts_at + CONTEXT * contexts;
        let data_at = transaction_at + transaction;
        let total = words[7];
        let offsets_right = words[3..7] == [SNAPSHOT_HEADER, contexts_at, transaction_at, data_at];
        // "the total length, which equals the buffer's length, is not below the data offset and is at most 2^31"
        let total_right = total == snapshot.len() && total >= data_at && total <= 1 << 31;
        let header = Header { accounts, contexts, transaction, contexts_at, transaction_at, data_at, total };
        (offsets_right && total_right).then_some(header)
    }
}

/// What a valid entry says.
#[derive(Clone, Copy)]
pub struct Entry {
    pub exists: bool,
    pub writable: bool,
    pub owner: u16,
    pub length: usize,
    pub data_at: usize,
    pub metadata_at: usize,
}

impl Entry {
    /// The entry of an account below A; none if it is not valid.
    pub fn read(snapshot: &[u8], header: &Header, account: u16, bug: Option<Bug>) -> Option<Entry> {
        let at = SNAPSHOT_HEADER + ACCOUNT_ENTRY * usize::from(account);
        let flags = u16_at(snapshot, at);
        let owner = u16_at(snapshot, at + 2);
        let length = u32_at(snapshot, at + 4) as usize;
        let data_at = u32_at(snapshot, at + 8) as usize;
        let fourth = u32_at(snapshot, at + 12);
        let metadata_at = at + 16;
        let exists = flags & 1 != 0;
        // "flags are 0..3 and, where it exists, its fourth word is 0, its length is at most 2^24 and its data lies between ..."
        let fourth_right = fourth == 0 || bug == Some(Bug::FourthWordIgnored);
        let inside = data_at >= header.data_at && data_at + length <= header.total;
        let data_right = inside || (length == 0 && bug == Some(Bug::EmptyDataAnywhere));
        let asked = exists || bug == Some(Bug::AbsentEntryTested);
        if flags > 3 || (asked && !(fourth_right && length <= MAX_DATA && data_right)) {
            return None;
        }
        if !exists {
            // "One that does not exist has length 0, metadata of zeros and no leave to write, whatever else it holds."
            return Some(Entry { exists, writable: false, owner, length: 0, data_at: 0, metadata_at });
        }
        Some(Entry { exists, writable: flags & 2 != 0, owner, length, data_at, metadata_at })
    }
}
