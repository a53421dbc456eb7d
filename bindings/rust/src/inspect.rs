//! What the buffers hold, field by field, for a tool that shows them to a person.
//!
//! Nothing is judged here: a field is read wherever its bytes are there, and `None` says that they are not. Whether a buffer is
//! valid, the calls on [`Memory`](crate::Memory) tell.
//!
//! ```
//! use hekthumar::inspect::{frame_entries, ControlHeader, Invocation};
//! use hekthumar::*;
//!
//! let mut builder = SnapshotBuilder::new();
//! let program = builder.account(Account::program([0x13, 0, 0, 0]));
//! let snapshot = builder.build().unwrap();
//! let (mut control, mut pool) = (vec![0; control_len(2)], vec![0; pool_len(2)]);
//! let mut memory = Memory::new(&snapshot, &mut control, &mut pool);
//! memory.begin(program, Edition::Newer)?;
//! memory.resize(Region::Heap, 1)?;
//!
//! let header = ControlHeader::read(&control).unwrap();
//! assert_eq!((header.invocations, Edition::from_number(header.edition)), (1, Some(Edition::Newer)));
//! let current = Invocation::read(&control, 1).unwrap();
//! assert_eq!((current.stack, current.heap), (1, 1));
//! let uses: Vec<u8> = frame_entries(&control).map(|entry| entry.usage).collect();
//! assert_eq!(uses, [Region::Stack as u8, Region::Heap as u8]);
//! # Ok::<(), Refusal>(())
//! ```

use crate::layout::*;

/// Flag of an account that exists.
pub(crate) const EXISTS: u16 = 1;
/// Flag of an account that its owner may store to.
pub(crate) const WRITABLE: u16 = 2;

/// The header of a snapshot. Offsets count from the snapshot's start.
#[derive(Clone, Copy, Debug, PartialEq, Eq)]
pub struct SnapshotHeader {
    /// How many accounts there are.
    pub accounts: u32,
    /// How many block contexts there are.
    pub contexts: u32,
    /// Length of the transaction.
    pub transaction: u32,
    /// Offset of the account entries.
    pub accounts_at: u32,
    /// Offset of the block contexts.
    pub contexts_at: u32,
    /// Offset of the transaction.
    pub transaction_at: u32,
    /// Offset of the accounts' data.
    pub data_at: u32,
    /// Length of the snapshot.
    pub total: u32,
}

impl SnapshotHeader {
    /// The header at the start of a snapshot.
    pub fn read(snapshot: &[u8]) -> Option<SnapshotHeader> {
        let [accounts, contexts, transaction, accounts_at, contexts_at, transaction_at, data_at, total] = words(snapshot)?;
        Some(SnapshotHeader { accounts, contexts, transaction, accounts_at, contexts_at, transaction_at, data_at, total })
    }
}

/// The entry of an account in a snapshot, without its metadata.
#[derive(Clone, Copy, Debug, PartialEq, Eq)]
pub struct AccountEntry {
    /// 1 exists, 2 writable.
    pub flags: u16,
    /// Number of the program that owns the account.
    pub owner: u16,
    /// Length of the data.
    pub length: u32,
    /// Offset of the data from the snapshot's start.
    pub data_at: u32,
    /// 0 in a valid entry of an account that exists.
    pub zero: u32,
}

impl AccountEntry {
    /// The entry of this account, if the header counts it among the accounts.
    pub fn read(snapshot: &[u8], account: u16) -> Option<AccountEntry> {
        if u32::from(account) >= SnapshotHeader::read(snapshot)?.accounts {
            return None;
        }
        let entry = snapshot.get(Self::at(account)..)?.get(..ACCOUNT_ENTRY)?;
        let [length, data_at, zero] = words(&entry[4..])?;
        Some(AccountEntry { flags: half(entry, 0)?, owner: half(entry, 2)?, length, data_at, zero })
    }

    /// Where the entry of this account starts in a snapshot.
    pub fn at(account: u16) -> usize {
        SNAPSHOT_HEADER + ACCOUNT_ENTRY * usize::from(account)
    }

    /// Whether the account exists.
    pub fn exists(&self) -> bool {
        self.flags & EXISTS != 0
    }

    /// Whether the account's flags let its owner store to it. One that does not exist gives no leave, whatever this says.
    pub fn writable(&self) -> bool {
        self.flags & WRITABLE != 0
    }
}

/// The header of a control block. Offsets count from the block's start.
#[derive(Clone, Copy, Debug, PartialEq, Eq)]
pub struct ControlHeader {
    /// How many frames there are.
    pub frames: u32,
    /// How many invocations are live.
    pub invocations: u32,
    /// Offset of the shadow stack.
    pub shadow_at: u32,
    /// Offset of the table of frames.
    pub table_at: u32,
    /// The edition: in a valid header a number that [`Edition::from_number`](crate::Edition::from_number) knows.
    pub edition: u32,
    /// 0 in a valid header.
    pub zero: u32,
}

impl ControlHeader {
    /// The header at the start of a control block.
    pub fn read(control: &[u8]) -> Option<ControlHeader> {
        let [frames, invocations, shadow_at, table_at, edition, zero] = words(control)?;
        Some(ControlHeader { frames, invocations, shadow_at, table_at, edition, zero })
    }
}

/// The record of an invocation in the shadow stack.
#[derive(Clone, Copy, Debug, PartialEq, Eq)]
pub struct Invocation {
    /// Account number of the program.
    pub program: u16,
    /// Pages of the stack.
    pub stack: u16,
    /// Pages of the heap. While callees run this is the number at the call; a return sets it to the number that the callee had.
    pub heap: u16,
    /// The registers that the caller handed over.
    pub registers: [u64; 32],
}

impl Invocation {
    /// The record with this number, 1 to [`MAX_INVOCATIONS`]; the current invocation's is that of the number of live ones.
    pub fn read(control: &[u8], number: usize) -> Option<Invocation> {
        let record = control.get(Self::at(number)..)?.get(..SHADOW_RECORD)?;
        let mut registers = [0; 32];
        for (register, bytes) in registers.iter_mut().zip(record[8..].as_chunks().0) {
            *register = u64::from_le_bytes(*bytes);
        }
        Some(Invocation { program: half(record, 0)?, stack: half(record, 2)?, heap: half(record, 4)?, registers })
    }

    /// Where the record with this number starts in a control block.
    pub fn at(number: usize) -> usize {
        CONTROL_HEADER.saturating_add(SHADOW_RECORD.saturating_mul(number))
    }
}

/// The entry of a frame in a control block.
#[derive(Clone, Copy, Debug, PartialEq, Eq)]
pub struct FrameEntry {
    /// 0 free, 1 copy of an account's page, 2 stack, 3 heap; a frame with any other use is held by nobody and never handed out.
    pub usage: u8,
    /// Of a stack or heap page: the depth of the invocation that added it.
    pub tag: u8,
    /// Of a copy: the account.
    pub account: u16,
    /// The page that the frame holds.
    pub page: u16,
    /// Of a copy: the depth at the store that made it.
    pub depth: u16,
}

impl FrameEntry {
    /// The entry of this frame.
    pub fn read(control: &[u8], frame: usize) -> Option<FrameEntry> {
        let entry = control.get(Self::at(frame)..)?.get(..FRAME_ENTRY)?;
        Some(FrameEntry { usage: entry[0], tag: entry[1], account: half(entry, 2)?, page: half(entry, 4)?, depth: half(entry, 6)? })
    }

    /// Where the entry of this frame starts in a control block.
    pub fn at(frame: usize) -> usize {
        FRAME_TABLE.saturating_add(FRAME_ENTRY.saturating_mul(frame))
    }
}

/// The entries of all frames that a control block has room for, frame 0 first.
pub fn frame_entries(control: &[u8]) -> impl Iterator<Item = FrameEntry> + '_ {
    (0..).map_while(|frame| FrameEntry::read(control, frame))
}

/// The header of a change list. Offsets count from the list's start.
#[derive(Clone, Copy, Debug, PartialEq, Eq)]
pub struct ListHeader {
    /// How many pages the list has.
    pub pages: u32,
    /// Offset of the entries.
    pub entries_at: u32,
    /// Offset of the pages' bytes.
    pub pages_at: u32,
    /// Length of the list.
    pub total: u32,
}

impl ListHeader {
    /// The header at the start of a change list.
    pub fn read(list: &[u8]) -> Option<ListHeader> {
        let [pages, entries_at, pages_at, total] = words(list)?;
        Some(ListHeader { pages, entries_at, pages_at, total })
    }
}

/// The entry of a page in a change list.
#[derive(Clone, Copy, Debug, PartialEq, Eq)]
pub struct ListEntry {
    /// The account.
    pub account: u16,
    /// The page of the account's data.
    pub page: u16,
    /// How many bytes of the page are live.
    pub live: u32,
    /// The depth at the first store to the page.
    pub depth: u16,
    /// The number behind it, 0 in every list that is well-formed.
    pub zero: u16,
}

impl ListEntry {
    /// The entry with this number, counted from 0.
    pub fn read(list: &[u8], number: usize) -> Option<ListEntry> {
        let entry = list.get(Self::at(number)..)?.first_chunk()?;
        Some(ListEntry::decode(entry))
    }

    /// Where the entry with this number starts in a list.
    pub fn at(number: usize) -> usize {
        LIST_HEADER.saturating_add(LIST_ENTRY.saturating_mul(number))
    }

    pub(crate) fn decode(entry: &[u8; LIST_ENTRY]) -> ListEntry {
        let [a0, a1, p0, p1, l0, l1, l2, l3, d0, d1, z0, z1] = *entry;
        ListEntry {
            account: u16::from_le_bytes([a0, a1]),
            page: u16::from_le_bytes([p0, p1]),
            live: u32::from_le_bytes([l0, l1, l2, l3]),
            depth: u16::from_le_bytes([d0, d1]),
            zero: u16::from_le_bytes([z0, z1]),
        }
    }
}

/// The numbers of 32 bits at the start of the bytes.
fn words<const N: usize>(bytes: &[u8]) -> Option<[u32; N]> {
    let words = bytes.get(..4 * N)?.as_chunks().0;
    Some(std::array::from_fn(|i| u32::from_le_bytes(words[i])))
}

/// The number of 16 bits at this place.
fn half(bytes: &[u8], at: usize) -> Option<u16> {
    bytes.get(at..)?.first_chunk().map(|half| u16::from_le_bytes(*half))
}
