//! The numbers of document 01's layouts, with the longer header of document 02's request Six and the longer list entry of its request Eight.
//! They are written apart from the library's, so that the two can disagree.

/// Bytes of a page, and of a frame of the pool.
pub const PAGE: usize = 4_096;

/// The most accounts, block contexts and bytes of a transaction, the longest data and the longest snapshot.
pub const MAX_ACCOUNTS: usize = 64;
pub const MAX_CONTEXTS: usize = 512;
pub const MAX_TRANSACTION: usize = 65_536;
pub const MAX_DATA: usize = 1 << 24;
pub const MAX_SNAPSHOT: usize = 1 << 31;

/// The most frames, live invocations, and pages of stack or heap.
pub const MAX_FRAMES: usize = 1_024;
pub const MAX_INVOCATIONS: usize = 16;
pub const MAX_REGION: u16 = 4_096;

/// A snapshot: its header, the entry of an account with its metadata, a block context.
pub const SNAPSHOT_HEADER: usize = 32;
pub const ACCOUNT_ENTRY: usize = 80;
pub const METADATA: usize = 64;
pub const CONTEXT: usize = 120;

/// Where the words of a snapshot's header stand.
pub const ACCOUNTS: usize = 0;
pub const CONTEXTS: usize = 4;
pub const TRANSACTION: usize = 8;
pub const ACCOUNTS_AT: usize = 12;
pub const CONTEXTS_AT: usize = 16;
pub const TRANSACTION_AT: usize = 20;
pub const DATA_AT: usize = 24;
pub const TOTAL: usize = 28;

/// Where the fields of an account's entry stand.
pub const FLAGS: usize = 0;
pub const LENGTH: usize = 4;
pub const START: usize = 8;
pub const ZERO: usize = 12;

/// The flags of an account.
pub const EXISTS: u16 = 1;
pub const WRITABLE: u16 = 2;

/// A control block: its header, the records of the shadow stack, the entry of a frame.
pub const CONTROL_HEADER: usize = 24;
pub const RECORD: usize = 264;
pub const RECORDS: usize = MAX_INVOCATIONS + 1;
pub const REGISTERS: usize = 32;
pub const FRAME_TABLE: usize = CONTROL_HEADER + RECORD * RECORDS;
pub const FRAME_ENTRY: usize = 8;

/// Where the words of a control block's header stand.
pub const FRAMES: usize = 0;
pub const INVOCATIONS: usize = 4;
pub const RECORDS_AT: usize = 8;
pub const TABLE_AT: usize = 12;
pub const EDITION: usize = 16;
pub const LAST_WORD: usize = 20;

/// The editions.
pub const OLDER: usize = 1;
pub const NEWER: usize = 2;

/// The header of a control block made before editions: it ends where the edition stands.
pub const FORMER_HEADER: usize = EDITION;

/// Where the fields of a record stand.
pub const PROGRAM: usize = 0;
pub const STACK_PAGES: usize = 2;
pub const HEAP_PAGES: usize = 4;

/// Where the depth of a copy stands in its frame's entry.
pub const COPY_DEPTH: usize = 6;

/// The uses of a frame.
pub const FREE: u8 = 0;
pub const COPY: u8 = 1;
pub const STACK: u8 = 2;
pub const HEAP: u8 = 3;

/// A change list: its header, the entry of a page.
pub const LIST_HEADER: usize = 16;
pub const LIST_ENTRY: usize = 12;

/// The entry of a page in a change list made before depths were listed: it ends where the depth stands.
pub const FORMER_LIST_ENTRY: usize = DEPTH;

/// Where the words of a list's header stand.
pub const PAGES: usize = 0;
pub const ENTRIES_AT: usize = 4;
pub const PAGES_AT: usize = 8;
pub const LIST_TOTAL: usize = 12;

/// Where the fields of a page's entry stand.
pub const LIVE: usize = 4;
pub const DEPTH: usize = 8;
pub const LAST_HALF: usize = 10;

/// Where the entry of an account starts in a snapshot.
pub fn account_at(account: usize) -> usize {
    SNAPSHOT_HEADER + ACCOUNT_ENTRY * account
}

/// Where a record of the shadow stack starts in a control block.
pub fn record_at(number: usize) -> usize {
    CONTROL_HEADER + RECORD * number
}

/// Length of a control block.
pub fn control_length(frames: usize) -> usize {
    FRAME_TABLE + FRAME_ENTRY * frames
}

/// Where the entry of a page starts in a change list.
pub fn list_entry_at(number: usize) -> usize {
    LIST_HEADER + LIST_ENTRY * number
}
