//! The numbers of the formats: how long the buffers and their parts are, and how many parts there may be.

/// Bytes of a page, and of a frame of the pool.
pub const PAGE: usize = 4_096;

/// Bytes of the address space of a segment: offsets have 24 bits.
pub const SEGMENT: usize = 1 << 24;

/// Bytes of a snapshot's header: eight numbers of 32 bits.
pub const SNAPSHOT_HEADER: usize = 32;

/// Bytes of an account's entry in a snapshot.
pub const ACCOUNT_ENTRY: usize = 80;

/// Bytes of an account's metadata, the last of its entry.
pub const METADATA: usize = 64;

/// Bytes of a block context.
pub const CONTEXT: usize = 120;

/// The most accounts of a snapshot.
pub const MAX_ACCOUNTS: usize = 64;

/// The most block contexts of a snapshot.
pub const MAX_CONTEXTS: usize = 512;

/// The longest transaction.
pub const MAX_TRANSACTION: usize = 65_536;

/// The longest data of an account.
pub const MAX_DATA: usize = SEGMENT;

/// The longest snapshot.
pub const MAX_SNAPSHOT: usize = 1 << 31;

/// Bytes of the control block's header: six numbers of 32 bits.
pub const CONTROL_HEADER: usize = 24;

/// Bytes of the record of an invocation in the shadow stack.
pub const SHADOW_RECORD: usize = 264;

/// The most live invocations. The shadow stack has one record more: record 0 is zeros.
pub const MAX_INVOCATIONS: usize = 16;

/// Bytes of the shadow stack.
pub const SHADOW_STACK: usize = SHADOW_RECORD * (MAX_INVOCATIONS + 1);

/// Where the table of frames starts in the control block.
pub const FRAME_TABLE: usize = CONTROL_HEADER + SHADOW_STACK;

/// Bytes of a frame's entry in that table.
pub const FRAME_ENTRY: usize = 8;

/// The most frames of a pool.
pub const MAX_FRAMES: usize = 1_024;

/// The most pages of the stack, and of the heap.
pub const MAX_REGION: usize = SEGMENT / PAGE;

/// Bytes of a change list's header: four numbers of 32 bits.
pub const LIST_HEADER: usize = 16;

/// Bytes of a page's entry in a change list.
pub const LIST_ENTRY: usize = 12;

/// Bytes of a [`Buffer`](crate::Buffer) in a program's memory: two numbers of 64 bits.
pub const BUFFER: usize = 16;

/// Bytes of an [`Event`](crate::Event): two buffers.
pub const EVENT: usize = 2 * BUFFER;

/// Bytes of a [`Location`](crate::Location): a buffer and two numbers of 32 bits.
pub const LOCATION: usize = BUFFER + 8;

/// Bytes of a [`CallRecord`](crate::CallRecord): three buffers.
pub const CALL_RECORD: usize = 3 * BUFFER;

/// Bytes of a [`Returned`](crate::Returned): a number of 64 bits and a buffer.
pub const RETURNED: usize = 8 + BUFFER;

/// Length of the control block for a number of frames, at most [`MAX_FRAMES`].
pub const fn control_len(frames: usize) -> usize {
    FRAME_TABLE + FRAME_ENTRY * frames
}

/// Length of the pool for a number of frames, at most [`MAX_FRAMES`].
pub const fn pool_len(frames: usize) -> usize {
    PAGE * frames
}

/// Length of a change list of a number of pages. With the number of frames in its place, it is room for any list.
pub const fn change_list_len(pages: usize) -> usize {
    LIST_HEADER + (LIST_ENTRY + PAGE) * pages
}
