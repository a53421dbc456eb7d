//! A proved memory layer for a virtual machine with segmented memory.
//!
//! A virtual machine runs small programs over *accounts*. This crate is the memory that such a program sees: it turns 48-bit
//! addresses into bytes, decides who may store where, copies an account's page at the first store to it, and at the end lists the
//! pages that changed. It does not run instructions.
//!
//! The host lends three buffers, and [`Memory`] holds them; the library keeps no state besides.
//!
//! | Buffer | Holds | Length |
//! |-|-|-|
//! | snapshot, read only | accounts, block contexts, the transaction | that of [`SnapshotBuilder::build`] |
//! | control block | the invocations and the table of frames | [`control_len`]`(frames)` |
//! | pool | frames of 4,096 bytes for copied pages, stack and heap | [`pool_len`]`(frames)` |
//!
//! A whole host:
//!
#![doc = concat!("```\n", include_str!("../examples/host.rs"), "```")]
//!
//! Programs of two [editions](Edition) of the memory layout run over the same buffers: begin says which it is.
//!
//! A program passes data to its host by [records](Buffer) in its memory: [`Memory`] reads and writes each as a whole.
//!
//! Every call accepts every input and answers. What it does not allow is an `Err` with a [`Refusal`], and then no lent byte has
//! changed. All numbers in memory are little-endian.

#![deny(missing_docs)]
#![deny(unsafe_op_in_unsafe_fn)]

mod account;
mod address;
mod changes;
mod edition;
pub mod inspect;
pub mod layout;
mod memory;
mod place;
mod records;
mod refusal;
mod segment;
mod snapshot;
#[allow(missing_docs)]
pub mod sys;
mod typed;

pub use account::Account;
pub use address::{Address, Fields};
pub use changes::{apply, Change, ChangeList};
pub use edition::Edition;
pub use layout::{change_list_len, control_len, pool_len, PAGE};
pub use memory::{Memory, Registers};
pub use place::{Kind, PagePlace, Place, Region};
pub use records::{Buffer, CallRecord, Event, Location, Returned};
pub use refusal::Refusal;
pub use segment::Segment;
pub use snapshot::{account_data, BuildError, SnapshotBuilder};
