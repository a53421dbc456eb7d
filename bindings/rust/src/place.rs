//! What a translation takes and answers.

use crate::refusal::{check, check_access};
use crate::{sys, Refusal};
use std::ops::Range;

/// The kind of an access.
#[repr(u8)]
#[derive(Clone, Copy, Debug, PartialEq, Eq, Hash)]
pub enum Kind {
    /// A load of 1, 2, 4 or 8 bytes.
    Load = 0,
    /// A store of 1, 2, 4 or 8 bytes.
    Store = 1,
    /// A fetch of 1, 2, 4 or 8 bytes of the current program.
    Fetch = 2,
    /// A load of 1 to 4,096 bytes within one page.
    LoadSpan = 3,
    /// A store of 1 to 4,096 bytes within one page.
    StoreSpan = 4,
}

/// A region whose size the program chooses.
#[repr(u8)]
#[derive(Clone, Copy, Debug, PartialEq, Eq, Hash)]
pub enum Region {
    /// The stack.
    Stack = 2,
    /// The heap.
    Heap = 3,
}

/// Where the bytes of an access lie.
#[derive(Clone, Copy, Debug, PartialEq, Eq, Hash)]
pub enum Place {
    /// In the snapshot.
    Snapshot {
        /// First byte, from the snapshot's start.
        at: usize,
    },
    /// In the control block.
    Control {
        /// First byte, from the control block's start.
        at: usize,
    },
    /// Nowhere: every byte reads as 0.
    Zeros,
    /// In the pool.
    Pool {
        /// First byte, from the pool's start.
        at: usize,
    },
    /// In a frame of the pool that a store would first take for a copy of the page.
    Take {
        /// First byte once the copy is made, from the pool's start.
        at: usize,
        /// The frame that would be taken: the highest free one.
        frame: u16,
        /// The account whose page would be copied.
        account: u16,
        /// The page of that account's data.
        page: u16,
    },
}

impl Place {
    /// Where a byte is absent, `at` is the distance.
    pub(crate) fn from_raw(raw: sys::Place) -> Result<Place, Refusal> {
        check_access(sys::Outcome { distance: raw.at as u16, number: raw.number })?;
        let at = raw.at as usize;
        Ok(match raw.place {
            1 => Place::Snapshot { at },
            2 => Place::Control { at },
            3 => Place::Zeros,
            4 => Place::Pool { at },
            5 => Place::Take { at, frame: raw.frame, account: raw.account, page: raw.page },
            other => unreachable!("the library has no place {other}"),
        })
    }
}

/// Where the bytes of an account's page lie.
#[derive(Clone, Debug, PartialEq, Eq, Hash)]
pub enum PagePlace {
    /// This part of the snapshot: the page was not stored to.
    Snapshot(Range<usize>),
    /// This part of the pool, the copy that stores go to.
    Pool(Range<usize>),
}

impl PagePlace {
    pub(crate) fn from_raw(raw: sys::View) -> Result<PagePlace, Refusal> {
        check(raw.number)?;
        let part = raw.start as usize..(raw.start + raw.length) as usize;
        Ok(match raw.holder {
            1 => PagePlace::Snapshot(part),
            2 => PagePlace::Pool(part),
            other => unreachable!("the library has no holder {other}"),
        })
    }
}
