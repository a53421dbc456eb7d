//! The three lent buffers as a person asks for what they hold.

use hekthumar::inspect::{frame_entries, AccountEntry, ControlHeader, FrameEntry, Invocation, SnapshotHeader};
use hekthumar::layout::PAGE;
use hekthumar::{Edition, Region};

/// The use byte of a frame that holds a copy of an account's page.
pub const COPY: u8 = 1;

/// The three buffers, to be read.
#[derive(Clone, Copy)]
pub struct World<'a> {
    pub snapshot: &'a [u8],
    pub control: &'a [u8],
    pub pool: &'a [u8],
}

impl<'a> World<'a> {
    /// How many accounts the snapshot's header counts; none without a header.
    pub fn accounts(self) -> u32 {
        SnapshotHeader::read(self.snapshot).map_or(0, |header| header.accounts)
    }

    /// The entry of an account.
    pub fn account(self, account: u16) -> Option<AccountEntry> {
        AccountEntry::read(self.snapshot, account)
    }

    /// Length of an account's data: 0 if it does not exist.
    pub fn data_length(self, account: u16) -> usize {
        self.account(account).filter(AccountEntry::exists).map_or(0, |entry| entry.length as usize)
    }

    /// The edition, if it is one of the two.
    pub fn edition(self) -> Option<Edition> {
        ControlHeader::read(self.control).and_then(|header| Edition::from_number(header.edition))
    }

    /// How many invocations are live.
    pub fn invocations(self) -> usize {
        ControlHeader::read(self.control).map_or(0, |header| header.invocations as usize)
    }

    /// The record of the current invocation.
    pub fn current(self) -> Option<Invocation> {
        Invocation::read(self.control, self.invocations())
    }

    /// Pages of a region, as the current invocation has them.
    pub fn pages(self, region: Region) -> usize {
        self.current().map_or(0, |current| usize::from(size(&current, region)))
    }

    /// How many frames the pool has room for.
    pub fn frames(self) -> usize {
        self.pool.len() / PAGE
    }

    /// How many frames are free.
    pub fn free_frames(self) -> usize {
        frame_entries(self.control).filter(|entry| entry.usage == 0).count()
    }

    /// The frame of a page of the stack or the heap: the lowest that holds it.
    pub fn frame_of(self, region: Region, page: usize) -> Option<(usize, FrameEntry)> {
        let holds = |entry: &FrameEntry| entry.usage == region as u8 && usize::from(entry.page) == page;
        frame_entries(self.control).enumerate().find(|(_, entry)| holds(entry))
    }
}

/// Pages of a region in an invocation's record.
pub fn size(invocation: &Invocation, region: Region) -> u16 {
    match region {
        Region::Stack => invocation.stack,
        Region::Heap => invocation.heap,
    }
}

/// What a region is called.
pub fn region_name(region: Region) -> &'static str {
    match region {
        Region::Stack => "stack",
        Region::Heap => "heap",
    }
}
