//! The control block: the first 1 of every order, shadow records, and the frame table with its claims.

use super::bug::Bug;
use super::snapshot::{Entry, Header};
use super::why::Why;
use super::Vm;
use crate::bytes::*;

/// An entry of the frame table.
#[derive(Clone, Copy)]
pub struct FrameEntry {
    pub usage: u8,
    pub tag: u8,
    pub account: u16,
    pub page: u16,
    /// "for copies, the depth at the store that made the copy; stack and heap keep 0"
    pub depth: u16,
}

impl Vm<'_> {
    /// "1 for headers, buffer lengths and frame D (so reads the first 1 of every order but begin's)"
    pub fn valid(&self) -> Result<Header, Why> {
        let header = Header::read(&self.world.snapshot).ok_or(Why::Snapshot)?;
        let control = &self.world.control;
        if control.len() < RECORDS_AT {
            return Err(Why::Control);
        }
        // "frame count F (0..1,024), live invocations D (1..16), offset of shadow frames ..., offset of the frame table"
        let words: Vec<usize> = (0..4).map(|word| u32_at(control, 4 * word) as usize).collect();
        let ranges = words[0] <= MAX_FRAMES && (1..=MAX_LIVE).contains(&words[1]);
        let offsets = words[2..] == [RECORDS_AT, TABLE_AT];
        // "the length is 4,512+8F"
        if !ranges || !offsets || control.len() != TABLE_AT + FRAME_ENTRY * words[0] {
            return Err(Why::Control);
        }
        self.check_edition_words()?;
        // "Pool, written: F frames of 4,096 bytes."
        if self.world.pool.len() != PAGE * words[0] {
            return Err(Why::Pool);
        }
        // "Frame D must name a program below A and at most 4,096 pages of each region"
        let few_pages = self.region_size(STACK) <= MAX_PAGES && self.region_size(HEAP) <= MAX_PAGES;
        if usize::from(self.program()) >= header.accounts || !few_pages {
            return Err(Why::Record);
        }
        Ok(header)
    }

    /// "1 for the entry of the account concerned"
    pub fn entry(&self, header: &Header, account: u16) -> Result<Entry, Why> {
        Entry::read(&self.world.snapshot, header, account, self.bug).ok_or(Why::Entry)
    }

    pub fn frames(&self) -> usize {
        u32_at(&self.world.control, 0) as usize
    }

    /// D, the number of live invocations.
    pub fn live(&self) -> usize {
        u32_at(&self.world.control, 4) as usize
    }

    /// "depth is D-1"
    pub fn depth(&self) -> usize {
        self.live() - 1
    }

    pub fn record_at(&self, number: usize) -> usize {
        RECORDS_AT + RECORD * number
    }

    /// Frame D's program.
    pub fn program(&self) -> u16 {
        u16_at(&self.world.control, self.record_at(self.live()))
    }

    /// Where frame D holds the size of a region.
    pub fn region_size_at(&self, region: u8) -> usize {
        self.record_at(self.live()) + if region == STACK { 2 } else { 4 }
    }

    /// "n is read from frame D."
    pub fn region_size(&self, region: u8) -> usize {
        usize::from(u16_at(&self.world.control, self.region_size_at(region)))
    }

    pub fn frame_entry(&self, frame: usize) -> FrameEntry {
        let at = TABLE_AT + FRAME_ENTRY * frame;
        let control = &self.world.control;
        let [account, page, depth] = [2, 4, 6].map(|field| u16_at(control, at + field));
        FrameEntry { usage: control[at], tag: control[at + 1], account, page, depth }
    }

    pub fn set_frame_entry(&mut self, frame: usize, entry: FrameEntry) {
        let at = TABLE_AT + FRAME_ENTRY * frame;
        let keeps_last_word = self.has(if entry.usage == FREE { Bug::FreeingKeepsLastWord } else { Bug::TakingKeepsLastWord });
        let control = &mut self.world.control;
        control[at] = entry.usage;
        control[at + 1] = entry.tag;
        put_u16(control, at + 2, entry.account);
        put_u16(control, at + 4, entry.page);
        if !keeps_last_word {
            put_u16(control, at + 6, entry.depth);
        }
    }

    /// "Freeing zeroes the entry and leaves the pool bytes."
    pub fn free_frame(&mut self, frame: usize) {
        self.set_frame_entry(frame, FrameEntry { usage: FREE, tag: 0, account: 0, page: 0, depth: 0 });
    }

    /// "The frame of a page is the lowest-numbered entry that claims it."
    fn claim(&self, claims: impl Fn(&FrameEntry) -> bool, from_top: bool) -> Option<usize> {
        let mut frames = (0..self.frames()).filter(|&frame| claims(&self.frame_entry(frame)));
        if from_top || self.has(Bug::HighestClaimWins) {
            return frames.next_back();
        }
        frames.next()
    }

    /// "A copy claims by account and page"
    pub fn claim_of_copy(&self, account: u16, page: u16) -> Option<usize> {
        let claims = |entry: &FrameEntry| {
            let right = match self.bug {
                Some(Bug::CopyClaimNeedsTagZero) => entry.tag == 0,
                Some(Bug::CopyClaimNeedsDepthZero) => entry.depth == 0,
                Some(Bug::CopyClaimNeedsOwnDepth) => usize::from(entry.depth) == self.depth(),
                _ => true,
            };
            entry.usage == COPY && entry.account == account && entry.page == page && right
        };
        self.claim(claims, self.has(Bug::CopyFoundFromTop))
    }

    /// "a stack or heap frame by page alone"
    pub fn claim_of_region(&self, region: u8, page: u16) -> Option<usize> {
        self.claim(|entry| entry.usage == region && entry.page == page, false)
    }
}
