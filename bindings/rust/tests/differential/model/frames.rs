//! Which free frame is taken: "Account copies shall take the highest free frame; stack and heap keep the lowest."

use super::access::{Kind, Spot};
use super::bug::Bug;
use super::Vm;
use crate::bytes::*;

impl Vm<'_> {
    /// Free means use 0; other uses are "never handed out". Lowest first.
    pub fn free_frames(&self) -> Vec<usize> {
        let searched = if self.has(Bug::LastFrameNeverFree) { self.frames().saturating_sub(1) } else { self.frames() };
        let is_free = |usage: u8| usage == FREE || (usage > HEAP && self.has(Bug::UnknownUseIsFree));
        (0..searched).filter(|&frame| is_free(self.frame_entry(frame).usage)).collect()
    }

    /// The frame that a store of this kind takes for a copy; none if no entry has use 0.
    pub fn frame_for_copy(&self, kind: Kind) -> Option<usize> {
        let free = self.free_frames();
        match self.bug {
            Some(Bug::CopyTakesLowestFrame) => free.first().copied(),
            Some(Bug::SpanTakesLowestFrame) if kind == Kind::StoreSpan => free.first().copied(),
            Some(Bug::CopyTakesHighestInUse) => self.used_frames().last().or(free.last()).copied(),
            Some(Bug::CopyTakesFrameAboveUsed) => free.into_iter().find(|&frame| frame == self.above_used()),
            Some(Bug::CopyWrapsAboveUsed) => free.into_iter().find(|&frame| frame == self.above_used() % self.frames()),
            Some(Bug::CopyTakesFrameBelowCopies) => free.into_iter().rfind(|&frame| frame < self.lowest_copy()),
            Some(Bug::CopyNeverTakesLastFrame) => free.into_iter().rfind(|frame| frame + 1 < self.frames()),
            Some(Bug::CopyNeverTakesFrameZero) => free.into_iter().rfind(|&frame| frame > 0),
            _ => free.last().copied(),
        }
    }

    /// The frames that new pages of a region take, in this order.
    pub fn frames_for_region(&self, region: u8) -> Vec<usize> {
        let mut free = self.free_frames();
        let mistaken = if region == STACK { Bug::StackTakesHighestFrame } else { Bug::HeapTakesHighestFrame };
        if self.has(mistaken) {
            free.reverse();
        }
        free
    }

    /// "Translation's named frame and the store follow": what the call `translate` names is what a store takes, but for this mistake.
    pub fn named(&self, spot: Spot) -> Spot {
        match (spot, self.free_frames().first()) {
            (Spot::Take { account, page, at, .. }, Some(&frame)) if self.has(Bug::TranslationNamesLowestFrame) => {
                Spot::Take { frame, account, page, at: PAGE * frame + at % PAGE }
            }
            (spot, _) => spot,
        }
    }

    fn used_frames(&self) -> Vec<usize> {
        (0..self.frames()).filter(|&frame| self.frame_entry(frame).usage != FREE).collect()
    }

    /// The frame above the topmost one in use, which may be past the end; the first if none is in use.
    fn above_used(&self) -> usize {
        self.used_frames().last().map_or(0, |frame| frame + 1)
    }

    /// The lowest copy; past the end if there is none.
    fn lowest_copy(&self) -> usize {
        (0..self.frames()).find(|&frame| self.frame_entry(frame).usage == COPY).unwrap_or(self.frames())
    }
}
