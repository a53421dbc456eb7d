//! How deep a page was first touched: what the entry of a copy keeps of it and what the change list hands on.

use super::access::Kind;
use super::bug::Bug;
use super::control::FrameEntry;
use super::Vm;
use crate::bytes::*;

impl Vm<'_> {
    /// "for copies, the depth at the store that made the copy": "depth is D-1"
    pub fn depth_of_copy(&self, kind: Kind) -> u16 {
        let depth = match self.bug {
            Some(Bug::DepthIsLive) => self.live(),
            Some(Bug::StoreTakesDepthZero) if kind == Kind::Store => 0,
            Some(Bug::SpanTakesDepthZero) if kind == Kind::StoreSpan => 0,
            _ => self.depth() + self.ahead,
        };
        depth as u16
    }

    /// A copy's tag byte stays 0.
    pub fn tag_of_copy(&self) -> u8 {
        if self.has(Bug::CopyTagTakesDepth) {
            return self.depth() as u8;
        }
        0
    }

    /// "stack and heap keep 0"
    pub fn depth_of_region(&self, region: u8) -> u16 {
        let mistaken = if region == STACK { Bug::StackPageTakesDepth } else { Bug::HeapPageTakesDepth };
        if self.has(mistaken) {
            return self.depth() as u16;
        }
        0
    }

    /// "then that u16, then a zero u16": whatever the entry of the frame holds.
    pub fn listed_depth(&self, frame: usize) -> [u16; 2] {
        let FrameEntry { tag, depth, .. } = self.frame_entry(frame);
        match self.bug {
            Some(Bug::ListDepthAtCall) => [self.depth() as u16, 0],
            Some(Bug::ListDepthFromTag) => [tag.into(), 0],
            Some(Bug::ListDepthBehindZero) => [0, depth],
            Some(Bug::ListDepthBigEndian) => [depth.swap_bytes(), 0],
            Some(Bug::ListDepthAsByte) => [depth & 0xFF, 0],
            Some(Bug::ListDepthAs32Bits) => {
                let behind = part_or_zeros(&self.world.control, TABLE_AT + FRAME_ENTRY * (frame + 1), 2);
                [depth, u16_at(&behind, 0)]
            }
            _ => [depth, 0],
        }
    }
}
