//! Call and resize.

use super::bug::Bug;
use super::control::FrameEntry;
use super::why::Why;
use super::Vm;
use crate::bytes::*;

/// The page number at a distance from a region's base, whose highest page is the stack's base; or the distance of a page number.
pub fn from_base(region: u8, place: usize) -> usize {
    if region == STACK {
        (MAX_PAGES - 1).wrapping_sub(place)
    } else {
        place
    }
}

impl Vm<'_> {
    pub fn call(&mut self, program: u16, registers: &[u8]) -> Result<(), Why> {
        // "1, 2, 9, then 4 and entry as for begin"
        let header = self.valid()?;
        if registers.len() != REGISTERS {
            return Err(Why::Length);
        }
        let most = if self.has(Bug::CallAtFifteenRefused) { MAX_LIVE - 1 } else { MAX_LIVE };
        if self.live() >= most {
            return Err(Why::Depth);
        }
        self.check_program(&header, program)?;
        // "the new frame D holds the program, the caller's two sizes, two zero bytes and those registers"
        let sizes = if self.has(Bug::CallDropsSizes) { [0, 0] } else { [self.region_size(STACK), self.region_size(HEAP)] };
        let live = self.live() + 1;
        let at = self.record_at(live);
        let padding = if self.has(Bug::CallKeepsPadding) { u16_at(&self.world.control, at + 6) } else { 0 };
        let control = &mut self.world.control;
        put_u32(control, 4, live as u32);
        put_u16(control, at, program);
        put_u16(control, at + 2, sizes[0] as u16);
        put_u16(control, at + 4, sizes[1] as u16);
        put_u16(control, at + 6, padding);
        control[at + 8..at + RECORD].copy_from_slice(registers);
        self.forget_edition(Bug::CallForgetsEdition);
        Ok(())
    }

    pub fn resize(&mut self, region: u8, pages: usize) -> Result<(), Why> {
        // "1, 2 (neither stack nor heap), 10"
        self.valid()?;
        if region != STACK && region != HEAP {
            return Err(Why::UnknownKind);
        }
        if pages > MAX_PAGES {
            return Err(Why::TooManyPages);
        }
        let size = self.region_size(region);
        if pages > size {
            self.grow(region, size, pages)?;
        } else {
            self.shrink(region, size, pages)?;
        }
        // "On success frame D's size of that region becomes n. Equal n changes nothing."
        let at = self.region_size_at(region);
        put_u16(&mut self.world.control, at, pages as u16);
        Ok(())
    }

    /// "Growing takes the lowest free frames for the new pages, nearest page first, zeroed, with entry (use, depth, 0, page, 0)"
    fn grow(&mut self, region: u8, size: usize, pages: usize) -> Result<(), Why> {
        let free = self.frames_for_region(region);
        // "8 exactly when fewer are free than needed"
        if free.len() < pages - size {
            return Err(Why::NoFreeFrame);
        }
        let mut distances: Vec<usize> = (size..pages).collect();
        if self.has(Bug::GrowthOrderReversed) {
            distances.reverse();
        }
        if self.has(Bug::GrowthReusesClaim) {
            distances.retain(|&distance| self.claim_of_region(region, from_base(region, distance) as u16).is_none());
        }
        let tag = if self.has(Bug::GrowthTagZero) { 0 } else { self.depth() as u8 };
        for (frame, distance) in free.into_iter().zip(distances) {
            let (page, depth) = (from_base(region, distance) as u16, self.depth_of_region(region));
            self.set_frame_entry(frame, FrameEntry { usage: region, tag, account: 0, page, depth });
            if !self.has(Bug::GrownPageNotZeroed) {
                self.world.pool[PAGE * frame..PAGE * (frame + 1)].fill(0);
            }
        }
        Ok(())
    }

    /// "Shrinking frees the outermost pages: 1 if one has no frame, then 7 if one has a tag below the depth."
    fn shrink(&mut self, region: u8, size: usize, pages: usize) -> Result<(), Why> {
        let departing = match self.bug {
            Some(Bug::ShrinkFreesNearest) => 0..size - pages,
            Some(Bug::EqualSizeAsksClaims) if size == pages => 0..size,
            _ => pages..size,
        };
        let claims: Vec<Option<usize>> = departing.map(|d| self.claim_of_region(region, from_base(region, d) as u16)).collect();
        let unclaimed = claims.contains(&None);
        let kept = self.keeps(&claims);
        if kept && self.has(Bug::ShrinkTagBeforeClaim) {
            return Err(Why::Tag);
        }
        if unclaimed {
            return Err(Why::Unclaimed);
        }
        if kept {
            return Err(Why::Tag);
        }
        for frame in claims.into_iter().flatten().filter(|_| size != pages) {
            self.release(region, frame);
        }
        Ok(())
    }

    /// "free it where no page further out has a tag below its depth": every departing page is asked for its tag. They come nearest first.
    fn keeps(&self, claims: &[Option<usize>]) -> bool {
        let asked = match self.bug {
            Some(Bug::ShrinkAsksNearestTag) => &claims[..claims.len().min(1)],
            Some(Bug::ShrinkAsksOutermostTag) => &claims[claims.len().saturating_sub(1)..],
            _ => claims,
        };
        let mut tags = asked.iter().flatten().map(|&frame| usize::from(self.frame_entry(frame).tag));
        let own_only = self.has(Bug::ShrinkFreesOwnOnly);
        tags.any(|tag| tag < self.depth() || (own_only && tag != self.depth()))
    }

    /// Frees the frame of a departing page; another claim of that page stays.
    fn release(&mut self, region: u8, frame: usize) {
        let page = self.frame_entry(frame).page;
        self.free_frame(frame);
        if self.has(Bug::ShrinkClearsPool) {
            self.world.pool[PAGE * frame..PAGE * (frame + 1)].fill(0);
        }
        if self.has(Bug::ShrinkFreesAllClaims) {
            while let Some(other) = self.claim_of_region(region, page) {
                self.free_frame(other);
            }
        }
    }
}
