//! What the edition decides: where the current program is, and so which segments there are and what a fetch may read.

use super::access::{Access, Kind, Segment};
use super::bug::Bug;
use super::why::Why;
use super::Vm;
use crate::bytes::*;

impl Vm<'_> {
    fn is_older(&self) -> bool {
        let word = u32_at(&self.world.control, EDITION_AT);
        let read = if self.has(Bug::EditionWordAsByte) { word & 0xFF } else { word };
        read == OLDER
    }

    /// "a u32 edition (1 older, 2 newer) and a zero u32; any other word there is unfit, 1"
    pub fn check_edition_words(&self) -> Result<(), Why> {
        let edition = u32_at(&self.world.control, EDITION_AT);
        let known = match self.bug {
            Some(Bug::EditionWordIgnored) => true,
            Some(Bug::EditionWordAsByte) => EDITIONS.contains(&(edition & 0xFF)),
            _ => EDITIONS.contains(&edition),
        };
        if !known {
            return Err(Why::EditionWord);
        }
        if u32_at(&self.world.control, ZERO_AT) != 0 && !self.has(Bug::ZeroWordIgnored) {
            return Err(Why::ZeroWord);
        }
        Ok(())
    }

    /// Older: "index 3 of type 0 is reserved (4 for every kind)".
    pub fn in_edition(&self, segment: Segment, kind: Kind) -> Result<Segment, Why> {
        if segment != Segment::Program || !self.is_older() || self.has(Bug::OlderHasProgramSegment) {
            return Ok(segment);
        }
        let told_seven = kind == Kind::Fetch && self.has(Bug::OlderProgramSegmentToldSeven);
        Err(if told_seven { Why::Forbidden } else { Why::NoSegment })
    }

    /// Newer: "Fetch is allowed in 0/3 only." Older: "Fetch is allowed in type 3 for the current program's account ...; elsewhere it is 7."
    pub fn may_fetch(&self, access: &Access) -> bool {
        match access.segment {
            Segment::Program => true,
            Segment::Data if self.is_older() => self.is_own(access) && !self.has(Bug::OlderFetchesNowhere),
            Segment::Data => self.is_own(access) && self.has(Bug::NewerFetchesFromData),
            _ => false,
        }
    }

    /// "the current program's account", whatever its owner and its leave to write
    fn is_own(&self, access: &Access) -> bool {
        match self.bug {
            Some(Bug::FetchOfAnyAccount) => true,
            Some(Bug::FetchOfFirstInvocation) => access.index == u16_at(&self.world.control, self.record_at(1)),
            Some(Bug::FetchJudgedAsStore) => access.index == self.program() && self.may_store_to_data(access),
            _ => access.index == self.program(),
        }
    }

    /// What a planted mistake makes of the edition given to a begin; none if it leaves it alone.
    pub fn mistaken_edition(&self, edition: u32) -> Option<u32> {
        let mistaken = match self.bug? {
            Bug::BeginOfAnyEdition if edition != OLDER => NEWER,
            Bug::EditionAsByte => edition & 0xFF,
            Bug::EditionAs16Bits => edition & 0xFFFF,
            _ => return None,
        };
        Some(mistaken)
    }

    /// Call and return keep the edition, but for this mistake.
    pub fn forget_edition(&mut self, bug: Bug) {
        if self.has(bug) {
            put_u32(&mut self.world.control, EDITION_AT, NEWER);
        }
    }
}
