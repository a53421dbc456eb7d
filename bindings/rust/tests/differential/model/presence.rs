//! Which bytes are present, and how far from an access's first byte the first absent one is.

use super::access::{Access, Kind, Segment};
use super::bug::Bug;
use super::why::{Refusal, Why};
use super::Vm;
use crate::bytes::*;

impl Vm<'_> {
    /// Every byte of the access is asked.
    pub fn is_present(&self, access: &Access) -> bool {
        let asked = if self.has(Bug::PresenceOfFirstByteOnly) { 1 } else { access.length };
        (access.offset..access.offset + asked).all(|offset| self.byte_is_present(access, offset))
    }

    /// The column "Bytes present".
    fn byte_is_present(&self, access: &Access, offset: usize) -> bool {
        match access.segment {
            Segment::Transaction => offset < access.header.transaction,
            Segment::Shadow => offset < TABLE_AT - RECORDS_AT,
            Segment::Program | Segment::Data => offset < access.data_length(),
            // "offset/4,096 below B and remainder below 120"
            Segment::Context => {
                offset / PAGE < access.header.contexts && (offset % PAGE < CONTEXT || self.has(Bug::ContextRemainderUntested))
            }
            Segment::Metadata => offset < METADATA,
            // "top n stack pages: offsets from 2^24-4,096n"
            Segment::Region(STACK) if !self.has(Bug::StackFromBottom) => {
                (MAX_DATA - PAGE * self.region_size(STACK)..MAX_DATA).contains(&offset)
            }
            // "lowest n heap pages"
            Segment::Region(region) => offset < PAGE * self.region_size(region),
        }
    }

    /// "With 13 an access also gives the distance from its first byte to the first absent one, else 0."
    pub fn refusal(&self, access: &Access, why: Why) -> Refusal {
        let given = why == Why::NotPresent || self.has(Bug::DistanceInOtherRefusals);
        Refusal { why, distance: if given { self.distance(access) } else { 0 } }
    }

    /// Each byte is asked in its order, up to the first absent one.
    fn distance(&self, access: &Access) -> u16 {
        let present = (0..access.length).take_while(|place| self.byte_is_present(access, access.offset + place)).count();
        self.mistaken_distance(access, present).unwrap_or(present) as u16
    }

    /// What a planted mistake makes of this many bytes present before the first absent one; none if it leaves the count alone.
    fn mistaken_distance(&self, access: &Access, present: usize) -> Option<usize> {
        let Access { kind, segment, offset, length, .. } = *access;
        let mistaken = match self.bug? {
            Bug::DistanceAlwaysZero => 0,
            Bug::DistanceIsLength => length,
            Bug::DistanceFromEnd => length - present,
            Bug::DistanceOfLastPresent => present.saturating_sub(1),
            Bug::DistanceAsByte => present & 0xFF,
            Bug::DistanceIsOffsetInPage => offset % PAGE,
            Bug::DistanceFromPageStart => offset % PAGE + present,
            Bug::FetchLosesDistance if kind == Kind::Fetch => 0,
            Bug::StoresLoseDistance if kind.is_store() => 0,
            Bug::SpansLoseDistance if kind.is_span() => 0,
            Bug::ContextDistanceAcrossGap if segment == Segment::Context => self.packed_contexts_left(access).min(length),
            // The end of what is present, taken for all that counts.
            Bug::StackDistanceToEnd if segment == Segment::Region(STACK) => (MAX_DATA - offset).min(length),
            _ => return None,
        };
        Some(mistaken)
    }

    /// Bytes up to the last context's end, as if no gap lay between one context and the next.
    fn packed_contexts_left(&self, access: &Access) -> usize {
        (CONTEXT * access.header.contexts).saturating_sub(CONTEXT * (access.offset / PAGE) + access.offset % PAGE)
    }
}
