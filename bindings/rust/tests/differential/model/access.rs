//! Translation, with the order of refusals of an access, and the accesses that take its answer apart.

use super::bug::Bug;
use super::control::FrameEntry;
use super::snapshot::{Entry, Header};
use super::why::{Refusal, Why};
use super::Vm;
use crate::bytes::*;

#[derive(Clone, Copy, PartialEq, Eq)]
pub enum Kind {
    Load,
    Store,
    Fetch,
    LoadSpan,
    StoreSpan,
}

impl Kind {
    pub fn from_code(code: u8) -> Option<Kind> {
        [Kind::Load, Kind::Store, Kind::Fetch, Kind::LoadSpan, Kind::StoreSpan].get(usize::from(code)).copied()
    }

    pub fn is_span(self) -> bool {
        matches!(self, Kind::LoadSpan | Kind::StoreSpan)
    }

    pub fn is_store(self) -> bool {
        matches!(self, Kind::Store | Kind::StoreSpan)
    }
}

/// The rows of the table of segments.
#[derive(Clone, Copy, PartialEq, Eq)]
pub enum Segment {
    Transaction,
    Shadow,
    Program,
    Context,
    Metadata,
    Data,
    Region(u8),
}

/// An access past the first 1, 2, 3 and 4, with the entry of the account concerned.
pub struct Access {
    pub kind: Kind,
    pub segment: Segment,
    pub index: u16,
    pub offset: usize,
    pub length: usize,
    pub header: Header,
    pub entry: Option<Entry>,
}

impl Access {
    fn page(&self) -> u16 {
        (self.offset / PAGE) as u16
    }

    /// Length of the data of the account concerned.
    pub fn data_length(&self) -> usize {
        self.entry.map_or(0, |entry| entry.length)
    }
}

/// The refusals between the entry's 1 and those of frames.
#[derive(Clone, Copy)]
enum Step {
    Alignment,
    Permission,
    Crossing,
    Presence,
    /// In the right order this is asked last, where the frame is looked for.
    Frame,
}

/// Translation's answer where it is not a refusal.
pub enum Spot {
    Snapshot(usize),
    Control(usize),
    Zeros,
    Pool(usize),
    Take { frame: usize, account: u16, page: u16, at: usize },
}

impl Vm<'_> {
    pub fn translate(&self, kind: Option<Kind>, address: u64, length: usize) -> Result<Spot, Refusal> {
        // "Order for an access: 1 for headers, buffer lengths and frame D ...; 2; 3 for upper bits; 4; 1 for the entry ..."
        let header = self.valid()?;
        let kind = kind.ok_or(Why::UnknownKind)?;
        self.check_length(kind, length)?;
        if address >> 48 != 0 && !self.has(Bug::UpperBitsIgnored) {
            return Err(if self.has(Bug::UpperBitsToldThirteen) { Why::NotPresent } else { Why::UpperBits }.into());
        }
        // "Of the 48 bits, 47..40 are type, 39..24 index, 23..0 offset."
        let (code, index, offset) = ((address >> 40) as u8, (address >> 24) as u16, (address & 0xFF_FFFF) as usize);
        let index = if self.has(Bug::IndexTruncatedToByte) { index & 0xFF } else { index };
        let segment = segment(&header, code, index).and_then(|segment| self.in_edition(segment, kind))?;
        let entry = self.entry_concerned(&header, segment, index)?;
        let access = Access { kind, segment, index, offset, length, header, entry };
        let checked = self.order().iter().try_for_each(|step| self.check(*step, &access));
        checked.and_then(|()| self.spot(&access)).map_err(|why| self.refusal(&access, why))
    }

    /// "Loads, stores and fetches have size 1, 2, 4 or 8"; "A span load or span store moves 1 to 4,096 bytes"
    fn check_length(&self, kind: Kind, length: usize) -> Result<(), Why> {
        let longest = if self.has(Bug::SpanOf4097) { PAGE + 1 } else { PAGE };
        let right = if kind.is_span() { (1..=longest).contains(&length) } else { [1, 2, 4, 8].contains(&length) };
        right.then_some(()).ok_or(Why::Length)
    }

    /// The index's account in types 2 and 3, the current program's in 0/3, none in the other rows.
    fn entry_concerned(&self, header: &Header, segment: Segment, index: u16) -> Result<Option<Entry>, Why> {
        let account = match segment {
            Segment::Metadata | Segment::Data => index,
            Segment::Program => self.program(),
            _ => return Ok(None),
        };
        if self.has(Bug::EntryUntested) {
            return Ok(self.entry(header, account).ok());
        }
        self.entry(header, account).map(Some)
    }

    /// "5; 7 by the table's fixed, account and fetch rules; 6; 3 for presence", which is 13 "in the same places of the order"
    fn order(&self) -> &[Step] {
        use Step::*;
        match self.bug {
            Some(Bug::PermissionBeforeAlignment) => &[Permission, Alignment, Crossing, Presence],
            Some(Bug::CrossingBeforePermission) => &[Alignment, Crossing, Permission, Presence],
            Some(Bug::PresenceBeforeCrossing) => &[Alignment, Permission, Presence, Crossing],
            Some(Bug::NoFrameBeforePresence) => &[Alignment, Permission, Crossing, Frame, Presence],
            _ => &[Alignment, Permission, Crossing, Presence],
        }
    }

    fn check(&self, step: Step, access: &Access) -> Result<(), Why> {
        let (done, why) = match step {
            Step::Alignment => (self.is_aligned(access), Why::Misaligned),
            Step::Permission => (self.is_permitted(access), Why::Forbidden),
            Step::Crossing => (access.offset % PAGE + access.length <= PAGE, Why::Crossing),
            Step::Presence if self.has(Bug::AbsentToldThree) => (self.is_present(access), Why::UpperBits),
            Step::Presence => (self.is_present(access), Why::NotPresent),
            Step::Frame => (self.has_frame(access), Why::NoFreeFrame),
        };
        done.then_some(()).ok_or(why)
    }

    /// "an offset divisible by it"; a span "is never misaligned"
    fn is_aligned(&self, access: &Access) -> bool {
        let divisor = if self.has(Bug::AlignmentOfEight) { 8 } else { access.length };
        let exempt = access.kind.is_span() && !(self.has(Bug::SpansAligned) && access.length == 8);
        exempt || access.offset.is_multiple_of(divisor)
    }

    /// The column "Store" but for tags, the edition's rule for a fetch, and "Loads are allowed in every row."
    fn is_permitted(&self, access: &Access) -> bool {
        match access.kind {
            Kind::Load | Kind::LoadSpan => true,
            Kind::Fetch => self.may_fetch(access),
            Kind::Store | Kind::StoreSpan => match access.segment {
                Segment::Data => self.may_store_to_data(access),
                Segment::Region(_) => true,
                _ => false,
            },
        }
    }

    /// "writable, and owned by the current program"
    pub fn may_store_to_data(&self, access: &Access) -> bool {
        access.entry.is_some_and(|entry| entry.writable && self.owns(&entry, &access.header))
    }

    /// "owned by the current program"
    fn owns(&self, entry: &Entry, header: &Header) -> bool {
        let first_program = u16_at(&self.world.control, self.record_at(1));
        match self.bug {
            Some(Bug::OwnerForgotten) => true,
            Some(Bug::OwnerOfFirstInvocation) => entry.owner == first_program,
            Some(Bug::StoreAsksProgramEntry) => {
                entry.owner == self.program() && self.entry(header, self.program()).is_ok_and(|program| program.exists)
            }
            _ => entry.owner == self.program(),
        }
    }

    /// A store to account data has a frame, or one to take.
    fn has_frame(&self, access: &Access) -> bool {
        let needed = access.segment == Segment::Data && access.kind.is_store();
        !needed || self.claim_of_copy(access.index, access.page()).is_some() || !self.free_frames().is_empty()
    }

    fn spot(&self, access: &Access) -> Result<Spot, Why> {
        let (header, offset) = (&access.header, access.offset);
        let data_at = access.entry.map_or(0, |entry| entry.data_at);
        Ok(match access.segment {
            Segment::Transaction => Spot::Snapshot(header.transaction_at + offset),
            Segment::Shadow if self.has(Bug::ShadowWithoutRecordZero) => Spot::Control(self.record_at(1) + offset),
            Segment::Shadow => Spot::Control(RECORDS_AT + offset),
            // "0/3 keeps the original"
            Segment::Program if self.has(Bug::ProgramReadsCopy) => match self.claim_of_copy(self.program(), access.page()) {
                Some(frame) => Spot::Pool(PAGE * frame + offset % PAGE),
                None => Spot::Snapshot(data_at + offset),
            },
            Segment::Program => Spot::Snapshot(data_at + offset),
            Segment::Context => Spot::Snapshot(header.contexts_at + CONTEXT * (offset / PAGE) + offset % PAGE),
            Segment::Metadata => match access.entry {
                Some(entry) if entry.exists || self.has(Bug::AbsentMetadataShown) => Spot::Snapshot(entry.metadata_at + offset),
                _ => Spot::Zeros,
            },
            Segment::Data => return self.spot_in_data(access, data_at),
            Segment::Region(region) => return self.spot_in_region(access, region),
        })
    }

    /// "Later loads in type 3 and views read the frame"; a store without a frame takes the highest free one.
    fn spot_in_data(&self, access: &Access, data_at: usize) -> Result<Spot, Why> {
        let (account, page, within) = (access.index, access.page(), access.offset % PAGE);
        let store = access.kind.is_store();
        let reads_original = match self.bug {
            Some(Bug::LoadReadsOriginal) => !store,
            Some(Bug::FetchReadsOriginal) => access.kind == Kind::Fetch,
            _ => false,
        };
        if let Some(frame) = self.claim_of_copy(account, page).filter(|_| !reads_original) {
            if store && self.has(Bug::TagAskedOfCopies) && usize::from(self.frame_entry(frame).tag) < self.depth() {
                return Err(Why::Tag);
            }
            return Ok(Spot::Pool(PAGE * frame + within));
        }
        if !store {
            return Ok(Spot::Snapshot(data_at + access.offset));
        }
        // "8 is given exactly when a frame is needed and no entry has use 0."
        let frame = self.frame_for_copy(access.kind).ok_or(Why::NoFreeFrame)?;
        Ok(Spot::Take { frame, account, page, at: PAGE * frame + within })
    }

    /// "then for stack and heap 1 if no frame claims the page, 7 by tag for a store"
    fn spot_in_region(&self, access: &Access, region: u8) -> Result<Spot, Why> {
        let frame = self.claim_of_region(region, access.page()).ok_or(Why::Unclaimed)?;
        let tag = usize::from(self.frame_entry(frame).tag);
        // "tag at or above the depth": so "a shallower program may then store to what a deeper one left"
        let storable = match self.bug {
            Some(Bug::TagMustExceedDepth) => tag > self.depth(),
            Some(Bug::TagMustEqualDepth) => tag == self.depth(),
            _ => tag >= self.depth(),
        };
        if access.kind.is_store() && !storable {
            return Err(Why::Tag);
        }
        Ok(Spot::Pool(PAGE * frame + access.offset % PAGE))
    }

    pub fn load(&self, kind: Kind, address: u64, length: usize) -> Result<Vec<u8>, Refusal> {
        let (buffer, at) = match self.translate(Some(kind), address, length)? {
            Spot::Snapshot(at) => (&self.world.snapshot, at),
            Spot::Control(at) => (&self.world.control, at),
            Spot::Pool(at) => (&self.world.pool, at),
            Spot::Zeros => return Ok(vec![0; length]),
            Spot::Take { .. } => unreachable!("only a store takes a frame"),
        };
        Ok(part_or_zeros(buffer, at, length))
    }

    pub fn store(&mut self, kind: Kind, address: u64, bytes: &[u8]) -> Result<(), Refusal> {
        let at = match self.translate(Some(kind), address, bytes.len())? {
            Spot::Pool(at) => {
                self.touch_again(at / PAGE);
                at
            }
            Spot::Take { frame, account, page, at } => {
                // "writes its entry (use 1, tag 0, account, page, 0)", whose last u16 "becomes, for copies, the depth"
                let (tag, depth) = (self.tag_of_copy(), self.depth_of_copy(kind));
                self.set_frame_entry(frame, FrameEntry { usage: COPY, tag, account, page, depth });
                self.copy_original(frame);
                at
            }
            _ => unreachable!("a store outside accounts and regions is not permitted"),
        };
        let truncated = kind == Kind::Store && bytes.len() == 8 && self.has(Bug::StoreOfEightTruncated);
        let written = if truncated { &bytes[..4] } else { bytes };
        self.world.pool[at..at + written.len()].copy_from_slice(written);
        Ok(())
    }

    /// "A page with a frame is stored to in that frame", whose entry and other bytes stay, but for these mistakes.
    fn touch_again(&mut self, frame: usize) {
        let entry = self.frame_entry(frame);
        match self.bug {
            Some(Bug::SecondStoreCopiesAgain) if entry.usage == COPY => self.copy_original(frame),
            Some(Bug::DepthOfLastStore) if entry.usage == COPY => {
                self.set_frame_entry(frame, FrameEntry { depth: self.depth() as u16, ..entry });
            }
            _ => {}
        }
    }

    /// "copies the page's original bytes, fills the rest with zeros"
    fn copy_original(&mut self, frame: usize) {
        let claimed = self.frame_entry(frame);
        let header = self.valid().expect("a store was accepted");
        let entry = self.entry(&header, claimed.account).ok();
        let (length, data_at) = entry.map_or((0, 0), |entry| (entry.length, entry.data_at));
        let live = if self.has(Bug::ShortPageCopiedPastEnd) { PAGE } else { live_bytes(length, claimed.page) };
        let mut page = part_or_zeros(&self.world.snapshot, data_at + PAGE * usize::from(claimed.page), live);
        page.resize(PAGE, 0);
        self.world.pool[PAGE * frame..PAGE * (frame + 1)].copy_from_slice(&page);
    }
}

/// The table's rows by type and index, in either edition. "Any other pair, also 0/0 and all of types 1, 4 and 6, is no segment."
fn segment(header: &Header, code: u8, index: u16) -> Result<Segment, Why> {
    let below = usize::from(index) < header.accounts;
    match (code, index) {
        (0, 1) => Ok(Segment::Transaction),
        (0, 2) => Ok(Segment::Shadow),
        (0, 3) => Ok(Segment::Program),
        (0, 4) => Ok(Segment::Context),
        (2, _) if below => Ok(Segment::Metadata),
        (3, _) if below => Ok(Segment::Data),
        (2 | 3, _) => Err(Why::NoAccount),
        (5, 0) => Ok(Segment::Region(STACK)),
        (7, 0) => Ok(Segment::Region(HEAP)),
        _ => Err(Why::NoSegment),
    }
}
