//! What planted mistakes make of records.

use super::access::{Kind, Spot};
use super::bug::Bug;
use super::control::FrameEntry;
use super::why::{Refusal, Why};
use super::Vm;
use crate::record::{Field, Record, Shape};

impl Vm<'_> {
    pub fn record_length(&self, shape: Shape) -> usize {
        if shape == Shape::Location && self.has(Bug::LocationOf32Bytes) {
            return 32;
        }
        shape.length()
    }

    fn layout(&self, shape: Shape) -> Vec<Field> {
        let mut layout = shape.layout().to_vec();
        match (self.bug, shape) {
            (Some(Bug::PointerAndLengthSwapped), _) => shape.pointers().iter().for_each(|&pointer| layout.swap(pointer, pointer + 1)),
            (Some(Bug::LineAndColumnSwapped), Shape::Location) => layout.swap(2, 3),
            (Some(Bug::EventBuffersSwapped), Shape::Event) => layout.rotate_left(2),
            (Some(Bug::CallBuffersSwapped), Shape::CallRecord) => layout[2..].rotate_left(2),
            (Some(Bug::DiscriminantLast), Shape::Returned) => layout.rotate_right(1),
            _ => {}
        }
        layout
    }

    fn mask_fields(&self, record: &Record) -> Record {
        let (pointer_mask, length_mask) = match self.bug {
            Some(Bug::PointersCutTo48Bits) => ((1 << 48) - 1, u64::MAX),
            Some(Bug::LengthsCutTo32Bits) => (u64::MAX, (1 << 32) - 1),
            _ => return *record,
        };
        let mut fields = record.fields();
        for &pointer in record.shape().pointers() {
            fields[pointer] &= pointer_mask;
            fields[pointer + 1] &= length_mask;
        }
        Record::of(record.shape(), &fields)
    }

    fn reverse_fields(&self, shape: Shape, bytes: &mut [u8]) {
        if self.has(Bug::RecordsBigEndian) {
            shape.layout().iter().for_each(|&(at, width)| bytes[at..at + width].reverse());
        }
    }

    /// A record's bytes; with no mistake those of its layout.
    pub fn encoded(&self, record: &Record) -> Vec<u8> {
        let shape = record.shape();
        let mut bytes = self.mask_fields(record).bytes_by(&self.layout(shape));
        self.reverse_fields(shape, &mut bytes);
        bytes.resize(self.record_length(shape), 0);
        bytes
    }

    /// The record of these bytes; with no mistake by its layout.
    pub fn decoded(&self, shape: Shape, mut bytes: Vec<u8>) -> Record {
        self.reverse_fields(shape, &mut bytes);
        self.mask_fields(&Record::from_bytes_by(shape, &self.layout(shape), &bytes))
    }

    pub fn mistaken_refusal(&self, refusal: Refusal) -> Refusal {
        match self.bug {
            Some(Bug::CrossingRecordToldAbsent) if refusal.why == Why::Crossing => Why::NotPresent.into(),
            Some(Bug::RecordsLoseDistance) => refusal.why.into(),
            _ => refusal,
        }
    }

    fn asks_alignment(&self, address: u64) -> bool {
        self.has(Bug::RecordsAligned) && !address.is_multiple_of(8)
    }

    /// A read that goes another way than by one span load of the whole record; none if no mistake makes it.
    pub fn mistaken_load(&self, shape: Shape, address: u64) -> Option<Result<Record, Refusal>> {
        let load = |at: u64, length| self.load(Kind::LoadSpan, address.wrapping_add(at), length);
        let length = shape.length();
        match self.bug? {
            Bug::RecordsAligned => {
                let misaligned = self.asks_alignment(address) && load(0, length).is_ok();
                misaligned.then_some(Err(Why::Misaligned.into()))
            }
            Bug::ReadAsksLeaveToStore => {
                let refusal = self.translate(Some(Kind::StoreSpan), address, length).err()?;
                (refusal.why == Why::Forbidden).then_some(Err(refusal))
            }
            Bug::ReadByFields => {
                let fields = shape.layout().iter().map(|&(at, width)| load(at as u64, width));
                let bytes: Result<Vec<Vec<u8>>, Refusal> = fields.collect();
                Some(bytes.map(|bytes| self.decoded(shape, bytes.concat())))
            }
            Bug::DiscriminantReadFirst if shape == Shape::Returned => {
                let first = load(0, 8).ok()?;
                (crate::bytes::number(&first) > 1).then_some(Err(Why::Discriminant.into()))
            }
            _ => None,
        }
    }

    /// A write that goes another way than by one span store of the whole record; none if no mistake makes it.
    pub fn mistaken_store(&mut self, address: u64, record: &Record) -> Option<Result<(), Refusal>> {
        let bytes = record.bytes();
        if self.asks_alignment(address) && self.translate(Some(Kind::StoreSpan), address, bytes.len()).is_ok() {
            return Some(Err(Why::Misaligned.into()));
        }
        if self.has(Bug::RecordTakesDepthZero) {
            return Some(self.store_at_depth_zero(address, &bytes));
        }
        let by_fields = self.has(Bug::WrittenByFields).then(|| record.shape().layout())?;
        let store = |&(at, width): &Field| self.store(Kind::StoreSpan, address.wrapping_add(at as u64), &bytes[at..at + width]);
        Some(by_fields.iter().try_for_each(store))
    }

    /// Where the span store takes a copy, its entry is written with the depth 0.
    fn store_at_depth_zero(&mut self, address: u64, bytes: &[u8]) -> Result<(), Refusal> {
        let spot = self.translate(Some(Kind::StoreSpan), address, bytes.len())?;
        self.store(Kind::StoreSpan, address, bytes)?;
        if let Spot::Take { frame, .. } = spot {
            self.set_frame_entry(frame, FrameEntry { depth: 0, ..self.frame_entry(frame) });
        }
        Ok(())
    }

    /// What a record is refused for that no rule names.
    pub fn mistaken_check(&self, kind: Kind, record: &Record) -> Option<Why> {
        let bug = if kind.is_store() { Bug::WriteChecksPointers } else { Bug::ReadChecksPointers };
        let fields = record.fields();
        let has_upper_bits = record.shape().pointers().iter().any(|&pointer| fields[pointer] >> 48 != 0);
        (self.has(bug) && has_upper_bits).then_some(Why::UpperBits)
    }

    /// What a discriminant is taken for; none if it is taken as it is.
    pub fn mistaken_discriminant(&self, kind: Kind, discriminant: u64) -> Option<u64> {
        match (self.bug?, kind) {
            (Bug::AnyDiscriminantRead, Kind::LoadSpan) | (Bug::AnyDiscriminantWritten, Kind::StoreSpan) => Some(0),
            (Bug::ReadDiscriminantAsByte, Kind::LoadSpan) | (Bug::WrittenDiscriminantAsByte, Kind::StoreSpan) => Some(discriminant & 0xFF),
            (Bug::ReadDiscriminantAs32Bits, Kind::LoadSpan) | (Bug::WrittenDiscriminantAs32Bits, Kind::StoreSpan) => {
                Some(discriminant & 0xFFFF_FFFF)
            }
            _ => None,
        }
    }

    /// Whether a wrong discriminant is told where the access is refused for this.
    pub fn is_overtaken(&self, why: Why) -> bool {
        let Some(bug) = self.bug else { return false };
        match why {
            Why::Snapshot | Why::Control | Why::EditionWord | Why::ZeroWord | Why::Pool | Why::Record => {
                bug == Bug::DiscriminantBeforeBuffers
            }
            Why::UpperBits => bug == Bug::DiscriminantBeforeUpperBits,
            Why::NoSegment | Why::NoAccount => bug == Bug::DiscriminantBeforeSegment,
            Why::Entry => bug == Bug::DiscriminantBeforeEntry,
            Why::Forbidden => bug == Bug::DiscriminantBeforePermission,
            Why::Crossing => bug == Bug::DiscriminantBeforeCrossing,
            Why::NotPresent => bug == Bug::DiscriminantBeforePresence,
            Why::Unclaimed => bug == Bug::DiscriminantBeforeClaim,
            Why::Tag => bug == Bug::DiscriminantBeforeTag,
            Why::NoFreeFrame => bug == Bug::DiscriminantBeforeFrame,
            _ => false,
        }
    }

    /// "Every number but 0 changes nothing": what a write told 14 changes all the same.
    pub fn spoil_refused_write(&mut self, address: u64, record: &Record) {
        let bytes = match self.bug {
            Some(Bug::WrongDiscriminantWritten) => record.bytes(),
            // The bytes that are there: only the frame shows.
            Some(Bug::WrongDiscriminantTakesFrame) => match self.load(Kind::LoadSpan, address, record.shape().length()) {
                Ok(bytes) => bytes,
                Err(_) => return,
            },
            _ => return,
        };
        let _ = self.store(Kind::StoreSpan, address, &bytes);
    }

    /// What a refused read gives beside its number; none for zeros.
    pub fn mistaken_refused_read(&self, shape: Shape, address: u64) -> Option<Record> {
        if self.has(Bug::RefusedReadGivesBytes) {
            return self.load_record(shape, address).ok();
        }
        None
    }
}
