//! The segments that an address can name.

use crate::{Address, Fields, Refusal};

/// A part of the address space. Offsets are counted from the segment's start.
///
/// ```
/// use hekthumar::{Address, Segment};
///
/// let address = Segment::Data(5).at(0x800)?;
/// assert_eq!(address, Address(0x0300_0500_0800));
/// assert_eq!(address.segment()?, Segment::Data(5));
/// # Ok::<(), hekthumar::Refusal>(())
/// ```
#[derive(Clone, Copy, Debug, PartialEq, Eq, Hash)]
pub enum Segment {
    /// The transaction's bytes; read only.
    Transaction,
    /// The 17 records of 264 bytes that describe the invocations; read only.
    ShadowStack,
    /// The original data of the current program's account; read only, and the only segment to fetch from. The
    /// [older](crate::Edition::Older) edition has no such segment.
    Program,
    /// The block contexts, 120 bytes at each multiple of 4,096; read only.
    BlockContexts,
    /// The 64 bytes of metadata of this account; read only.
    Metadata(u16),
    /// The data of this account; to be stored to if it is writable and the current program owns it. In the older edition, that of the
    /// current program is what to fetch from.
    Data(u16),
    /// The stack, which grows down from offset 2^24.
    Stack,
    /// The heap, which grows up from offset 0.
    Heap,
}

impl Segment {
    /// The address of an offset in this segment. [`Refusal::OutOfRange`] if the offset is 2^24 or more.
    pub fn at(self, offset: u32) -> Result<Address, Refusal> {
        let (segment, index) = self.type_and_index();
        Address::join(segment, index, offset)
    }

    /// The segment of these fields; [`Refusal::NoSegment`] if there is none.
    pub(crate) fn of(fields: Fields) -> Result<Segment, Refusal> {
        use Segment::*;
        let account = fields.index;
        [Transaction, ShadowStack, Program, BlockContexts, Metadata(account), Data(account), Stack, Heap]
            .into_iter()
            .find(|segment| segment.type_and_index() == (fields.segment, fields.index))
            .ok_or(Refusal::NoSegment)
    }

    fn type_and_index(self) -> (u8, u16) {
        match self {
            Segment::Transaction => (0, 1),
            Segment::ShadowStack => (0, 2),
            Segment::Program => (0, 3),
            Segment::BlockContexts => (0, 4),
            Segment::Metadata(account) => (2, account),
            Segment::Data(account) => (3, account),
            Segment::Stack => (5, 0),
            Segment::Heap => (7, 0),
        }
    }
}
