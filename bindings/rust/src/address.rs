//! Addresses of the virtual machine.

use crate::refusal::check;
use crate::{sys, Refusal, Segment, PAGE};
use std::fmt;

/// An address of the virtual machine: bits 47..40 are the segment type, 39..24 the index, 23..0 the offset.
///
/// Any number is an `Address`; one above 48 bits is refused when it is used.
///
/// ```
/// use hekthumar::{Address, Refusal};
///
/// let address = Address::data(5, 0x1004)?;
/// assert_eq!(address.to_string(), "0x030005001004");
/// assert_eq!(address.fields()?.offset, 0x1004);
/// assert_eq!(address.offset_by(4)?, Address::data(5, 0x1008)?);
/// assert_eq!(Address(1 << 48).fields(), Err(Refusal::OutOfRange));
/// # Ok::<(), Refusal>(())
/// ```
#[derive(Clone, Copy, Debug, PartialEq, Eq, PartialOrd, Ord, Hash)]
pub struct Address(pub u64);

/// The parts of an [`Address`].
#[derive(Clone, Copy, Debug, PartialEq, Eq, Hash)]
pub struct Fields {
    /// The segment type.
    pub segment: u8,
    /// The account number in the account segments; else it tells segments of one type apart.
    pub index: u16,
    /// The offset in the segment, below 2^24.
    pub offset: u32,
}

impl Address {
    /// The address with these fields. [`Refusal::OutOfRange`] if the offset is 2^24 or more.
    pub fn join(segment: u8, index: u16, offset: u32) -> Result<Address, Refusal> {
        // SAFETY: the function takes numbers only.
        let joined = unsafe { sys::hekthumar_join(segment, index, offset) };
        check(joined.number).map(|()| Address(joined.address))
    }

    /// The fields of the address. [`Refusal::OutOfRange`] if it has more than 48 bits.
    pub fn fields(self) -> Result<Fields, Refusal> {
        // SAFETY: the function takes a number only.
        let sys::Fields { segment, index, offset, number } = unsafe { sys::hekthumar_split(self.0) };
        check(number).map(|()| Fields { segment, index, offset })
    }

    /// The segment that the address lies in. [`Refusal::OutOfRange`] as for [`Address::fields`], [`Refusal::NoSegment`] if no segment
    /// has this type and index. Neither is it asked whether an account exists, nor whether the edition has [`Segment::Program`].
    pub fn segment(self) -> Result<Segment, Refusal> {
        Segment::of(self.fields()?)
    }

    /// The address so many bytes further on in the same segment. [`Refusal::OutOfRange`] if that is past offset 2^24 - 1.
    pub fn offset_by(self, bytes: u32) -> Result<Address, Refusal> {
        let Fields { segment, index, offset } = self.fields()?;
        Address::join(segment, index, offset.saturating_add(bytes))
    }

    /// An address in the transaction. This and the following refuse an offset of 2^24 or more with [`Refusal::OutOfRange`].
    pub fn transaction(offset: u32) -> Result<Address, Refusal> {
        Segment::Transaction.at(offset)
    }

    /// An address in the shadow stack; record `n` begins at offset `264 * n`.
    pub fn shadow(offset: u32) -> Result<Address, Refusal> {
        Segment::ShadowStack.at(offset)
    }

    /// An address in the current program's segment, which only the [newer](crate::Edition::Newer) edition has. In the older one a program is
    /// at [`Address::data`] of its account.
    pub fn program(offset: u32) -> Result<Address, Refusal> {
        Segment::Program.at(offset)
    }

    /// An address in a block context. An offset of 4,096 or more would name another context and is refused, too.
    pub fn block_context(number: u16, offset: u32) -> Result<Address, Refusal> {
        let stride = PAGE as u32;
        if offset >= stride {
            return Err(Refusal::OutOfRange);
        }
        Segment::BlockContexts.at(u32::from(number) * stride + offset)
    }

    /// An address in an account's metadata.
    pub fn metadata(account: u16, offset: u32) -> Result<Address, Refusal> {
        Segment::Metadata(account).at(offset)
    }

    /// An address in an account's data.
    pub fn data(account: u16, offset: u32) -> Result<Address, Refusal> {
        Segment::Data(account).at(offset)
    }

    /// An address in the stack; with `n` pages the offsets from `2^24 - 4,096 * n` on are present.
    pub fn stack(offset: u32) -> Result<Address, Refusal> {
        Segment::Stack.at(offset)
    }

    /// An address in the heap; with `n` pages the offsets below `4,096 * n` are present.
    pub fn heap(offset: u32) -> Result<Address, Refusal> {
        Segment::Heap.at(offset)
    }
}

/// Hexadecimal, at least the 12 digits of 48 bits.
impl fmt::Display for Address {
    fn fmt(&self, f: &mut fmt::Formatter<'_>) -> fmt::Result {
        write!(f, "{:#014x}", self.0)
    }
}
