//! The records by which programs pass data: buffer descriptors, and what is made of them.

use crate::{sys, Address};

/// A buffer descriptor: where bytes start, and how many there are.
///
/// In memory it is 16 bytes: pointer and length, 8 bytes each.
///
/// Both are what the program wrote, and are passed on unchecked, read or written: any number is a pointer. It may be asked for validity:
/// [`Address::fields`] refuses one with more than 48 bits, [`Address::segment`] also one into no segment. Whether its bytes are there, and
/// whether the program may store to them, an access at it tells, such as [`Memory::read_bytes`](crate::Memory::read_bytes) for this buffer.
///
/// ```
/// # use hekthumar::*;
/// # let mut builder = SnapshotBuilder::new();
/// # let program = builder.account(Account::program([1, 2, 3, 4]));
/// # let snapshot = builder.build().unwrap();
/// # let (mut control, mut pool) = (vec![0; control_len(1)], vec![0; pool_len(1)]);
/// # let mut memory = Memory::new(&snapshot, &mut control, &mut pool);
/// # memory.begin(program, Edition::Newer)?;
/// let at = Address::stack(0xFF_F000)?;
/// for pointer in [Address::heap(8)?, Address(0), Address(u64::MAX)] {
///     let buffer = Buffer { pointer, length: 5 };
///     memory.write_buffer(at, buffer)?;
///     assert_eq!(memory.read_buffer(at), Ok(buffer));
/// }
/// assert_eq!(Address::heap(8)?.segment(), Ok(Segment::Heap));
/// assert_eq!(Address(0).segment(), Err(Refusal::NoSegment));
/// assert_eq!(Address(u64::MAX).fields(), Err(Refusal::OutOfRange));
/// # Ok::<(), Refusal>(())
/// ```
#[derive(Clone, Copy, Debug, PartialEq, Eq, Hash)]
pub struct Buffer {
    /// The first byte's address, unchecked.
    pub pointer: Address,
    /// How many bytes there are, unchecked.
    pub length: u64,
}

/// An event that a program emits: 32 bytes in memory, the two buffers in this order.
#[derive(Clone, Copy, Debug, PartialEq, Eq, Hash)]
pub struct Event {
    /// The name of its kind.
    pub kind: Buffer,
    /// What it carries.
    pub data: Buffer,
}

/// A place in a program's source: 24 bytes in memory, the buffer, then line and column with 4 bytes each.
#[derive(Clone, Copy, Debug, PartialEq, Eq, Hash)]
pub struct Location {
    /// The file's name.
    pub file: Buffer,
    /// The line.
    pub line: u32,
    /// The column.
    pub column: u32,
}

/// A call into another context: 48 bytes in memory, the three buffers in this order.
#[derive(Clone, Copy, Debug, PartialEq, Eq, Hash)]
pub struct CallRecord {
    /// The context's identifier.
    pub context_id: Buffer,
    /// The function's name.
    pub function: Buffer,
    /// What the function is given.
    pub params: Buffer,
}

/// A value that a program returns: 24 bytes in memory, the discriminant with 8 bytes, then the buffer.
///
/// The discriminant is 0 for `Ok` and 1 for `Err`; any other in memory is refused with [`Refusal::BadRecord`](crate::Refusal::BadRecord).
///
/// ```
/// # use hekthumar::*;
/// # let mut builder = SnapshotBuilder::new();
/// # let program = builder.account(Account::program([1, 2, 3, 4]));
/// # let snapshot = builder.build().unwrap();
/// # let (mut control, mut pool) = (vec![0; control_len(1)], vec![0; pool_len(1)]);
/// # let mut memory = Memory::new(&snapshot, &mut control, &mut pool);
/// # memory.begin(program, Edition::Newer)?;
/// let at = Address::stack(0xFF_F000)?;
/// let value = Returned::Err(Buffer { pointer: Address::stack(0xFF_F100)?, length: 9 });
/// memory.write_returned(at, value)?;
/// assert_eq!(memory.load_u64(at), Ok(1));
/// assert_eq!(memory.read_returned(at), Ok(value));
///
/// memory.store_u64(at, 2)?;
/// assert_eq!(memory.read_returned(at), Err(Refusal::BadRecord));
/// # Ok::<(), Refusal>(())
/// ```
#[derive(Clone, Copy, Debug, PartialEq, Eq, Hash)]
pub enum Returned {
    /// The program succeeded: its result.
    Ok(Buffer),
    /// The program failed: what it says about it.
    Err(Buffer),
}

impl Buffer {
    pub(crate) fn from_raw(raw: sys::Buffer) -> Buffer {
        Buffer { pointer: Address(raw.pointer), length: raw.length }
    }
}

impl From<Buffer> for sys::Buffer {
    fn from(buffer: Buffer) -> sys::Buffer {
        sys::Buffer { pointer: buffer.pointer.0, length: buffer.length }
    }
}

/// Records with the fields of their C structs: first the buffers, then the numbers.
macro_rules! same_fields {
    ($($record:ident { $($buffer:ident),*; $($number:ident),* })*) => {
        $(
            impl $record {
                pub(crate) fn from_raw(raw: sys::$record) -> $record {
                    $record { $($buffer: Buffer::from_raw(raw.$buffer),)* $($number: raw.$number),* }
                }
            }

            impl From<$record> for sys::$record {
                fn from(record: $record) -> sys::$record {
                    sys::$record { $($buffer: record.$buffer.into(),)* $($number: record.$number),* }
                }
            }
        )*
    };
}

same_fields! {
    Event { kind, data; }
    Location { file; line, column }
    CallRecord { context_id, function, params; }
}

impl Returned {
    /// Of a read that was done, so the discriminant is one of the two.
    pub(crate) fn from_raw(raw: sys::Returned) -> Returned {
        let buffer = Buffer::from_raw(raw.buffer);
        match raw.discriminant {
            0 => Returned::Ok(buffer),
            1 => Returned::Err(buffer),
            other => unreachable!("the library refuses the discriminant {other}"),
        }
    }
}

impl From<Returned> for sys::Returned {
    fn from(value: Returned) -> sys::Returned {
        let (discriminant, buffer) = match value {
            Returned::Ok(buffer) => (0, buffer),
            Returned::Err(buffer) => (1, buffer),
        };
        sys::Returned { discriminant, buffer: buffer.into() }
    }
}
