//! Reads and writes of records, and of the bytes that a buffer describes.

use super::Memory;
use crate::refusal::check_access;
use crate::{sys, Address, Buffer, CallRecord, Event, Location, Refusal, Returned, PAGE};

/// A read and a write for each record.
macro_rules! record_calls {
    ($($(#[$refusals:meta])* $record:ident: $read:ident by $c_read:ident, $write:ident by $c_write:ident;)*) => {
        /// Records in program memory.
        ///
        /// A record is read by one span load and written by one span store of all its bytes: at any address, aligned or not, and refused
        /// for the same reasons in the same order. So it lies within one page, and is written whole or not at all.
        ///
        /// ```
        /// # use hekthumar::*;
        /// # let mut builder = SnapshotBuilder::new();
        /// # let program = builder.account(Account::program([1, 2, 3, 4]));
        /// # let slots = builder.account(Account::data(program, vec![7; 6_000]).writable());
        /// # let snapshot = builder.build().unwrap();
        /// # let (mut control, mut pool) = (vec![0; control_len(2)], vec![0; pool_len(2)]);
        /// # let mut memory = Memory::new(&snapshot, &mut control, &mut pool);
        /// # memory.begin(program, Edition::Newer)?;
        /// let file = Buffer { pointer: Address::program(0)?, length: 4 };
        /// let location = Location { file, line: 12, column: 34 };
        /// let at = Address::data(slots, 0x101)?;
        /// memory.write_location(at, location)?;
        /// assert_eq!(memory.read_location(at), Ok(location));
        /// assert_eq!(memory.load_u8(at.offset_by(16)?), Ok(12));
        ///
        /// // Its 24 bytes would cross a page, or go past the end.
        /// assert_eq!(memory.write_location(Address::data(slots, 0xFF0)?, location), Err(Refusal::CrossesPage));
        /// assert_eq!(memory.read_location(Address::data(slots, 5_990)?), Err(Refusal::Absent { distance: 10 }));
        /// # Ok::<(), Refusal>(())
        /// ```
        impl Memory<'_> {
            $(
                #[doc = concat!("Reads the [`", stringify!($record), "`] at an address by a [`Memory::load_span`] of its bytes.")]
                $(#[$refusals])*
                pub fn $read(&self, address: Address) -> Result<$record, Refusal> {
                    let sys::ReadAnswer { record, distance, number } = lend!(as_ptr, self, $c_read(address.0));
                    check_access(sys::Outcome { distance, number }).map(|()| $record::from_raw(record))
                }

                #[doc = concat!("Writes this [`", stringify!($record), "`] to an address by a [`Memory::store_span`] of its bytes.")]
                pub fn $write(&mut self, address: Address, record: $record) -> Result<(), Refusal> {
                    check_access(lend!(as_mut_ptr, self, $c_write(address.0, record.into())))
                }
            )*
        }
    };
}

record_calls! {
    Buffer: read_buffer by hekthumar_read_buffer, write_buffer by hekthumar_write_buffer;
    Event: read_event by hekthumar_read_event, write_event by hekthumar_write_event;
    Location: read_location by hekthumar_read_location, write_location by hekthumar_write_location;
    CallRecord: read_call_record by hekthumar_read_call_record, write_call_record by hekthumar_write_call_record;
    ///
    /// Refused last with [`Refusal::BadRecord`] if the discriminant is neither 0 nor 1.
    Returned: read_returned by hekthumar_read_returned, write_returned by hekthumar_write_returned;
}

impl Memory<'_> {
    /// The bytes that a buffer describes: a [`Memory::load_span`] for each page that they touch, in order. The first that is refused ends
    /// it with its refusal, where a distance counts from its own first byte; [`Refusal::OutOfRange`] if the bytes go past offset
    /// 2^24 - 1. A buffer of length 0 has no bytes, wherever it points to.
    ///
    /// The length is what the program wrote. However large it is, no more is kept than was loaded, so at most 2^24 bytes; a host with a
    /// limit of its own compares it first.
    ///
    /// ```
    /// # use hekthumar::*;
    /// # let mut builder = SnapshotBuilder::new();
    /// # let program = builder.account(Account::program([1, 2, 3, 4]));
    /// # let slots = builder.account(Account::data(program, vec![7; 6_000]).writable());
    /// # let snapshot = builder.build().unwrap();
    /// # let (mut control, mut pool) = (vec![0; control_len(4)], vec![0; pool_len(4)]);
    /// # let mut memory = Memory::new(&snapshot, &mut control, &mut pool);
    /// # memory.begin(program, Edition::Newer)?;
    /// // A program booked a slot, and left an event about it on its stack.
    /// let (at, name) = (Address::stack(0xFF_F000)?, Address::stack(0xFF_F100)?);
    /// memory.store_span(name, b"booked")?;
    /// let kind = Buffer { pointer: name, length: 6 };
    /// let data = Buffer { pointer: Address::data(slots, 4_000)?, length: 200 };
    /// memory.write_event(at, Event { kind, data })?;
    ///
    /// // The host reads the event, then what its buffers describe.
    /// let event = memory.read_event(at)?;
    /// assert_eq!(memory.read_bytes(event.kind)?, b"booked");
    /// assert!(event.data.length <= 16_384, "longer than this host allows");
    /// assert_eq!(memory.read_bytes(event.data)?, [7; 200]);
    /// # Ok::<(), Refusal>(())
    /// ```
    pub fn read_bytes(&self, buffer: Buffer) -> Result<Vec<u8>, Refusal> {
        let (mut bytes, mut at, mut left) = (Vec::new(), buffer.pointer, buffer.length);
        while left > 0 {
            let to_page_end = PAGE as u64 - at.0 % PAGE as u64;
            let part = to_page_end.min(left);
            let loaded = bytes.len();
            bytes.resize(loaded + part as usize, 0);
            self.load_span(at, &mut bytes[loaded..])?;
            left -= part;
            if left > 0 {
                at = at.offset_by(part as u32)?;
            }
        }
        Ok(bytes)
    }
}
