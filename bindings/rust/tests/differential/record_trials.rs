//! Records, given to the library and to the model: numbers and bytes are worked out by hand from the papers, so that the two cannot agree
//! on wrong ones.

use hekthumar::sys::{Buffer, CallRecord, Event, Location, ReadAnswer, Returned};

use crate::bytes::*;
use crate::interface::{Answer, Bytes, Call, World};
use crate::record::{Record, Shape};
use crate::trials::{begun_with, expect, expect_answer, expect_buffers, expect_with, original};

/// Account 5, the program's own, has so many bytes.
const LENGTH: usize = 6000;

pub const DATA: u64 = 0x0300_0500_0000;
pub const TRANSACTION: u64 = 0x0000_0100_0000;
const SHADOW: u64 = 0x0000_0200_0000;
const PROGRAM: u64 = 0x0000_0300_0000;
const METADATA_OF_4: u64 = 0x0200_0400_0000;
pub const STACK_TOP: u64 = 0x0500_00FF_F000;
pub const HEAP_AT: u64 = 0x0700_0000_0000;

/// Pointers with upper bits, into no segment, and into account 5; lengths up to the largest.
const FIRST: Buffer = Buffer { pointer: 0x8877_6655_4433_2211, length: 0xFFFF_FFFF_FFFF_FFFF };
const SECOND: Buffer = Buffer { pointer: 0, length: 0x0102_0304_0506_0708 };
const THIRD: Buffer = Buffer { pointer: 0x0300_0500_1000, length: 5 };

pub const FIRST_BYTES: [u8; 16] = [0x11, 0x22, 0x33, 0x44, 0x55, 0x66, 0x77, 0x88, 255, 255, 255, 255, 255, 255, 255, 255];
const SECOND_BYTES: [u8; 16] = [0, 0, 0, 0, 0, 0, 0, 0, 8, 7, 6, 5, 4, 3, 2, 1];
pub const THIRD_BYTES: [u8; 16] = [0, 0x10, 0, 5, 0, 3, 0, 0, 5, 0, 0, 0, 0, 0, 0, 0];

/// A record of each shape, both returned values, and the bytes by 002's "Layout in memory".
fn records() -> [(Record, Vec<u8>); 6] {
    let location = Location { file: SECOND, line: 0x0102_0304, column: 0xA1A2_A3A4 };
    let call = CallRecord { context_id: FIRST, function: SECOND, params: THIRD };
    [
        (Record::Buffer(THIRD), THIRD_BYTES.to_vec()),
        (Record::Event(Event { kind: FIRST, data: SECOND }), [FIRST_BYTES, SECOND_BYTES].concat()),
        (Record::Location(location), [&SECOND_BYTES[..], &[4, 3, 2, 1, 0xA4, 0xA3, 0xA2, 0xA1]].concat()),
        (Record::CallRecord(call), [FIRST_BYTES, SECOND_BYTES, THIRD_BYTES].concat()),
        (returned(0), [&[0, 0, 0, 0, 0, 0, 0, 0], &FIRST_BYTES[..]].concat()),
        (returned(1), [&[1, 0, 0, 0, 0, 0, 0, 0], &FIRST_BYTES[..]].concat()),
    ]
}

pub fn returned(discriminant: u64) -> Record {
    Record::Returned(Returned { discriminant, buffer: FIRST })
}

pub fn begun() -> World {
    begun_with(0, LENGTH)
}

/// The stack and the heap have a page each.
pub fn grown() -> World {
    let mut world = begun();
    for region in [STACK, HEAP] {
        expect(&mut world, Call::Resize { region, pages: 1 }, 0);
    }
    world
}

pub fn read(shape: Shape, address: u64) -> Call {
    Call::ReadRecord { shape, address }
}

pub fn write(address: u64, record: Record) -> Call {
    Call::WriteRecord { address, record }
}

pub fn store_span(address: u64, bytes: &[u8]) -> Call {
    Call::StoreSpan { address, bytes: Bytes(bytes.to_vec()) }
}

pub fn done(record: Record) -> Answer {
    Answer::Read(ReadAnswer { record, distance: 0, number: 0 })
}

/// A refused read gives zeros.
pub fn refused(shape: Shape, number: u8, distance: u16) -> Answer {
    let nothing = Buffer { pointer: 0, length: 0 };
    let record = match shape {
        Shape::Buffer => Record::Buffer(nothing),
        Shape::Event => Record::Event(Event { kind: nothing, data: nothing }),
        Shape::Location => Record::Location(Location { file: nothing, line: 0, column: 0 }),
        Shape::CallRecord => Record::CallRecord(CallRecord { context_id: nothing, function: nothing, params: nothing }),
        Shape::Returned => Record::Returned(Returned { discriminant: 0, buffer: nothing }),
    };
    Answer::Read(ReadAnswer { record, distance, number })
}

/// A copy of page 0 in the last of four frames that holds these bytes from this offset on.
pub fn copied(before: &World, offset: usize, bytes: &[u8]) -> World {
    let mut after = before.clone();
    after.control[TABLE_AT + FRAME_ENTRY * 3..].copy_from_slice(&[1, 0, 5, 0, 0, 0, 0, 0]);
    let page = &mut after.pool[4096 * 3..];
    (0..4096).for_each(|place| page[place] = original(place));
    page[offset..offset + bytes.len()].copy_from_slice(bytes);
    after
}

#[test]
fn bytes_written() {
    for (record, bytes) in records() {
        for offset in [0, 8, 101, 4096 - bytes.len()] {
            let world = begun();
            let after = copied(&world, offset, &bytes);
            expect_buffers(&world, write(DATA + offset as u64, record), 0, &after);
            expect_buffers(&world, store_span(DATA + offset as u64, &bytes), 0, &after);
            expect_answer(&mut after.clone(), read(record.shape(), DATA + offset as u64), done(record));
        }
    }
}

/// 002's picture: a descriptor at 0x100, 32 bytes at 0x200. A pointer is a whole address here, and 0x200 alone is one into no segment.
#[test]
fn the_picture_of_002() {
    let mut world = grown();
    let descriptor = [0, 2, 0, 0, 0, 0, 0, 0, 32, 0, 0, 0, 0, 0, 0, 0];
    expect(&mut world, store_span(HEAP_AT + 0x100, &descriptor), 0);
    expect_answer(&mut world, read(Shape::Buffer, HEAP_AT + 0x100), done(Record::Buffer(Buffer { pointer: 0x200, length: 32 })));
    expect(&mut world, Call::LoadSpan { address: 0x200, out: Bytes(vec![0; 32]) }, 4);
    expect(&mut world, Call::LoadSpan { address: HEAP_AT + 0x200, out: Bytes(vec![0; 32]) }, 0);
}

/// The last place in a page, in account data and in a region, and the first past it.
#[test]
fn page_ends() {
    for ((record, _), last) in records().into_iter().zip([4080, 4064, 4072, 4048, 4072, 4072]) {
        for page in [DATA, STACK_TOP, HEAP_AT] {
            let mut world = grown();
            expect(&mut world, write(page + last, record), 0);
            expect_answer(&mut world, read(record.shape(), page + last), done(record));
            for crossing in [last + 1, last + 8, 4095] {
                let before = world.clone();
                expect_buffers(&before, write(page + crossing, record), 6, &before);
                expect_answer(&mut world, read(record.shape(), page + crossing), refused(record.shape(), 6, 0));
            }
        }
    }
}

/// The last place in the data, and those past it, where so many bytes are still present.
#[test]
fn data_ends() {
    for ((record, bytes), last) in records().into_iter().zip([5984, 5968, 5976, 5952, 5976, 5976]) {
        let mut world = begun();
        expect(&mut world, write(DATA + last, record), 0);
        expect_answer(&mut world, read(record.shape(), DATA + last), done(record));
        for distance in 0..bytes.len() as u16 {
            let address = DATA + 6000 - u64::from(distance);
            expect_with(&mut world, write(address, record), 13, distance.into());
            expect_answer(&mut world, read(record.shape(), address), refused(record.shape(), 13, distance));
        }
    }
}

/// Reads go wherever a span load goes: 17 records of 264 bytes, of which record 1 starts with the program's number, 5.
#[test]
fn where_nothing_is_stored() {
    let mut world = begun();
    let zeros = Buffer { pointer: 0, length: 0 };
    let five = Buffer { pointer: 5, length: 0 };
    let ok = Record::Returned(Returned { discriminant: 0, buffer: five });
    for (call, answer) in [
        (read(Shape::Buffer, SHADOW + 264), done(Record::Buffer(five))),
        (read(Shape::Returned, SHADOW + 264), refused(Shape::Returned, 14, 0)),
        (read(Shape::Returned, SHADOW + 256), done(ok)),
        (read(Shape::Event, SHADOW + 248), done(Record::Event(Event { kind: zeros, data: five }))),
        (read(Shape::CallRecord, SHADOW + 4441), refused(Shape::CallRecord, 13, 47)),
        // The transaction is zeros, and so is the metadata of an account that does not exist.
        (read(Shape::Location, TRANSACTION + 3), done(Record::Location(Location { file: zeros, line: 0, column: 0 }))),
        (read(Shape::Buffer, METADATA_OF_4 + 48), done(Record::Buffer(zeros))),
        (read(Shape::Buffer, METADATA_OF_4 + 49), refused(Shape::Buffer, 13, 15)),
        // Bytes 1, 2, 3 and so on.
        (read(Shape::Returned, PROGRAM + 1), refused(Shape::Returned, 14, 0)),
    ] {
        expect_answer(&mut world, call, answer);
    }
    for (record, _) in records() {
        for address in [SHADOW, TRANSACTION, METADATA_OF_4, PROGRAM] {
            expect_buffers(&world, write(address, record), 7, &world);
        }
    }
}

/// The change list has the page of a write that was done: its two records, and the bytes between them.
#[test]
fn a_written_record_is_listed() {
    let mut world = begun();
    expect(&mut world, write(DATA + 4, Record::Buffer(THIRD)), 0);
    expect(&mut world, write(DATA + 24, returned(1)), 0);
    expect(&mut world, write(DATA + 100, returned(3)), 14);
    let listed = expect(&mut world, Call::ChangeList { out: Bytes(vec![0xEE; 4124]) }, 0);
    let mut expected: Vec<u8> = [1, 16, 28, 4124].into_iter().flat_map(u32::to_le_bytes).collect();
    expected.extend([0x05, 0x00, 0x00, 0x00, 0x00, 0x10, 0x00, 0x00, 0x00, 0x00, 0x00, 0x00]);
    expected.extend([0, 1, 2, 3]);
    expected.extend(THIRD_BYTES);
    expected.extend([20, 21, 22, 23, 1, 0, 0, 0, 0, 0, 0, 0]);
    expected.extend(FIRST_BYTES);
    expected.extend((48..4096).map(original));
    assert_eq!(listed, Call::ChangeList { out: Bytes(expected) });
}
