//! The discriminant of a returned value, given to the library and to the model: numbers and bytes are worked out by hand from the papers,
//! so that the two cannot agree on wrong ones.

use crate::bytes::*;
use crate::interface::{Bytes, Call, World};
use crate::record::Shape;
use crate::record_trials::*;
use crate::trials::{expect, expect_answer, expect_buffers, expect_with};

/// Eight bytes in memory, lowest first, and what a read and a write of them as a discriminant is told.
#[test]
fn right_and_wrong_ones() {
    for (bytes, told) in [
        ([0, 0, 0, 0, 0, 0, 0, 0], 0),
        ([1, 0, 0, 0, 0, 0, 0, 0], 0),
        ([2, 0, 0, 0, 0, 0, 0, 0], 14),
        ([255, 0, 0, 0, 0, 0, 0, 0], 14),
        ([0, 1, 0, 0, 0, 0, 0, 0], 14),
        ([1, 1, 0, 0, 0, 0, 0, 0], 14),
        ([0, 0, 1, 0, 0, 0, 0, 0], 14),
        ([0, 0, 0, 0, 1, 0, 0, 0], 14),
        ([1, 0, 0, 0, 1, 0, 0, 0], 14),
        ([0, 0, 0, 0, 0, 0, 0, 0x80], 14),
        ([1, 0, 0, 0, 0, 0, 0, 0x80], 14),
        ([255, 255, 255, 255, 255, 255, 255, 255], 14),
    ] {
        let (value, before) = (returned(number(&bytes)), begun());
        let stored = copied(&before, 9, &[&bytes, &FIRST_BYTES[..]].concat());
        let (answer, after) = if told == 0 { (done(value), &stored) } else { (refused(Shape::Returned, told, 0), &before) };
        expect_answer(&mut stored.clone(), read(Shape::Returned, DATA + 9), answer);
        expect_buffers(&before, write(DATA + 9, value), told, after);
    }
}

/// Seventeen live invocations.
fn spoiled() -> World {
    let mut world = grown();
    put_u32(&mut world.control, 4, 17);
    world
}

/// The entry of account 4 has flags of 4.
fn spoiled_entry() -> World {
    let mut world = grown();
    put_u16(&mut world.snapshot, SNAPSHOT_HEADER + ACCOUNT_ENTRY * 4, 4);
    world
}

/// The stack and the heap were grown at a lower depth.
fn called() -> World {
    let mut world = grown();
    expect(&mut world, Call::Invoke { program: 5, registers: Bytes(vec![7; 256]) }, 0);
    world
}

/// No frame is free, and none claims the stack's page.
fn full() -> World {
    let mut world = grown();
    world.control[TABLE_AT..].copy_from_slice(&[[9; 8], [3, 0, 0, 0, 0, 0, 0, 0], [9; 8], [9; 8]].concat());
    world
}

/// "14 comes after every refusal of the access": each in its order, whether the discriminant is right or wrong.
#[test]
fn told_last() {
    for (world, address, number, distance) in [
        (spoiled(), DATA, 1, 0),
        (grown(), DATA | 1 << 48, 3, 0),
        (grown(), 0x0300_0600_0000, 4, 0),
        (grown(), 0x0100_0000_0000, 4, 0),
        (spoiled_entry(), 0x0300_0400_0000, 1, 0),
        (grown(), TRANSACTION, 7, 0),
        (grown(), DATA + 4090, 6, 0),
        (grown(), DATA + 5990, 13, 10),
        (full(), STACK_TOP, 1, 0),
        (called(), STACK_TOP, 7, 0),
        (called(), HEAP_AT, 7, 0),
        (full(), DATA, 8, 0),
    ] {
        for discriminant in [0, 1, 2, 1 << 63] {
            let mut after = world.clone();
            expect_with(&mut after, write(address, returned(discriminant)), number, distance);
            assert!(after == world);
        }
    }
    expect_buffers(&full(), write(HEAP_AT, returned(2)), 14, &full());
}

/// A read that reaches a wrong discriminant and not the whole value: account 5 has no zero at these places.
#[test]
fn of_a_value_that_ends_too_far() {
    for (address, number, distance) in [(DATA + 4088, 6, 0), (DATA + 4073, 6, 0), (DATA + 5992, 13, 8), (DATA + 5977, 13, 23)] {
        expect_answer(&mut begun(), read(Shape::Returned, address), refused(Shape::Returned, number, distance));
    }
}

/// A write told 14 takes no frame: the next copy is in the last one, and the list is empty until then.
#[test]
fn takes_no_frame() {
    let mut world = begun();
    expect_buffers(&begun(), write(DATA + 0x1000, returned(2)), 14, &begun());
    expect(&mut world, write(DATA + 0x1000, returned(2)), 14);
    let list = expect(&mut world, Call::ChangeList { out: Bytes(vec![0xEE; 16]) }, 0);
    assert_eq!(list, Call::ChangeList { out: Bytes([0, 16, 16, 16].into_iter().flat_map(u32::to_le_bytes).collect()) });
    expect_buffers(&world, store_span(DATA + 7, &THIRD_BYTES), 0, &copied(&begun(), 7, &THIRD_BYTES));
}
