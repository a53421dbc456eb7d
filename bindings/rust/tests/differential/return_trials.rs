//! Return, given to the library and to the model: numbers and bytes are worked out by hand from the papers, so that the two cannot agree on
//! wrong ones.

use crate::bytes::*;
use crate::interface::{Bytes, Call, World};
use crate::trials::{self, begun_with, expect, expect_buffers, expect_with};

/// The only account that exists; there are six.
const PROGRAM: u16 = 5;
const DATA: usize = 6000;

const TRANSACTION: u64 = 0x0000_0100_0000;
const STACK_TOP: u64 = 0x0500_00FF_F000;
const HEAP_AT: u64 = 0x0700_0000_0000;

/// A frame's entry (use, tag, account, page, depth), and whether a return zeroes it that lowers D from 3: D-1 is 2.
const ENTRIES: [([u8; 8], bool); 16] = [
    ([2, 0, 0, 0, 0xFF, 0x0F, 0, 0], false),
    ([2, 1, 0, 0, 0xFE, 0x0F, 0, 0], false),
    ([2, 2, 0, 0, 0xFD, 0x0F, 0, 0], true),
    ([2, 3, 0, 0, 0xFC, 0x0F, 0, 0], true),
    ([2, 255, 0, 0, 0xFB, 0x0F, 0, 0], true),
    // Page 0 is far outside the stack's size, and other bytes hold anything.
    ([2, 1, 0xAB, 0xCD, 0, 0, 0x12, 0x34], false),
    ([2, 2, 0xAB, 0xCD, 0, 0, 0x12, 0x34], true),
    ([3, 0, 0, 0, 0, 0, 0, 0], false),
    ([3, 1, 0, 0, 1, 0, 0, 0], false),
    ([3, 2, 0, 0, 2, 0, 0, 0], false),
    ([3, 3, 0, 0, 3, 0, 0, 0], false),
    // Page 4,095 is far outside the heap's size.
    ([3, 255, 0xAB, 0xCD, 0xFF, 0x0F, 0x12, 0x34], false),
    ([1, 2, 5, 0, 1, 0, 0, 0], false),
    ([4, 2, 0, 0, 0xFD, 0x0F, 0, 0], false),
    ([255, 255, 0xAB, 0xCD, 0xFF, 0xFF, 0x12, 0x34], false),
    // Use 0 is free, whatever else the entry holds.
    ([0, 2, 0xAB, 0xCD, 0xFD, 0x0F, 0x12, 0x34], false),
];

/// Stack and heap pages by the three records, and the two bytes behind them.
const SIZES: [[u16; 3]; 3] = [[1, 9, 0xAAAA], [2, 1, 0xBBBB], [5, 4, 0xCCCC]];

/// Three live invocations over those frames. Records of nobody and bytes that no rule speaks of hold anything.
fn three_live_of(edition: u32) -> World {
    let frames = ENTRIES.len();
    let mut control = vec![0xEE; TABLE_AT];
    put_words(&mut control, &control_words(frames, 3, edition));
    for (place, [stack, heap, padding]) in SIZES.into_iter().enumerate() {
        let at = RECORDS_AT + RECORD * (place + 1);
        for (field, value) in [PROGRAM, stack, heap, padding].into_iter().enumerate() {
            put_u16(&mut control, at + 2 * field, value);
        }
        let registers = (0..=255).map(|byte: u8| byte.wrapping_mul(place as u8 + 1));
        control[at + 8..at + RECORD].iter_mut().zip(registers).for_each(|(to, from)| *to = from);
    }
    control.extend(ENTRIES.iter().flat_map(|(entry, _)| entry));
    World { control, pool: vec![0xAA; 4096 * frames], ..trials::world(0, DATA) }
}

fn three_live() -> World {
    three_live_of(NEWER)
}

/// D is 2, record 2 has the third's heap pages, record 3 is zeros, and so are the entries that leave.
fn two_live(before: &World) -> World {
    let mut after = before.clone();
    after.control[4] = 2;
    let heap_size = [after.control[RECORDS_AT + RECORD * 3 + 4], after.control[RECORDS_AT + RECORD * 3 + 5]];
    after.control[RECORDS_AT + RECORD * 2 + 4..][..2].copy_from_slice(&heap_size);
    after.control[RECORDS_AT + RECORD * 3..][..RECORD].fill(0);
    for (place, _) in ENTRIES.iter().enumerate().filter(|(_, (_, leaves))| *leaves) {
        after.control[TABLE_AT + FRAME_ENTRY * place..][..FRAME_ENTRY].fill(0);
    }
    after
}

fn return_() -> Call {
    Call::Return { registers: Bytes(vec![0; 256]) }
}

fn invoke() -> Call {
    Call::Invoke { program: PROGRAM, registers: Bytes(vec![7; 256]) }
}

fn heap(pages: usize) -> Call {
    Call::Resize { region: HEAP, pages }
}

fn store(page: u64) -> Call {
    Call::Store { address: HEAP_AT + 4096 * page, size: 8, value: 100 + page }
}

fn load(address: u64) -> Call {
    Call::Load { address, size: 1 }
}

#[test]
fn bytes_written() {
    for edition in EDITIONS {
        let world = three_live_of(edition);
        let given = expect_buffers(&world, return_(), 0, &two_live(&world));
        assert_eq!(given, Call::Return { registers: Bytes((0..=255).map(|byte: u8| byte.wrapping_mul(3)).collect()) });
    }
    // The two bytes that differ from the record as it was.
    let (world, after) = (three_live(), two_live(&three_live()));
    assert_eq!(world.control[RECORDS_AT + RECORD * 2..][..8], [5, 0, 2, 0, 1, 0, 0xBB, 0xBB]);
    assert_eq!(after.control[RECORDS_AT + RECORD * 2..][..8], [5, 0, 2, 0, 4, 0, 0xBB, 0xBB]);
}

/// "The caller's heap size becomes the returning frame's", be it larger, equal or smaller, and whatever the caller's record holds.
#[test]
fn heap_sizes() {
    for size in [0, 1, 255, 256, 4095, 4096] {
        for callers in [0, 1, 256, 4096, 4097, 0xFFFF] {
            let mut world = three_live();
            put_u16(&mut world.control, RECORDS_AT + RECORD * 2 + 4, callers);
            put_u16(&mut world.control, RECORDS_AT + RECORD * 3 + 4, size);
            let after = two_live(&world);
            assert_eq!(u16_at(&after.control, RECORDS_AT + RECORD * 2 + 4), size);
            expect_buffers(&world, return_(), 0, &after);
        }
    }
}

/// A return asks nothing of the caller's record; the next call does.
#[test]
fn a_wrong_caller() {
    let field = |place: usize, value: u16| {
        let mut world = three_live();
        put_u16(&mut world.control, RECORDS_AT + RECORD * 2 + 2 * place, value);
        let after = two_live(&world);
        expect_buffers(&world, return_(), 0, &after);
        after
    };
    for mut world in [field(0, 6), field(0, 0xFFFF), field(1, 4097), field(1, 0xFFFF)] {
        for call in [load(TRANSACTION), store(0), invoke(), return_(), heap(4), Call::PageView { account: PROGRAM, page: 0 }] {
            expect(&mut world, call, 1);
        }
    }
    // A heap size that is too large is replaced, so the record is valid.
    for mut world in [field(2, 4097), field(2, 0xFFFF)] {
        expect(&mut world, load(TRANSACTION), 0);
        expect(&mut world, load(HEAP_AT + 4096 * 4 - 1), 0);
        expect(&mut world, load(HEAP_AT + 4096 * 4), 13);
    }
}

/// "1, 2, 9", and no byte changes.
#[test]
fn refusals() {
    let live = |invocations: u32| {
        let mut world = three_live();
        put_u32(&mut world.control, 4, invocations);
        world
    };
    let wrong_record = |place: usize, value: u16| {
        let mut world = live(1);
        put_u16(&mut world.control, RECORDS_AT + RECORD + 2 * place, value);
        world
    };
    for world in [live(0), live(17), wrong_record(0, 6), wrong_record(1, 4097), wrong_record(2, 4097)] {
        for length in [0, 255, 256, 257] {
            expect_buffers(&world, Call::Return { registers: Bytes(vec![0x77; length]) }, 1, &world);
        }
    }
    for world in [live(1), live(3)] {
        for length in [0, 255, 257] {
            expect_buffers(&world, Call::Return { registers: Bytes(vec![0x77; length]) }, 2, &world);
        }
    }
    let lent = Call::Return { registers: Bytes(vec![0x77; 256]) };
    assert_eq!(expect_buffers(&live(1), lent.clone(), 9, &live(1)), lent);
}

/// "a mill's helper that builds a list on the heap": its caller reads the list, adds to it, and frees it. Four frames are just enough.
#[test]
fn a_list_built_by_a_callee() {
    let mut world = begun_with(0, DATA);
    expect(&mut world, Call::Resize { region: STACK, pages: 1 }, 0);
    expect(&mut world, invoke(), 0);
    expect(&mut world, Call::Resize { region: STACK, pages: 2 }, 0);
    expect(&mut world, heap(2), 0);
    expect(&mut world, store(0), 0);
    expect(&mut world, store(1), 0);
    expect(&mut world, return_(), 0);
    // The stack page of the callee is gone, its heap pages are there with their tag, and their bytes with them.
    expect_with(&mut world, load(STACK_TOP - 1), 13, 0);
    let entries = [[2, 0, 0, 0, 0xFF, 0x0F, 0, 0], [0; 8], [3, 1, 0, 0, 0, 0, 0, 0], [3, 1, 0, 0, 1, 0, 0, 0]];
    assert_eq!(world.control[TABLE_AT..], entries.concat());
    assert_eq!([world.pool[4096 * 2], world.pool[4096 * 3]], [100, 101]);
    for page in [0, 1] {
        expect(&mut world, load(HEAP_AT + 4096 * page), 0);
        expect(&mut world, store(page), 0);
    }
    expect_with(&mut world, load(HEAP_AT + 4096 * 2), 13, 0);
    expect(&mut world, heap(0), 0);
    assert_eq!(world.control[TABLE_AT..], [&entries[0][..], &[0; 24]].concat());
}

/// "a shallower program may then store to what a deeper one left, and free it where no page further out has a tag below its depth"
#[test]
fn a_lower_tag_further_out() {
    let mut world = begun_with(0, DATA);
    expect(&mut world, invoke(), 0);
    expect(&mut world, heap(2), 0);
    expect(&mut world, return_(), 0);
    expect(&mut world, heap(3), 0);
    // Pages 0 and 1 have tag 1, page 2 has tag 0.
    let entries = [[3, 1, 0, 0, 0, 0, 0, 0], [3, 1, 0, 0, 1, 0, 0, 0], [3, 0, 0, 0, 2, 0, 0, 0], [0; 8]];
    assert_eq!(world.control[TABLE_AT..], entries.concat());
    expect(&mut world, invoke(), 0);
    for (page, number) in [(0, 0), (1, 0), (2, 7)] {
        expect(&mut world, store(page), number);
    }
    for pages in [2, 1, 0] {
        expect(&mut world, heap(pages), 7);
    }
    // A page of its own behind page 2 can go alone.
    expect(&mut world, heap(4), 0);
    expect(&mut world, heap(1), 7);
    expect(&mut world, heap(3), 0);
    expect(&mut world, return_(), 0);

    // Without page 2 the next callee frees what its caller counts, and the caller's size falls.
    expect(&mut world, heap(2), 0);
    expect(&mut world, invoke(), 0);
    expect(&mut world, heap(1), 0);
    expect(&mut world, return_(), 0);
    expect(&mut world, load(HEAP_AT), 0);
    expect_with(&mut world, load(HEAP_AT + 4096), 13, 0);
    assert_eq!(world.control[TABLE_AT..], [&entries[0][..], &[0; 24]].concat());
}

/// Sixteen invocations, each of which adds a heap page. A record below the caller's keeps its size until its own callee returns.
#[test]
fn from_the_deepest_to_the_first() {
    let frames = 16;
    let mut world = begun_with(0, DATA);
    world.control.resize(TABLE_AT + FRAME_ENTRY * frames, 0);
    world.pool.resize(4096 * frames, 0xAA);
    put_u32(&mut world.control, 0, frames as u32);
    expect(&mut world, heap(1), 0);
    for pages in 2..=16 {
        expect(&mut world, invoke(), 0);
        expect(&mut world, heap(pages), 0);
    }
    let entries = world.control[TABLE_AT..].to_vec();
    for live in (1..16).rev() {
        expect(&mut world, return_(), 0);
        let sizes: Vec<u16> = (1..=16).map(|record| u16_at(&world.control, RECORDS_AT + RECORD * record + 4)).collect();
        let below = 1..live as u16;
        assert_eq!(sizes, below.chain([16]).chain(vec![0; 16 - live]).collect::<Vec<u16>>());
        // Page k has tag k, and the depth is one below the number of live invocations.
        for page in 0..16 {
            expect(&mut world, store(page), if page + 1 < live as u64 { 7 } else { 0 });
        }
    }
    assert!(world.control[TABLE_AT..] == entries);
    expect(&mut world, heap(0), 0);
    assert_eq!(world.control[TABLE_AT..], [0; 8 * 16]);
}
