//! "With 13 an access also gives the distance from its first byte to the first absent one, else 0." Here the expected distances are worked
//! out by hand from the column "Bytes present", so that the library and the model cannot agree on a wrong one.

use hekthumar::sys::{Place, View};

use crate::bytes::*;
use crate::interface::{Answer, Bytes, Call, World};
use crate::trials::{begun_with, expect, expect_answer, expect_with};

const DATA: u64 = 0x0300_0500_0000;
const PROGRAM: u64 = 0x0000_0300_0000;
const TRANSACTION: u64 = 0x0000_0100_0000;
const SHADOW: u64 = 0x0000_0200_0000;
const CONTEXTS: u64 = 0x0000_0400_0000;
const METADATA_OF_5: u64 = 0x0200_0500_0000;
const STACK_AT: u64 = 0x0500_0000_0000;
const HEAP_AT: u64 = 0x0700_0000_0000;

/// Two contexts, a transaction of 0x4D bytes, and 6,003 bytes of the program's own data.
fn begun() -> World {
    begun_with(2, 6003)
}

fn load(address: u64, size: usize) -> Call {
    Call::Load { address, size }
}

fn fetch(address: u64, size: usize) -> Call {
    Call::Fetch { address, size }
}

fn store(address: u64, size: usize) -> Call {
    Call::Store { address, size, value: 1 }
}

fn load_span(address: u64, length: usize) -> Call {
    Call::LoadSpan { address, out: Bytes(vec![0xEE; length]) }
}

fn store_span(address: u64, length: usize) -> Call {
    Call::StoreSpan { address, bytes: Bytes(vec![1; length]) }
}

/// Each call with the distance that it is told with 13.
fn absent<const N: usize>(world: &mut World, calls: [(Call, u64); N]) {
    for (call, distance) in calls {
        expect_with(world, call, 13, distance);
    }
}

#[test]
fn data_and_program() {
    let mut world = begun();
    let values = [(6000, 8, 3), (6000, 4, 3), (6002, 2, 1), (6003, 1, 0), (6004, 4, 0), (8192, 8, 0), (0xFF_FFF8, 8, 0)];
    for (offset, size, distance) in values {
        absent(&mut world, [(load(DATA + offset, size), distance), (store(DATA + offset, size), distance)]);
        absent(&mut world, [(load(PROGRAM + offset, size), distance), (fetch(PROGRAM + offset, size), distance)]);
    }
    for (offset, length, distance) in [(5999, 5, 4), (4096, 4096, 1907), (6002, 2190, 1), (6003, 1, 0)] {
        absent(&mut world, [(load_span(DATA + offset, length), distance), (store_span(DATA + offset, length), distance)]);
        absent(&mut world, [(load_span(PROGRAM + offset, length), distance)]);
    }
    // A copy has a whole frame, and still no more bytes are present.
    expect(&mut world, store(DATA + 6002, 1), 0);
    absent(&mut world, [(store(DATA + 6000, 8), 3), (load_span(DATA + 4096, 4096), 1907)]);
}

/// The last byte of a page is the only absent one.
#[test]
fn the_longest_distance() {
    let mut world = begun_with(0, 8191);
    absent(&mut world, [(load_span(DATA + 4096, 4096), 4095), (store_span(DATA + 4096, 4096), 4095), (load(DATA + 8184, 8), 7)]);
}

#[test]
fn other_segments() {
    let mut world = begun();
    absent(&mut world, [(load(TRANSACTION + 0x48, 8), 5), (load_span(TRANSACTION, 0x4E), 0x4D), (load(TRANSACTION + 0x4D, 1), 0)]);
    absent(&mut world, [(load_span(SHADOW + 4480, 16), 8), (load_span(SHADOW + 4096, 4096), 392), (load(SHADOW + 4488, 8), 0)]);
    for context in [0, 0x1000] {
        let at = CONTEXTS + context;
        absent(
            &mut world,
            [(load_span(at + 0x74, 8), 4), (load_span(at, 4096), 120), (load_span(at + 0x78, 8), 0), (load(at + 0xFF8, 8), 0)],
        );
    }
    absent(&mut world, [(load_span(CONTEXTS + 0x2000, 8), 0)]);
    absent(&mut world, [(load_span(METADATA_OF_5 + 60, 8), 4), (load_span(METADATA_OF_5, 65), 64), (load(METADATA_OF_5 + 64, 8), 0)]);
    // Account 4 does not exist: 64 zeros of metadata and no data.
    absent(&mut world, [(load_span(0x0200_0400_003C, 8), 4), (load(0x0300_0400_0000, 8), 0)]);
}

/// A page of stack or heap is present or absent as a whole.
#[test]
fn regions() {
    let mut world = begun();
    for region in [STACK, HEAP] {
        expect(&mut world, Call::Resize { region, pages: 1 }, 0);
    }
    for at in [STACK_AT + 0xFF_EFF8, HEAP_AT + 0x1000] {
        absent(&mut world, [(load(at, 8), 0), (store(at, 8), 0), (load_span(at, 8), 0), (store_span(at, 8), 0)]);
    }
    for call in [load_span(STACK_AT + 0xFF_EFFC, 8), load_span(HEAP_AT + 0xFFC, 8)] {
        expect(&mut world, call, 6);
    }
}

/// Where other refusals come first, the distance is 0, also if bytes are absent.
#[test]
fn other_refusals() {
    let mut world = begun();
    let calls = [
        (load(DATA + 6000, 3), 2),
        (load(DATA + 6000 + (1 << 48), 8), 3),
        (load(0x0300_0600_0000, 8), 4),
        (load(DATA + 5998, 8), 5),
        (load_span(DATA + 6000, 4096), 6),
        (fetch(DATA + 6000, 8), 7),
        (store(PROGRAM + 6000, 8), 7),
        (Call::Split { address: 1 << 48 }, 3),
        (Call::Join { segment: 3, index: 5, offset: 1 << 24 }, 3),
    ];
    for (call, number) in calls {
        expect(&mut world, call, number);
    }
}

/// A translation told 13 has the distance in `at`, a view told 13 has none; all else is 0.
#[test]
fn translation_and_view() {
    let mut world = begun();
    let place = |at, number| Answer::Place(Place { at, frame: 0, account: 0, page: 0, place: 0, number });
    let translated = |kind, address, length| Call::Translate { kind, address, length };
    let calls = [
        (translated(0, DATA + 6000, 8), place(3, 13)),
        (translated(1, DATA + 6000, 8), place(3, 13)),
        (translated(2, PROGRAM + 6000, 8), place(3, 13)),
        (translated(3, CONTEXTS + 0x74, 8), place(4, 13)),
        (translated(4, DATA + 5999, 5), place(4, 13)),
        (translated(4, DATA + 6003, 5), place(0, 13)),
        (translated(0, DATA + 5998, 8), place(0, 5)),
        (Call::PageView { account: 5, page: 2 }, Answer::View(View { start: 0, length: 0, holder: 0, number: 13 })),
    ];
    for (call, answer) in calls {
        expect_answer(&mut world, call, answer);
    }
}
