//! The two begins, given to the library and to the model: numbers and bytes are worked out by hand from the papers, so that the two cannot
//! agree on wrong ones.

use crate::bytes::*;
use crate::calls::{WRONG_EDITIONS, WRONG_STACK_PAGES};
use crate::interface::{Bytes, Call, World};
use crate::trials::{self, expect, expect_buffers};

/// The only account that exists.
const PROGRAM: u16 = 5;
/// Its entry has flags of 4.
const INVALID: u16 = 4;
const ABSENT: u16 = 0;
const BEYOND: u16 = 6;

const TOP_STACK_PAGE: u64 = 0x0500_00FF_F000;

/// Control block and pool hold anything before a begin.
fn world(frames: usize) -> World {
    let mut world = trials::world(0, 6000);
    put_u16(&mut world.snapshot, SNAPSHOT_HEADER + ACCOUNT_ENTRY * usize::from(INVALID), 4);
    World { control: vec![0xCC; TABLE_AT + FRAME_ENTRY * frames], pool: vec![0xAA; PAGE * frames], ..world }
}

/// By either begin and of this edition.
fn expect_refused_of(edition: u32, world: &World, program: u16, pages: usize, number: u8) {
    expect_buffers(world, Call::BeginPages { program, edition, pages }, number, world);
    if pages == 1 {
        expect_buffers(world, Call::Begin { program, edition }, number, world);
    }
}

fn expect_refused(world: &World, program: u16, pages: usize, number: u8) {
    EDITIONS.into_iter().for_each(|edition| expect_refused_of(edition, world, program, pages, number));
}

/// The header with D = 1, record 1 with the program, zeros elsewhere.
fn begun_without_pages(world: &World, edition: u32) -> World {
    let mut begun = world.clone();
    let frames = world.pool.len() / PAGE;
    begun.control.fill(0);
    put_words(&mut begun.control, &[frames as u32, 1, 24, 4512, edition, 0]);
    put_u16(&mut begun.control, 24 + 264, PROGRAM);
    begun
}

/// Beyond that a stack size of 1, entry 0 for page 4,095 of the stack, and frame 0 of the pool zeroed.
fn begun_with_page(world: &World, edition: u32) -> World {
    let mut begun = begun_without_pages(world, edition);
    put_u16(&mut begun.control, 24 + 264 + 2, 1);
    begun.control[4512..4520].copy_from_slice(&[2, 0, 0, 0, 0xFF, 0x0F, 0, 0]);
    begun.pool[..4096].fill(0);
    begun
}

/// "The ledger header gains at its end a u32 edition (1 older, 2 newer) and a zero u32": here the layout's numbers are the paper's own.
#[test]
fn bytes_written() {
    let program = PROGRAM;
    for edition in [1, 2] {
        for frames in [1, 2, 4, 1024] {
            let world = world(frames);
            assert_eq!(world.control.len(), 4512 + 8 * frames);
            let with_page = begun_with_page(&world, edition);
            expect_buffers(&world, Call::Begin { program, edition }, 0, &with_page);
            expect_buffers(&world, Call::BeginPages { program, edition, pages: 1 }, 0, &with_page);
            expect_buffers(&world, Call::BeginPages { program, edition, pages: 0 }, 0, &begun_without_pages(&world, edition));
        }
        let no_frames = world(0);
        expect_buffers(&no_frames, Call::BeginPages { program, edition, pages: 0 }, 0, &begun_without_pages(&no_frames, edition));
    }
}

/// "With F=0 it answers 8, checked last."
#[test]
fn no_frame() {
    let world = world(0);
    for (program, number) in [(PROGRAM, 8), (INVALID, 1), (ABSENT, 4), (BEYOND, 4)] {
        expect_refused(&world, program, 1, number);
    }
    for (program, number) in [(INVALID, 1), (ABSENT, 4), (BEYOND, 4)] {
        expect_refused(&world, program, 0, number);
    }
}

/// "any other is 2, right after the first 1"
#[test]
fn wrong_pages() {
    for frames in [0, 1, 4] {
        for program in [PROGRAM, INVALID, ABSENT, BEYOND] {
            for pages in WRONG_STACK_PAGES {
                expect_refused(&world(frames), program, pages, 2);
            }
        }
    }
}

/// "Both begins take the edition; any other is 2, right after the first 1."
#[test]
fn wrong_editions() {
    for frames in [0, 1, 4] {
        for program in [PROGRAM, INVALID, ABSENT, BEYOND] {
            for edition in WRONG_EDITIONS {
                [0, 1, 2].into_iter().for_each(|pages| expect_refused_of(edition, &world(frames), program, pages, 2));
            }
        }
    }
}

#[test]
fn invalid_buffers() {
    for frames in [0, 1, 4] {
        let valid = world(frames);
        let shorter_snapshot = World { snapshot: valid.snapshot[..valid.snapshot.len() - 1].to_vec(), ..valid.clone() };
        let longer_control = World { control: vec![0xCC; valid.control.len() + FRAME_ENTRY], ..valid.clone() };
        let longer_pool = World { pool: vec![0xAA; valid.pool.len() + PAGE], ..valid.clone() };
        for world in [shorter_snapshot, longer_control, longer_pool] {
            for (program, pages) in [(PROGRAM, 0), (PROGRAM, 1), (PROGRAM, 2), (BEYOND, 1), (BEYOND, usize::MAX)] {
                expect_refused(&world, program, pages, 1);
                expect_refused_of(3, &world, program, pages, 1);
            }
        }
    }
    let too_many = world(1025);
    for pages in [0, 1, 2] {
        expect_refused(&too_many, PROGRAM, pages, 1);
    }
}

/// The page is there for the program's first call, its frame counts as taken, and it stays the first invocation's.
#[test]
fn the_page_taken() {
    let mut world = world(2);
    let store = |address| Call::Store { address, size: 8, value: 1 };
    expect(&mut world, Call::Begin { program: PROGRAM, edition: NEWER }, 0);
    expect(&mut world, store(TOP_STACK_PAGE), 0);
    expect(&mut world, Call::Load { address: TOP_STACK_PAGE - 1, size: 1 }, 13);
    expect(&mut world, store(0x0300_0500_0000), 0);
    expect(&mut world, store(0x0300_0500_1000), 8);
    expect(&mut world, Call::Invoke { program: PROGRAM, registers: Bytes(vec![7; REGISTERS]) }, 0);
    expect(&mut world, store(TOP_STACK_PAGE), 7);
    expect(&mut world, Call::Resize { region: STACK, pages: 0 }, 7);
    expect(&mut world, Call::Return { registers: Bytes(vec![0; REGISTERS]) }, 0);
    expect(&mut world, Call::Load { address: TOP_STACK_PAGE, size: 8 }, 0);
    expect(&mut world, Call::Resize { region: STACK, pages: 0 }, 0);
    expect(&mut world, store(0x0300_0500_1000), 0);
}
