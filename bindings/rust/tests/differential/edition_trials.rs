//! The two editions, given to the library and to the model: numbers and bytes are worked out by hand from the papers, so that the two cannot
//! agree on wrong ones.

use hekthumar::sys::{Place, Value};

use crate::bytes::*;
use crate::calls::WRONG_EDITIONS;
use crate::interface::{Answer, Bytes, Call, World};
use crate::record::{Record, Shape};
use crate::trials::{self, expect, expect_answer, expect_buffers, expect_with};

/// Has 6,000 bytes, which it owns and may write. Byte k is k modulo 251.
const PROGRAM: u16 = 5;
/// Its data are the first 100 bytes of those; it owns nothing and may write nothing.
const HELPER: u16 = 4;
/// Its entry has flags of 4.
const INVALID: u16 = 3;
/// Does not exist.
const ABSENT: u16 = 2;

const RESERVED: u64 = 0x0000_0300_0000;
const TRANSACTION: u64 = 0x0000_0100_0000;
const SHADOW: u64 = 0x0000_0200_0000;
const CONTEXTS: u64 = 0x0000_0400_0000;
const STACK_TOP: u64 = 0x0500_00FF_F000;
const HEAP_AT: u64 = 0x0700_0000_0000;

fn data(account: u16) -> u64 {
    0x0300_0000_0000 + (u64::from(account) << 24)
}

fn metadata(account: u16) -> u64 {
    0x0200_0000_0000 + (u64::from(account) << 24)
}

fn entry_at(account: u16) -> usize {
    SNAPSHOT_HEADER + ACCOUNT_ENTRY * usize::from(account)
}

/// Four frames, of which begin takes frame 0 for the stack.
fn begun_by(program: u16, edition: u32) -> World {
    let mut world = trials::world(1, 6000);
    let data_at = u32_at(&world.snapshot, entry_at(PROGRAM) + 8);
    put_words(&mut world.snapshot[entry_at(HELPER)..], &[1, 100, data_at, 0]);
    put_u16(&mut world.snapshot, entry_at(INVALID), 4);
    expect(&mut world, Call::Begin { program, edition }, 0);
    world
}

fn begun(edition: u32) -> World {
    begun_by(PROGRAM, edition)
}

fn fetch(address: u64, size: usize) -> Call {
    Call::Fetch { address, size }
}

fn store(address: u64, size: usize, value: u64) -> Call {
    Call::Store { address, size, value }
}

fn invoke(program: u16) -> Call {
    Call::Invoke { program, registers: Bytes(vec![7; REGISTERS]) }
}

fn return_() -> Call {
    Call::Return { registers: Bytes(vec![0; REGISTERS]) }
}

/// A fetch and its translation are told this number and this distance.
fn told(world: &mut World, address: u64, size: usize, number: u8, distance: u64) {
    expect_with(world, fetch(address, size), number, distance);
    expect_with(world, Call::Translate { kind: 2, address, length: size }, number, distance);
}

fn fetched(world: &mut World, address: u64, size: usize, value: u64) {
    expect_answer(world, fetch(address, size), Answer::Value(Value { value, distance: 0, number: 0 }));
}

/// Every access of a place in a page: the five kinds, their translations, and the records.
fn accesses(address: u64) -> Vec<Call> {
    let mut calls = vec![
        Call::Load { address, size: 8 },
        fetch(address, 8),
        store(address, 8, 1),
        Call::LoadSpan { address, out: Bytes(vec![0xEE; 8]) },
        Call::StoreSpan { address, bytes: Bytes(vec![1; 8]) },
    ];
    calls.extend((0..5).map(|kind| Call::Translate { kind, address, length: 8 }));
    for shape in Shape::ALL {
        calls.push(Call::ReadRecord { shape, address });
        calls.push(Call::WriteRecord { address, record: Record::zeros(shape) });
    }
    calls
}

/// "There index 3 of type 0 is reserved (4 for every kind)": before the entry, alignment, permission, a crossing and an absent byte are asked.
#[test]
fn index_3_of_type_0_is_reserved() {
    let mut spoiled = begun(OLDER);
    put_u16(&mut spoiled.snapshot, entry_at(PROGRAM), 4);
    for world in [begun(OLDER), spoiled] {
        for offset in [0, 1, 4090, 5996, 6000, 0xFF_FFF8] {
            accesses(RESERVED + offset).into_iter().for_each(|call| drop(expect_buffers(&world, call, 4, &world)));
        }
    }
    // Earlier refusals come first.
    let mut world = begun(OLDER);
    expect(&mut world, fetch(RESERVED, 3), 2);
    expect(&mut world, fetch(RESERVED | 1 << 48, 4), 3);
}

/// "Edition 2 is as before": loads and fetches of the original, also once there is a copy, and no store.
#[test]
fn the_newer_has_it() {
    let mut world = begun(NEWER);
    expect(&mut world, store(data(PROGRAM) + 8, 1, 0xAA), 0);
    fetched(&mut world, RESERVED + 8, 4, 0x0B0A_0908);
    expect(&mut world, Call::Load { address: RESERVED + 8, size: 4 }, 0);
    expect(&mut world, store(RESERVED + 8, 1, 1), 7);
    told(&mut world, RESERVED + 2, 4, 5, 0);
    told(&mut world, RESERVED + 5999, 1, 0, 0);
    told(&mut world, RESERVED + 6000, 1, 13, 0);
    for address in [data(PROGRAM), data(PROGRAM) + 8, data(PROGRAM) + 6000, data(HELPER), TRANSACTION, STACK_TOP] {
        told(&mut world, address, 4, 7, 0);
    }
}

/// "programs execute from their account data, 0x03XXXX000000 ... reading what a load reads"
#[test]
fn the_older_fetches_account_data() {
    let mut world = begun(OLDER);
    let at = 0x0300_0500_0000;
    for (offset, size, value) in [(0, 1, 0), (8, 4, 0x0B0A_0908), (4088, 8, 0x4F4E_4D4C_4B4A_4948), (5999, 1, 0xE2)] {
        fetched(&mut world, at + offset, size, value);
    }
    let data_at = u64::from(u32_at(&world.snapshot, entry_at(PROGRAM) + 8));
    let place = |at, place| Answer::Place(Place { at, frame: 0, account: 0, page: 0, place, number: 0 });
    let translated = |offset| Call::Translate { kind: 2, address: at + offset, length: 4 };
    expect_answer(&mut world, translated(8), place(data_at + 8, 1));
    // A store on page 0: its copy is the last frame, and page 1 keeps its original.
    expect(&mut world, store(at + 9, 1, 0xAA), 0);
    fetched(&mut world, at + 8, 4, 0x0B0A_AA08);
    expect_answer(&mut world, translated(8), place(3 * 4096 + 8, 4));
    expect_answer(&mut world, translated(4096), place(data_at + 4096, 1));
    // A copy has a whole frame, and still no more bytes are present.
    expect(&mut world, store(at + 5999, 1, 1), 0);
    told(&mut world, at + 6000, 8, 13, 0);
}

/// "judged as a load is": 5, 13 with its distance, and neither owner nor leave to write is asked.
#[test]
fn own_data_is_judged_as_by_a_load() {
    let mut world = begun(OLDER);
    put_u32(&mut world.snapshot, entry_at(PROGRAM) + 4, 5997);
    for (offset, size, number, distance) in [(2, 4, 5, 0), (5992, 8, 13, 5), (5996, 2, 13, 1), (5997, 1, 13, 0), (0xFF_FFFF, 1, 13, 0)] {
        told(&mut world, data(PROGRAM) + offset, size, number, distance);
        expect_with(&mut world, Call::Load { address: data(PROGRAM) + offset, size }, number, distance);
    }
    told(&mut world, data(PROGRAM), 3, 2, 0);
    told(&mut world, data(PROGRAM) | 1 << 63, 4, 3, 0);
    let mut helper = begun_by(HELPER, OLDER);
    fetched(&mut helper, data(HELPER) + 96, 4, 0x6362_6160);
    expect(&mut helper, store(data(HELPER), 1, 1), 7);
    told(&mut helper, data(HELPER) + 96, 8, 13, 4);
    // The program's own entry, made invalid, and made one that does not exist.
    put_u16(&mut world.snapshot, entry_at(PROGRAM), 4);
    told(&mut world, data(PROGRAM) + 2, 4, 1, 0);
    put_u16(&mut world.snapshot, entry_at(PROGRAM), 0);
    told(&mut world, data(PROGRAM), 4, 13, 0);
}

/// "elsewhere it is 7", after 4, the entry's 1 and 5, before 13; also in the metadata of the program's account.
#[test]
fn the_older_fetches_nowhere_else() {
    let mut world = begun(OLDER);
    for address in [data(HELPER), data(ABSENT), metadata(PROGRAM), TRANSACTION, SHADOW, CONTEXTS, STACK_TOP, HEAP_AT] {
        for offset in [0, 8, 0x800] {
            told(&mut world, address + offset, 8, 7, 0);
            told(&mut world, address + offset + 2, 4, 5, 0);
        }
    }
    for address in [data(6), data(0xFFFF), metadata(6), 0, 0x0100_0000_0000, 0x0500_0100_0000] {
        told(&mut world, address + 2, 4, 4, 0);
    }
    for address in [data(INVALID), metadata(INVALID)] {
        told(&mut world, address + 2, 4, 1, 0);
    }
}

/// Call and return keep the edition; whose code it is changes with the program.
#[test]
fn call_and_return_keep_it() {
    for (edition, own, others, reserved) in [(OLDER, 0, 7, 4), (NEWER, 7, 7, 0)] {
        let mut world = begun(edition);
        let runs = |world: &mut World, program: u16, other: u16| {
            assert_eq!(world.control[EDITION_AT..RECORDS_AT], [edition as u8, 0, 0, 0, 0, 0, 0, 0]);
            told(world, data(program), 4, own, 0);
            told(world, data(other), 4, others, 0);
            told(world, RESERVED, 4, reserved, 0);
        };
        runs(&mut world, PROGRAM, HELPER);
        expect(&mut world, invoke(HELPER), 0);
        runs(&mut world, HELPER, PROGRAM);
        expect(&mut world, invoke(PROGRAM), 0);
        runs(&mut world, PROGRAM, HELPER);
        expect(&mut world, return_(), 0);
        expect(&mut world, return_(), 0);
        runs(&mut world, PROGRAM, HELPER);
    }
}

/// A call of each kind that reads the control block.
fn calls() -> Vec<Call> {
    let mut calls = accesses(data(PROGRAM));
    calls.extend([invoke(HELPER), return_(), Call::Resize { region: HEAP, pages: 1 }]);
    calls.extend([Call::ChangeList { out: Bytes(vec![0xEE; 16]) }, Call::PageView { account: PROGRAM, page: 0 }]);
    calls
}

/// "any other word there is unfit, 1"; only a begin reads neither.
#[test]
fn other_words_are_invalid() {
    let editions = WRONG_EDITIONS.map(|edition| (EDITION_AT, edition));
    let zeros = [1, 2, 0x100, 0x1_0000, 1 << 31, u32::MAX].map(|word| (ZERO_AT, word));
    for edition in EDITIONS {
        for (at, word) in editions.into_iter().chain(zeros) {
            let mut world = begun(edition);
            put_u32(&mut world.control, at, word);
            calls().into_iter().for_each(|call| drop(expect_buffers(&world, call, 1, &world)));
            expect(&mut world, Call::Begin { program: PROGRAM, edition }, 0);
            assert_eq!(world.control[EDITION_AT..RECORDS_AT], [edition as u8, 0, 0, 0, 0, 0, 0, 0]);
        }
    }
}

/// "Shadow frames start at 24": a place in the control block counts from its start.
#[test]
fn the_shadow_stack_starts_behind_the_header() {
    for edition in EDITIONS {
        let mut world = begun(edition);
        for (offset, at) in [(0, 24), (264, 288), (4480, 4504)] {
            let place = Place { at, frame: 0, account: 0, page: 0, place: 2, number: 0 };
            expect_answer(&mut world, Call::Translate { kind: 0, address: SHADOW + offset, length: 8 }, Answer::Place(place));
        }
        let record = Value { value: 0x0001_0005, distance: 0, number: 0 };
        expect_answer(&mut world, Call::Load { address: SHADOW + 264, size: 4 }, Answer::Value(record));
    }
}
