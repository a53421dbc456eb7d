//! How deep a page was first touched, given to the library and to the model: numbers and bytes are worked out by hand from the papers, so
//! that the two cannot agree on wrong ones.

use crate::bytes::*;
use crate::interface::{Bytes, Call, World};
use crate::record::{Record, Shape};
use crate::trials::{begun_with, expect, expect_buffers, original};

/// The only account that exists, and the program; it owns its data and may write them.
const PROGRAM: u16 = 5;
const DATA: u64 = 0x0300_0500_0000;
/// Document 01's 6,000 bytes.
const LENGTH: usize = 6000;

/// Four frames, of which none is taken.
fn begun() -> World {
    begun_with(0, LENGTH)
}

/// Behind so many calls.
fn begun_at(depth: usize) -> World {
    let mut world = begun();
    (0..depth).for_each(|_| drop(expect(&mut world, invoke(), 0)));
    world
}

fn invoke() -> Call {
    Call::Invoke { program: PROGRAM, registers: Bytes(vec![7; REGISTERS]) }
}

fn return_() -> Call {
    Call::Return { registers: Bytes(vec![0; REGISTERS]) }
}

fn begin() -> Call {
    Call::BeginPages { program: PROGRAM, edition: NEWER, pages: 0 }
}

fn store(offset: u64, value: u64) -> Call {
    Call::Store { address: DATA + offset, size: 1, value }
}

/// Every call that takes a copy of a page.
fn stores(offset: u64) -> [Call; 3] {
    let address = DATA + offset;
    let record = Record::zeros(Shape::Location);
    [store(offset, 1), Call::StoreSpan { address, bytes: Bytes(vec![1; 9]) }, Call::WriteRecord { address, record }]
}

/// The entry of a frame: use 1, tag 0, account 5.
fn copy_entry(page: u8, depth: u8) -> [u8; 8] {
    [1, 0, 5, 0, page, 0, depth, 0]
}

fn entry(world: &World, frame: usize) -> &[u8] {
    &world.control[4512 + 8 * frame..][..8]
}

/// The list of so many pages, which is as long as the buffer.
fn list(world: &mut World, pages: usize) -> Vec<u8> {
    let call = expect(world, Call::ChangeList { out: Bytes(vec![0xEE; 16 + 4108 * pages]) }, 0);
    let Call::ChangeList { out } = call else { unreachable!("the call keeps its kind") };
    out.0
}

/// 01's two bookings on page 1: its live bytes, then zeros.
fn booked() -> Vec<u8> {
    let mut page: Vec<u8> = (4096..6000).map(original).chain([0; 2192]).collect();
    (page[4], page[8]) = (0x11, 0x22);
    page
}

/// The list of page 1 alone, which was first stored to at this depth.
fn list_of_booked(depth: u8) -> Vec<u8> {
    let words = [1, 16, 28, 4124].into_iter().flat_map(u32::to_le_bytes);
    words.chain([5, 0, 1, 0, 0x70, 7, 0, 0, depth, 0, 0, 0]).chain(booked()).collect()
}

/// 01's case, then with the first booking behind two calls and the second behind as many returns, then the other way round.
#[test]
fn the_case_of_01() {
    let orders: [(&[Call], &[Call], u8); 3] =
        [(&[], &[], 0), (&[invoke(), invoke()], &[return_(), return_()], 2), (&[], &[invoke(), invoke()], 0)];
    for (before, between, depth) in orders {
        let mut world = begun();
        before.iter().for_each(|call| drop(expect(&mut world, call.clone(), 0)));
        expect(&mut world, store(0x1004, 0x11), 0);
        assert_eq!(entry(&world, 3), copy_entry(1, depth));
        between.iter().for_each(|call| drop(expect(&mut world, call.clone(), 0)));
        expect(&mut world, store(0x1008, 0x22), 0);
        assert_eq!(entry(&world, 3), copy_entry(1, depth));
        assert!(list(&mut world, 1) == list_of_booked(depth));
    }
}

/// The depths 0 to 15, by each call that takes a copy. A store to a page that has a frame changes no byte of the control block, be it
/// shallower, as deep or deeper.
#[test]
fn at_every_depth() {
    for depth in 0..16 {
        for first in stores(0x1004) {
            let mut world = begun_at(depth);
            expect(&mut world, first, 0);
            assert_eq!(entry(&world, 3), copy_entry(1, depth as u8));
            for (call, last) in [(return_(), 1), (invoke(), 16), (invoke(), 16)] {
                let number = if world.live() == last { 9 } else { 0 };
                expect(&mut world, call, number);
                let control = world.control.clone();
                stores(0x1004).into_iter().for_each(|again| drop(expect(&mut world, again, 0)));
                assert!(world.control == control);
            }
            assert_eq!(list(&mut world, 1)[16..28], [5, 0, 1, 0, 0x70, 7, 0, 0, depth as u8, 0, 0, 0]);
        }
    }
}

/// "depth being the accepted calls since that begin less the accepted returns": what is refused counts for nothing, and a begin starts
/// anew.
#[test]
fn what_counts() {
    let mut world = begun_at(2);
    // No such program, and registers of a wrong length.
    expect(&mut world, Call::Invoke { program: 6, registers: Bytes(vec![7; REGISTERS]) }, 4);
    expect(&mut world, Call::Return { registers: Bytes(vec![0; 255]) }, 2);
    expect(&mut world, store(0x1004, 0x11), 0);
    assert_eq!(entry(&world, 3), copy_entry(1, 2));
    // A refused begin leaves all as it is.
    expect(&mut world, Call::BeginPages { program: PROGRAM, edition: NEWER, pages: 2 }, 2);
    expect(&mut world, store(0, 1), 0);
    assert_eq!(entry(&world, 2), copy_entry(0, 2));
    expect(&mut world, begin(), 0);
    expect(&mut world, invoke(), 0);
    expect(&mut world, store(0x1004, 0x11), 0);
    expect(&mut world, store(0x1008, 0x22), 0);
    assert!(list(&mut world, 1) == list_of_booked(1));
}

/// "the first accepted store": one that is refused, here with 8, takes no copy and keeps no depth.
#[test]
fn a_refused_store_is_not_the_first() {
    let mut world = begun_at(1);
    expect(&mut world, Call::Resize { region: STACK, pages: 4 }, 0);
    stores(0x1004).into_iter().for_each(|call| drop(expect(&mut world, call, 8)));
    expect(&mut world, return_(), 0);
    expect(&mut world, store(0x1004, 0x11), 0);
    expect(&mut world, store(0x1008, 0x22), 0);
    assert!(list(&mut world, 1) == list_of_booked(0));
}

/// Each page has its own depth, and the list's order does not follow it.
#[test]
fn pages_of_unequal_depths() {
    let mut world = begun_at(3);
    expect(&mut world, store(0, 0x11), 0);
    expect(&mut world, return_(), 0);
    expect(&mut world, store(0x1000, 0x22), 0);
    let list = list(&mut world, 2);
    let words = [2, 16, 40, 8232].into_iter().flat_map(u32::to_le_bytes);
    let entries = [5, 0, 0, 0, 0, 0x10, 0, 0, 3, 0, 0, 0, 5, 0, 1, 0, 0x70, 7, 0, 0, 2, 0, 0, 0];
    assert_eq!(list[..40], words.chain(entries).collect::<Vec<u8>>());
    assert_eq!((list[40], list[40 + 4096]), (0x11, 0x22));
}

/// "stack and heap keep 0": their tags have the depth. A copy has it in its last u16 alone.
#[test]
fn stack_and_heap() {
    let mut world = begun_at(9);
    expect(&mut world, Call::Resize { region: STACK, pages: 1 }, 0);
    expect(&mut world, Call::Resize { region: HEAP, pages: 1 }, 0);
    expect(&mut world, store(0, 1), 0);
    let table = [[2, 9, 0, 0, 0xFF, 0x0F, 0, 0], [3, 9, 0, 0, 0, 0, 0, 0], [0; 8], copy_entry(0, 9)];
    assert_eq!(world.control[4512..], table.concat());
    // What is written over held anything before.
    let mut world = begun_at(9);
    world.control[4512..].copy_from_slice(&[[0, 7, 7, 7, 7, 7, 7, 7]; 4].concat());
    expect(&mut world, Call::Resize { region: STACK, pages: 1 }, 0);
    expect(&mut world, Call::Resize { region: HEAP, pages: 1 }, 0);
    expect(&mut world, store(0, 1), 0);
    assert_eq!(world.control[4512..], [table[0], table[1], [0, 7, 7, 7, 7, 7, 7, 7], table[3]].concat());
}

/// A begun world whose frames have these entries, and whose pool is 0xAA.
fn with_table(entries: [[u8; 8]; 4]) -> World {
    let mut world = begun();
    world.control[4512..].copy_from_slice(&entries.concat());
    world
}

/// The last two bytes of a frame entry, and of a list's before the zero: depths that programs reach, and others.
const ANY: [[u8; 2]; 6] = [[0, 0], [15, 0], [16, 0], [0, 1], [0x34, 0x12], [255, 255]];

/// Nothing is refused for an entry's last u16: the list hands it on, other calls pass it over.
#[test]
fn damaged_tables() {
    for [low, high] in ANY {
        // The tag of a copy may hold anything, too.
        let copy = [1, 0x77, 5, 0, 0, 0, low, high];
        let mut world =
            with_table([[2, 0, 0, 0, 0xFF, 0x0F, low, high], [3, 0, 0, 0, 0, 0, low, high], [0, 0, 0, 0, 0, 0, low, high], copy]);
        assert_eq!(list(&mut world, 1)[16..28], [5, 0, 0, 0, 0, 0x10, 0, 0, low, high, 0, 0]);
        let control = world.control.clone();
        stores(8).into_iter().for_each(|call| drop(expect(&mut world, call, 0)));
        assert!(world.control == control);
        // The free frame is taken, and its u16 written over.
        expect(&mut world, store(0x1004, 0x11), 0);
        assert_eq!((entry(&world, 2), entry(&world, 3)), (&copy_entry(1, 0)[..], &copy[..]));
    }
}

/// "a page claimed before" is 1, also where only the depths differ.
#[test]
fn two_claims() {
    for depth in [0, 1, 15] {
        let world = with_table([copy_entry(1, 0), [0; 8], [0; 8], copy_entry(1, depth)]);
        expect_buffers(&world, Call::ChangeList { out: Bytes(vec![0xEE; 16 + 4108 * 4]) }, 1, &world);
    }
}

/// A list of page 1 of account 5 and page 0 of account 6, with the last four bytes of both entries.
fn list_of_two(own: [u8; 4], other: [u8; 4]) -> Vec<u8> {
    let words = [2, 16, 40, 8232].into_iter().flat_map(u32::to_le_bytes);
    let entries = [&[5, 0, 1, 0, 0x70, 7, 0, 0], &own[..], &[6, 0, 0, 0, 1, 0, 0, 0], &other].concat();
    words.chain(entries).chain(booked()).chain([0x66; 4096]).collect()
}

/// The data of an account after the list was applied to so many zeros.
fn apply(list: Vec<u8>, account: u16, length: usize, number: u8) -> Vec<u8> {
    let call = Call::Apply { list: Bytes(list), account, data: Bytes(vec![0; length]) };
    let Call::Apply { data, .. } = expect(&mut begun(), call, number) else { unreachable!("the call keeps its kind") };
    data.0
}

/// "Applying refuses an entry whose last u16 isn't zero with 12", this account's or not; any depth is accepted.
#[test]
fn applying() {
    let applied = [vec![0; 4096], booked()[..1904].to_vec()].concat();
    for [low, high] in ANY {
        let (depth, zero) = ([low, high, 0, 0], [0; 4]);
        for list in [list_of_two(depth, zero), list_of_two(zero, depth), list_of_two(depth, depth)] {
            assert!(apply(list.clone(), 5, LENGTH, 0) == applied);
            assert_eq!(apply(list.clone(), 6, 1, 0), [0x66]);
            assert_eq!(apply(list, 7, 3, 0), [0; 3]);
        }
        if [low, high] == [0, 0] {
            continue;
        }
        let wrong = [3, 0, low, high];
        for list in [list_of_two(wrong, zero), list_of_two(zero, wrong), list_of_two(wrong, wrong)] {
            assert_eq!(apply(list.clone(), 5, LENGTH, 12), [0; LENGTH]);
            assert_eq!(apply(list.clone(), 6, 1, 12), [0]);
            assert_eq!(apply(list, 7, 3, 12), [0; 3]);
        }
    }
}

/// The base's layout: "16, 16+8n, total 16+4,104n". Without a page it is the same as this one.
#[test]
fn a_list_of_the_base() {
    let words = |words: [u32; 4]| words.into_iter().flat_map(u32::to_le_bytes);
    let base: Vec<u8> = words([1, 16, 24, 4120]).chain([5, 0, 1, 0, 0x70, 7, 0, 0]).chain(booked()).collect();
    assert_eq!(apply(base.clone(), 5, LENGTH, 12), [0; LENGTH]);
    // As long as a list of one page, and with the words of it but one.
    let longer = [&base[..], &[0; 4]].concat();
    assert_eq!(apply(longer.clone(), 5, LENGTH, 12), [0; LENGTH]);
    for wrong in [[1, 16, 28, 4120], [1, 16, 24, 4124], [1, 16, 20, 4124], [1, 12, 28, 4124]] {
        let list = words(wrong).chain(longer[16..].iter().copied()).collect();
        assert_eq!(apply(list, 5, LENGTH, 12), [0; LENGTH]);
    }
    assert_eq!(apply(words([0, 16, 16, 16]).collect(), 5, LENGTH, 0), [0; LENGTH]);
}

/// A count whose 12n and 4,108n are 0, or whose words agree, modulo 2^32 alone.
#[test]
fn counts_that_wrap() {
    for count in [1u32 << 30, 1 << 31, 3 << 30, (1 << 30) + 1] {
        let mut list = list_of_booked(0);
        let words = [count, 16, 16u32.wrapping_add(count.wrapping_mul(12)), 16u32.wrapping_add(count.wrapping_mul(4108))];
        put_words(&mut list, &words);
        assert_eq!(apply(list, 5, LENGTH, 12), [0; LENGTH]);
    }
}

/// 11 up to a byte less than the total, which is 4,108 more with each page.
#[test]
fn too_short_an_output() {
    let mut world = begun();
    for (offset, total) in [(0, 4124), (0x1000, 8232)] {
        expect(&mut world, store(offset, 1), 0);
        for length in [0, 16, 4120, total - 4, total - 1] {
            let lent = Call::ChangeList { out: Bytes(vec![0xEE; length]) };
            assert_eq!(expect_buffers(&world, lent.clone(), 11, &world), lent);
        }
        expect(&mut world, Call::ChangeList { out: Bytes(vec![0xEE; total]) }, 0);
    }
}
