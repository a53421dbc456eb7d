//! How deep a page was first stored to, seen from a host.

mod common;

use common::Host;
use hekthumar::inspect::{frame_entries, FrameEntry, ListEntry};
use hekthumar::*;

const DISPATCHER: u16 = 0;
/// The program that owns the slots.
const BOOKING: u16 = 1;
const SLOTS: u16 = 2;

impl Host {
    /// Three pages that are the booking program's.
    fn new(frames: usize) -> Host {
        Host::of_two_programs([7; 10_000], frames)
    }

    fn begin(&mut self, program: u16) -> Memory<'_> {
        let mut memory = self.memory();
        memory.begin(program, Edition::Newer).unwrap();
        memory
    }
}

/// A byte of a page of the slots.
fn slot(page: u32) -> Address {
    Address::data(SLOTS, 4_096 * page + 5).unwrap()
}

fn call(memory: &mut Memory, program: u16) {
    memory.call(program, &[0; 256]).unwrap();
}

fn return_from(memory: &mut Memory) {
    memory.return_from(&mut [0; 256]).unwrap();
}

/// Page and depth of each change.
fn depths(memory: &Memory) -> Vec<(u16, u16)> {
    let mut out = vec![0; change_list_len(3)];
    let list = memory.change_list(&mut out).unwrap();
    list.entries().map(|Change { page, depth, .. }| (page, depth)).collect()
}

#[test]
fn lengths_of_a_list() {
    assert_eq!([0, 1, 2, 1_024].map(change_list_len), [16, 4_124, 8_232, 4_206_608]);
}

/// Each page has the depth at the first store to it, whatever is stored to it later, and by whichever call.
#[test]
fn the_first_store_decides() {
    let mut host = Host::new(6);
    let mut memory = host.begin(BOOKING);
    memory.store_u8(slot(1), 1).unwrap();
    call(&mut memory, BOOKING);
    memory.store_span(slot(0), &[1, 2]).unwrap();
    memory.store_u8(slot(1), 2).unwrap();
    call(&mut memory, BOOKING);
    memory.write_buffer(slot(2), Buffer { pointer: slot(0), length: 2 }).unwrap();
    assert_eq!(depths(&memory), [(0, 1), (1, 0), (2, 2)]);
    return_from(&mut memory);
    return_from(&mut memory);
    (0..3).for_each(|page| memory.store_u8(slot(page), 3).unwrap());
    assert_eq!(depths(&memory), [(0, 1), (1, 0), (2, 2)]);
}

/// The owner stores first behind a call by another program, then as the only one. A begin forgets both.
#[test]
fn a_program_that_another_calls() {
    let mut host = Host::new(4);
    let mut memory = host.begin(DISPATCHER);
    assert_eq!(memory.store_u8(slot(0), 1), Err(Refusal::NotPermitted));
    call(&mut memory, BOOKING);
    memory.store_u8(slot(0), 1).unwrap();
    return_from(&mut memory);
    call(&mut memory, DISPATCHER);
    call(&mut memory, BOOKING);
    memory.store_u8(slot(0), 2).unwrap();
    memory.store_u8(slot(1), 2).unwrap();
    assert_eq!(depths(&memory), [(0, 1), (1, 2)]);

    memory.begin(BOOKING, Edition::Newer).unwrap();
    assert_eq!(depths(&memory), []);
    memory.store_u8(slot(1), 3).unwrap();
    assert_eq!(depths(&memory), [(1, 0)]);
}

/// What is refused is neither a call nor a store.
#[test]
fn refusals_do_not_count() {
    let mut host = Host::new(2);
    let mut memory = host.begin(BOOKING);
    assert_eq!(memory.call(SLOTS + 1, &[0; 256]), Err(Refusal::NoSegment));
    call(&mut memory, BOOKING);
    memory.resize(Region::Heap, 1).unwrap();
    assert_eq!(memory.store_u8(slot(0), 1), Err(Refusal::OutOfFrames));
    memory.resize(Region::Heap, 0).unwrap();
    return_from(&mut memory);
    memory.store_u8(slot(0), 1).unwrap();
    assert_eq!(depths(&memory), [(0, 0)]);
}

#[test]
fn as_deep_as_calls_go() {
    let mut host = Host::new(2);
    let mut memory = host.begin(BOOKING);
    (0..15).for_each(|_| call(&mut memory, BOOKING));
    memory.store_u8(slot(0), 1).unwrap();
    (0..15).for_each(|_| return_from(&mut memory));
    assert_eq!(depths(&memory), [(0, 15)]);
}

/// Of stack and heap pages the tag has the depth, of a copy the last number of its entry.
#[test]
fn the_entries_of_frames() {
    let mut host = Host::new(4);
    let mut memory = host.begin(BOOKING);
    call(&mut memory, BOOKING);
    memory.resize(Region::Stack, 2).unwrap();
    memory.resize(Region::Heap, 1).unwrap();
    memory.store_u8(slot(2), 1).unwrap();
    let entry = |usage, tag, account, page, depth| FrameEntry { usage, tag, account, page, depth };
    let entries = [entry(2, 0, 0, 4_095, 0), entry(2, 1, 0, 4_094, 0), entry(3, 1, 0, 0, 0), entry(1, 0, SLOTS, 2, 1)];
    assert!(frame_entries(memory.buffers().1).eq(entries));
}

/// The list hands on whatever number a damaged control block holds.
#[test]
fn any_depth_is_handed_on() {
    let mut host = Host::new(2);
    host.begin(BOOKING).store_u8(slot(0), 1).unwrap();
    for depth in [1, 16, 0x1234, 0xFFFF] {
        let at = FrameEntry::at(1) + 6;
        host.control[at..at + 2].copy_from_slice(&u16::to_le_bytes(depth));
        assert_eq!(depths(&host.memory()), [(0, depth)]);
    }
}

/// A list of two pages of the slots, each stored to behind a call.
fn listed() -> Vec<u8> {
    let mut host = Host::new(3);
    let mut memory = host.begin(DISPATCHER);
    call(&mut memory, BOOKING);
    (0..2).for_each(|page| memory.store_u8(slot(page), 1).unwrap());
    let mut out = vec![0; change_list_len(2)];
    memory.change_list(&mut out).unwrap();
    out
}

#[test]
fn the_number_behind_the_depth_is_0() {
    let list = listed();
    let entry = |page| ListEntry { account: SLOTS, page, live: 4_096, depth: 1, zero: 0 };
    assert_eq!([0, 1].map(|number| ListEntry::read(&list, number)), [0, 1].map(|page| Some(entry(page))));
    let applies = |list: &[u8], account| {
        let mut data = vec![7; 10_000];
        let answer = apply(list, account, &mut data);
        (answer, data[5], data[4_101])
    };
    assert_eq!(applies(&list, SLOTS), (Ok(()), 1, 1));
    for number in [0, 1] {
        let at = ListEntry::at(number) + 8;
        for (place, told) in [(at, Ok(())), (at + 1, Ok(())), (at + 2, Err(Refusal::BadChangeList)), (at + 3, Err(Refusal::BadChangeList))]
        {
            let mut list = list.clone();
            list[place] ^= 0x10;
            assert_eq!(ChangeList::parse(&list).map(|_| ()), told);
            let byte = if told.is_ok() { 1 } else { 7 };
            assert_eq!(applies(&list, SLOTS), (told, byte, byte));
            // Also where the list is applied to another account than the entry's.
            assert_eq!(applies(&list, BOOKING), (told, 7, 7));
        }
    }
}

/// Entries of 8 bytes, without a depth, and the words that agree with that.
#[test]
fn a_list_without_depths_is_refused() {
    let list = listed();
    let mut bytes: Vec<u8> = [2, 16, 32, 8_224].into_iter().flat_map(u32::to_le_bytes).collect();
    (0..2).for_each(|number| bytes.extend(&list[ListEntry::at(number)..][..8]));
    bytes.extend(&list[ListEntry::at(2)..]);
    assert_eq!(bytes.len(), 8_224);
    bytes.resize(list.len(), 0);
    assert_eq!(ChangeList::parse(&bytes), Err(Refusal::BadChangeList));
    assert_eq!(apply(&bytes, SLOTS, &mut [7; 10_000]), Err(Refusal::BadChangeList));
}
