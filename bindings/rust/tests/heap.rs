//! The heap over calls and returns, seen from a host.

mod common;

use common::Host;
use hekthumar::inspect::{frame_entries, FrameEntry, Invocation};
use hekthumar::*;

const PROGRAM: u16 = 0;
const HELPER: u16 = 1;
const SLOTS: u16 = 2;

impl Host {
    fn new(frames: usize) -> Host {
        Host::of_two_programs([1; 8], frames)
    }

    /// Begins with one stack page, which is frame 0.
    fn begin(&mut self) -> Memory<'_> {
        let mut memory = self.memory();
        memory.begin(PROGRAM, Edition::Newer).unwrap();
        memory
    }
}

fn call(memory: &mut Memory) {
    memory.call(HELPER, &[0; 256]).unwrap();
}

fn return_from(memory: &mut Memory) {
    memory.return_from(&mut [0; 256]).unwrap();
}

/// Grows or shrinks the heap.
fn heap(memory: &mut Memory, pages: usize) -> Result<(), Refusal> {
    memory.resize(Region::Heap, pages)
}

fn page(number: u32) -> Address {
    Address::heap(4_096 * number).unwrap()
}

fn entries(memory: &Memory) -> Vec<FrameEntry> {
    frame_entries(memory.buffers().1).collect()
}

/// Heap pages by the record of each live invocation.
fn sizes(memory: &Memory, live: usize) -> Vec<u16> {
    (1..=live).map(|number| Invocation::read(memory.buffers().1, number).unwrap().heap).collect()
}

const FREE: FrameEntry = FrameEntry { usage: 0, tag: 0, account: 0, page: 0, depth: 0 };

fn stack_entry(tag: u8, page: u16) -> FrameEntry {
    FrameEntry { usage: 2, tag, page, ..FREE }
}

fn heap_entry(tag: u8, page: u16) -> FrameEntry {
    FrameEntry { usage: 3, tag, page, ..FREE }
}

/// Each node is its value and the offset of the next one; the last has the offset 0.
#[test]
fn a_helper_builds_a_list_that_its_caller_walks() {
    let mut host = Host::new(4);
    let mut memory = host.begin();
    call(&mut memory);
    heap(&mut memory, 2).unwrap();
    let nodes = [(64, 10, 4_096 + 8), (4_096 + 8, 20, 128), (128, 30, 0)];
    for (offset, value, next) in nodes {
        memory.store_u64(Address::heap(offset).unwrap(), value).unwrap();
        memory.store_u64(Address::heap(offset + 8).unwrap(), next).unwrap();
    }
    return_from(&mut memory);

    // The caller adds a node to the end.
    memory.store_u64(Address::heap(128 + 8).unwrap(), 256).unwrap();
    memory.store_u64(Address::heap(256).unwrap(), 40).unwrap();
    let (mut values, mut offset) = (vec![], 64);
    while offset != 0 {
        values.push(memory.load_u64(Address::heap(offset).unwrap()).unwrap());
        offset = memory.load_u64(Address::heap(offset + 8).unwrap()).unwrap() as u32;
    }
    assert_eq!(values, [10, 20, 30, 40]);
}

#[test]
fn a_return_frees_the_stack_and_leaves_the_heap() {
    let mut host = Host::new(6);
    let mut memory = host.begin();
    heap(&mut memory, 1).unwrap();
    call(&mut memory);
    memory.resize(Region::Stack, 2).unwrap();
    heap(&mut memory, 2).unwrap();
    memory.store_u8(Address::data(SLOTS, 0).unwrap(), 7).unwrap();
    let copy = FrameEntry { usage: 1, tag: 0, account: SLOTS, page: 0, depth: 1 };
    let [first, second] = [stack_entry(0, 4_095), stack_entry(1, 4_094)];
    assert_eq!(entries(&memory), [first, heap_entry(0, 0), second, heap_entry(1, 1), FREE, copy]);
    let pool = memory.buffers().2.to_vec();

    return_from(&mut memory);
    assert_eq!(entries(&memory), [first, heap_entry(0, 0), FREE, heap_entry(1, 1), FREE, copy]);
    assert_eq!(sizes(&memory, 2), [2, 0]);
    assert!(memory.buffers().2 == pool);
}

/// What the heap keeps is free for nothing else until it is given back.
#[test]
fn the_caller_frees_what_its_callee_left() {
    let mut host = Host::new(4);
    let mut memory = host.begin();
    call(&mut memory);
    heap(&mut memory, 3).unwrap();
    return_from(&mut memory);
    assert_eq!(memory.resize(Region::Stack, 2), Err(Refusal::OutOfFrames));
    heap(&mut memory, 1).unwrap();
    memory.resize(Region::Stack, 3).unwrap();
    assert_eq!(memory.load_u8(page(1)), Err(Refusal::Absent { distance: 0 }));
    assert_eq!(memory.load_u8(page(0)), Ok(0));
}

/// A page of the caller's behind those that a callee left keeps them from later callees, which may store to them nevertheless.
#[test]
fn a_page_of_a_lower_depth_keeps_those_before_it() {
    let mut host = Host::new(5);
    let mut memory = host.begin();
    call(&mut memory);
    heap(&mut memory, 2).unwrap();
    return_from(&mut memory);
    heap(&mut memory, 3).unwrap();

    call(&mut memory);
    memory.store_u8(page(0), 1).unwrap();
    memory.store_u8(page(1), 2).unwrap();
    assert_eq!(memory.store_u8(page(2), 3), Err(Refusal::NotPermitted));
    for pages in [2, 1, 0] {
        assert_eq!(heap(&mut memory, pages), Err(Refusal::NotPermitted));
    }
    // One call deeper none of them may be stored to.
    call(&mut memory);
    for number in 0..3 {
        assert_eq!(memory.store_u8(page(number), 3), Err(Refusal::NotPermitted));
        assert!(memory.load_u8(page(number)).is_ok());
    }
    return_from(&mut memory);
    return_from(&mut memory);
    heap(&mut memory, 0).unwrap();
    assert_eq!(entries(&memory), [stack_entry(0, 4_095), FREE, FREE, FREE, FREE]);
}

#[test]
fn a_callee_frees_what_an_earlier_one_left() {
    let mut host = Host::new(4);
    let mut memory = host.begin();
    heap(&mut memory, 1).unwrap();
    call(&mut memory);
    heap(&mut memory, 3).unwrap();
    return_from(&mut memory);
    assert_eq!(sizes(&memory, 1), [3]);

    call(&mut memory);
    assert_eq!(heap(&mut memory, 0), Err(Refusal::NotPermitted));
    heap(&mut memory, 1).unwrap();
    assert_eq!(sizes(&memory, 2), [3, 1]);
    return_from(&mut memory);
    assert_eq!(sizes(&memory, 2), [1, 0]);
    assert_eq!(entries(&memory), [stack_entry(0, 4_095), heap_entry(0, 0), FREE, FREE]);
}

/// Each record has the size of the time when its invocation was the current one.
#[test]
fn sizes_are_handed_on_return_by_return() {
    let mut host = Host::new(5);
    let mut memory = host.begin();
    for pages in 1..=4 {
        heap(&mut memory, pages).unwrap();
        if pages < 4 {
            call(&mut memory);
        }
    }
    for expected in [[1, 2, 3, 4], [1, 2, 4, 0], [1, 4, 0, 0], [4, 0, 0, 0]] {
        assert_eq!(sizes(&memory, 4), expected);
        if expected[0] == 1 {
            return_from(&mut memory);
        }
    }
    let tags = (0..4).map(|depth| heap_entry(depth, depth.into()));
    assert_eq!(entries(&memory)[1..], tags.collect::<Vec<FrameEntry>>());
    assert_eq!(memory.return_from(&mut [0; 256]), Err(Refusal::CallDepth));
}
