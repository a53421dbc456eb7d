//! Which frames are taken, seen from a host: copies from the pool's end down, stack and heap from its start up.

mod common;

use common::Host;
use hekthumar::inspect::{frame_entries, FrameEntry};
use hekthumar::*;

const PROGRAM: u16 = 0;
const SLOTS: u16 = 1;

impl Host {
    /// Five pages of the program's.
    fn new(frames: usize) -> Host {
        let mut builder = SnapshotBuilder::new();
        builder.account(Account::program([0x13, 0, 0, 0]));
        builder.account(Account::data(PROGRAM, vec![7; 20_000]).writable());
        Host::filled(builder, frames, 0xCC)
    }
}

/// A byte of a page of the slots.
fn slot(page: u32) -> Address {
    Address::data(SLOTS, 4_096 * page + 5).unwrap()
}

/// The use of each frame, and the page that it holds.
fn frames(memory: &Memory) -> Vec<(u8, u16)> {
    frame_entries(memory.buffers().1).map(|FrameEntry { usage, page, .. }| (usage, page)).collect()
}

const FREE: (u8, u16) = (0, 0);

#[test]
fn copies_and_regions_keep_apart() {
    let mut host = Host::new(6);
    let mut memory = host.memory();
    memory.begin(PROGRAM, Edition::Newer).unwrap();
    memory.store_u8(slot(3), 1).unwrap();
    memory.resize(Region::Heap, 1).unwrap();
    memory.store_span(slot(0), &[1, 2]).unwrap();
    assert_eq!(frames(&memory), [(2, 4_095), (3, 0), FREE, FREE, (1, 0), (1, 3)]);
    memory.write_buffer(slot(1), Buffer { pointer: slot(0), length: 2 }).unwrap();
    memory.resize(Region::Stack, 2).unwrap();
    assert_eq!(frames(&memory), [(2, 4_095), (3, 0), (2, 4_094), (1, 1), (1, 0), (1, 3)]);
    assert_eq!(memory.store_u8(slot(2), 1), Err(Refusal::OutOfFrames));
    assert_eq!(memory.resize(Region::Heap, 2), Err(Refusal::OutOfFrames));
}

#[test]
fn a_translation_names_the_frame_that_the_store_takes() {
    let mut host = Host::new(4);
    let mut memory = host.memory();
    memory.begin_with_pages(PROGRAM, Edition::Newer, 0).unwrap();
    for (page, frame) in [(4, 3), (0, 2), (2, 1), (1, 0)] {
        let at = PAGE * usize::from(frame) + 5;
        let take = Place::Take { at, frame, account: SLOTS, page };
        for kind in [Kind::Store, Kind::StoreSpan] {
            assert_eq!(memory.translate(kind, slot(page.into()), 1), Ok(take));
        }
        memory.store_u8(slot(page.into()), 1).unwrap();
        assert_eq!(memory.translate(Kind::Load, slot(page.into()), 1), Ok(Place::Pool { at }));
    }
    assert_eq!(memory.translate(Kind::Store, slot(3), 1), Err(Refusal::OutOfFrames));
}

/// A list is in the order of its pages, whichever frames they are in.
#[test]
fn the_list_is_the_same_in_any_order() {
    let listed = |pages: [u32; 3]| {
        let mut host = Host::new(4);
        let mut memory = host.memory();
        memory.begin(PROGRAM, Edition::Newer).unwrap();
        pages.into_iter().for_each(|page| memory.store_u8(slot(page), page as u8).unwrap());
        let mut out = vec![0; change_list_len(3)];
        memory.change_list(&mut out).unwrap();
        out
    };
    assert!(listed([0, 3, 4]) == listed([4, 0, 3]) && listed([0, 3, 4]) == listed([3, 4, 0]));
}
