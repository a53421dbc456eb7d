//! Which frames copies, stack and heap take, given to the library and to the model: numbers and bytes are worked out by hand from the papers,
//! so that the two cannot agree on wrong ones.

use hekthumar::sys::Place;

use crate::bytes::*;
use crate::interface::{Answer, Bytes, Call, World};
use crate::record::{Record, Shape};
use crate::trials::{begun_with, expect, expect_answer, expect_buffers, original};

/// The only account that exists, and the program; it owns its data and may write them.
const PROGRAM: u16 = 5;
const DATA: u64 = 0x0300_0500_0000;
/// Document 01's 6,000 bytes, which are two pages, and five pages.
const TWO_PAGES: usize = 6000;
const FIVE_PAGES: usize = 20_000;

const FREE_ENTRY: [u8; 8] = [0; 8];

/// Of a copy that was taken at depth 0.
fn copy_entry(page: u8) -> [u8; 8] {
    [1, 0, 5, 0, page, 0, 0, 0]
}

fn stack_entry(tag: u8, page: u16) -> [u8; 8] {
    [2, tag, 0, 0, page as u8, (page >> 8) as u8, 0, 0]
}

fn heap_entry(tag: u8, page: u8) -> [u8; 8] {
    [3, tag, 0, 0, page, 0, 0, 0]
}

fn store(page: u64) -> Call {
    Call::Store { address: DATA + 4096 * page + 4, size: 1, value: 0x11 }
}

fn resize(region: u8, pages: usize) -> Call {
    Call::Resize { region, pages }
}

fn translate(kind: u8, page: u64) -> Call {
    Call::Translate { kind, address: DATA + 4096 * page + 4, length: 1 }
}

/// Every call that takes a copy of a page.
fn stores(page: u64) -> [Call; 3] {
    let address = DATA + 4096 * page + 4;
    let record = Record::zeros(Shape::Buffer);
    [store(page), Call::StoreSpan { address, bytes: Bytes(vec![1; 9]) }, Call::WriteRecord { address, record }]
}

/// The place that a translation names for a copy of a page, with the bytes from offset 4 on.
fn take(frame: u16, page: u16) -> Answer {
    Answer::Place(Place { at: 4096 * u64::from(frame) + 4, frame, account: PROGRAM, page, place: 5, number: 0 })
}

fn table(world: &World) -> Vec<[u8; 8]> {
    world.control[TABLE_AT..].chunks_exact(8).map(|entry| entry.try_into().expect("eight bytes")).collect()
}

/// A begun world whose frames have these entries.
fn with_table(length: usize, entries: &[[u8; 8]]) -> World {
    let mut world = begun_with(0, length);
    put_u32(&mut world.control, 0, entries.len() as u32);
    world.control.truncate(TABLE_AT);
    world.control.extend(entries.concat());
    world.pool = vec![0xAA; 4096 * entries.len()];
    world
}

fn list(world: &mut World, pages: usize) -> Vec<u8> {
    let call = expect(world, Call::ChangeList { out: Bytes(vec![0xEE; 16 + 4108 * pages]) }, 0);
    let Call::ChangeList { out } = call else { unreachable!("the call keeps its kind") };
    out.0
}

/// 01's two bookings in four frames: page 1 in frame 3. Page 0 then takes frame 2, and frame 0 is the stack's.
#[test]
fn the_case_of_01() {
    let mut world = begun_with(0, TWO_PAGES);
    expect(&mut world, Call::Begin { program: PROGRAM, edition: NEWER }, 0);
    let begun = world.clone();
    expect_answer(&mut world, translate(1, 1), take(3, 1));
    expect(&mut world, store(1), 0);
    expect(&mut world, Call::Store { address: DATA + 0x1008, size: 1, value: 0x22 }, 0);
    assert_eq!(table(&world), [stack_entry(0, 4095), FREE_ENTRY, FREE_ENTRY, copy_entry(1)]);
    // 1,904 original bytes with those two changed, then zeros; the other frames keep theirs.
    let mut page: Vec<u8> = (4096..6000).map(original).chain([0; 2192]).collect();
    (page[4], page[8]) = (0x11, 0x22);
    assert!(world.pool == [&begun.pool[..3 * 4096], &page].concat());
    let words = [1, 16, 28, 4124].into_iter().flat_map(u32::to_le_bytes);
    assert!(list(&mut world, 1) == words.chain([5, 0, 1, 0, 0x70, 7, 0, 0, 0, 0, 0, 0]).chain(page).collect::<Vec<u8>>());
    expect(&mut world, store(0), 0);
    assert_eq!(table(&world), [stack_entry(0, 4095), FREE_ENTRY, copy_entry(0), copy_entry(1)]);
}

/// Pages 2, 0, 4 and 1 stored to in this order, each by the same of the calls.
fn full_of_copies(by: usize) -> World {
    let mut world = begun_with(0, FIVE_PAGES);
    for (page, frame) in [(2, 3), (0, 2), (4, 1), (1, 0)] {
        [1, 4].into_iter().for_each(|kind| expect_answer(&mut world, translate(kind, page), take(frame, page as u16)));
        expect(&mut world, stores(page)[by].clone(), 0);
    }
    world
}

/// "Translation's named frame and the store follow": from the last frame down to frame 0, then 8.
#[test]
fn down_to_frame_0() {
    for mut world in [0, 1, 2].map(full_of_copies) {
        assert_eq!(table(&world), [copy_entry(1), copy_entry(4), copy_entry(0), copy_entry(2)]);
        let refused = stores(3).into_iter().chain([1, 4].map(|kind| translate(kind, 3)));
        refused.for_each(|call| drop(expect_buffers(&world, call, 8, &world)));
        // A page with a copy needs no frame.
        stores(4).into_iter().for_each(|call| drop(expect(&mut world, call, 0)));
    }
}

/// Uses of the frames; the frame of a copy, and those of two pages of a region. None is 8.
#[test]
fn among_used_frames() {
    type Frames = (&'static [u8], Option<u16>, Option<[usize; 2]>);
    let cases: [Frames; 13] = [
        (&[], None, None),
        (&[0], Some(0), None),
        (&[1], None, None),
        (&[0, 0], Some(1), Some([0, 1])),
        (&[0, 1], Some(0), None),
        (&[1, 0], Some(1), None),
        (&[0, 0, 0], Some(2), Some([0, 1])),
        (&[0, 0, 2, 3], Some(1), Some([0, 1])),
        (&[0, 2, 0, 3, 0, 1], Some(4), Some([0, 2])),
        (&[2, 0, 1, 1, 0, 1], Some(4), Some([1, 4])),
        (&[0, 4, 3, 255, 9, 1], Some(0), None),
        (&[0, 4, 3, 0, 9, 255], Some(3), Some([0, 3])),
        (&[4, 255, 9], None, None),
    ];
    for (uses, copy, grown) in cases {
        // Pages that no call here asks for.
        let entries: Vec<[u8; 8]> = uses.iter().map(|usage| [*usage, 0, 9, 9, 9, 9, 9, 9]).collect();
        let world = with_table(FIVE_PAGES, &entries);
        takes_copy(&world, copy);
        takes_pages(&world, grown);
    }
}

fn takes_copy(world: &World, frame: Option<u16>) {
    let Some(frame) = frame else {
        stores(3).into_iter().for_each(|call| drop(expect_buffers(world, call, 8, world)));
        return;
    };
    expect_answer(&mut world.clone(), translate(1, 3), take(frame, 3));
    for call in stores(3) {
        let mut after = world.clone();
        expect(&mut after, call, 0);
        let mut expected = table(world);
        expected[usize::from(frame)] = copy_entry(3);
        assert_eq!(table(&after), expected);
    }
}

fn takes_pages(world: &World, frames: Option<[usize; 2]>) {
    for region in [STACK, HEAP] {
        let Some([first, second]) = frames else {
            expect_buffers(world, resize(region, 2), 8, world);
            continue;
        };
        let mut after = world.clone();
        expect(&mut after, resize(region, 2), 0);
        let mut expected = table(world);
        let pages = if region == STACK { [stack_entry(0, 4095), stack_entry(0, 4094)] } else { [heap_entry(0, 0), heap_entry(0, 1)] };
        (expected[first], expected[second]) = (pages[0], pages[1]);
        assert_eq!(table(&after), expected);
    }
}

/// Copies come down while stack and heap go up, until they meet; what leaves is taken from whichever end is asked for.
#[test]
fn from_both_ends() {
    let mut world = with_table(FIVE_PAGES, &[FREE_ENTRY; 6]);
    for call in [resize(STACK, 1), store(0), resize(HEAP, 1), store(1), resize(STACK, 2), resize(HEAP, 2)] {
        expect(&mut world, call, 0);
    }
    let full = [stack_entry(0, 4095), heap_entry(0, 0), stack_entry(0, 4094), heap_entry(0, 1), copy_entry(1), copy_entry(0)];
    assert_eq!(table(&world), full);
    for call in [store(2), resize(STACK, 3), resize(HEAP, 3)] {
        expect_buffers(&world, call, 8, &world);
    }
    // Frames 1, 2 and 3 become free: the heap's page takes 1, the copy 3.
    expect(&mut world, resize(STACK, 1), 0);
    expect(&mut world, resize(HEAP, 0), 0);
    expect(&mut world, resize(HEAP, 1), 0);
    expect(&mut world, store(2), 0);
    assert_eq!(table(&world), [full[0], heap_entry(0, 0), FREE_ENTRY, copy_entry(2), full[4], full[5]]);
    // Frames 1 and 2 are free: the stack's page takes 1, the copy 2.
    expect(&mut world, resize(HEAP, 0), 0);
    expect(&mut world, resize(STACK, 2), 0);
    expect(&mut world, store(3), 0);
    assert_eq!(table(&world), [full[0], stack_entry(0, 4094), copy_entry(3), copy_entry(2), full[4], full[5]]);
}

/// A return frees stack frames; the next copy takes the highest of them, above a copy that was taken before.
#[test]
fn above_an_older_copy() {
    let mut world = with_table(FIVE_PAGES, &[FREE_ENTRY; 4]);
    expect(&mut world, resize(STACK, 1), 0);
    expect(&mut world, Call::Invoke { program: PROGRAM, registers: Bytes(vec![7; REGISTERS]) }, 0);
    expect(&mut world, resize(HEAP, 1), 0);
    expect(&mut world, resize(STACK, 3), 0);
    assert_eq!(table(&world), [stack_entry(0, 4095), heap_entry(1, 0), stack_entry(1, 4094), stack_entry(1, 4093)]);
    expect(&mut world, resize(HEAP, 0), 0);
    expect(&mut world, store(4), 0);
    expect(&mut world, Call::Return { registers: Bytes(vec![0; REGISTERS]) }, 0);
    // Taken at depth 1.
    let older = [1, 0, 5, 0, 4, 0, 1, 0];
    assert_eq!(table(&world), [stack_entry(0, 4095), older, FREE_ENTRY, FREE_ENTRY]);
    expect(&mut world, store(0), 0);
    assert_eq!(table(&world), [stack_entry(0, 4095), older, FREE_ENTRY, copy_entry(0)]);
}

/// "The frame of a page is the lowest-numbered entry that claims it": taking from the top does not turn that round.
#[test]
fn the_frame_of_a_page_is_the_lowest() {
    let mut world = with_table(FIVE_PAGES, &[FREE_ENTRY, copy_entry(3), copy_entry(3), FREE_ENTRY]);
    let place = Place { at: 4096 + 4, frame: 0, account: 0, page: 0, place: 4, number: 0 };
    [0, 1, 3, 4].into_iter().for_each(|kind| expect_answer(&mut world, translate(kind, 3), Answer::Place(place)));
    let mut after = world.clone();
    after.pool[4096 + 4] = 0x11;
    expect_buffers(&world, store(3), 0, &after);
}

/// "Which pages are listed, and their bytes, don't change": the list is the same in whatever order, and so frames, the pages were taken.
#[test]
fn the_list_does_not_follow_the_frames() {
    let listed = |pages: [u64; 3]| {
        let mut world = begun_with(0, FIVE_PAGES);
        pages.into_iter().for_each(|page| drop(expect(&mut world, store(page), 0)));
        list(&mut world, 3)
    };
    let mut expected: Vec<u8> = [3, 16, 52, 12_340].into_iter().flat_map(u32::to_le_bytes).collect();
    for (page, live) in [(0, [0, 0x10]), (2, [0, 0x10]), (4, [0x20, 0x0E])] {
        expected.extend([5, 0, page, 0, live[0], live[1], 0, 0, 0, 0, 0, 0]);
    }
    for page in [0, 2, 4] {
        let live = (0..4096).map(|place| 4096 * page + place).map(|place| if place < FIVE_PAGES { original(place) } else { 0 });
        expected.extend(live.enumerate().map(|(place, byte)| if place == 4 { 0x11 } else { byte }));
    }
    for pages in [[0, 2, 4], [0, 4, 2], [2, 0, 4], [2, 4, 0], [4, 0, 2], [4, 2, 0]] {
        assert!(listed(pages) == expected, "{pages:?}");
    }
}

/// Two frames are free, or one, and the others are nobody's.
fn takes_from_both_ends(frames: usize, low: usize, high: usize) {
    let mut entries = vec![[9; 8]; frames];
    (entries[low], entries[high]) = (FREE_ENTRY, FREE_ENTRY);
    let mut world = with_table(TWO_PAGES, &entries);
    expect_answer(&mut world, translate(1, 0), take(high as u16, 0));
    expect(&mut world, resize(HEAP, 1), 0);
    assert_eq!(table(&world)[low], heap_entry(0, 0));
}

/// Tables of lengths at which a search in groups may split them.
#[test]
fn each_place_of_a_table() {
    for frames in [1, 2, 15, 16, 17, 31, 32, 33, 48, 49] {
        let pairs = (0..frames).flat_map(|low| (low..frames).map(move |high| (low, high)));
        pairs.for_each(|(low, high)| takes_from_both_ends(frames, low, high));
    }
}

#[test]
fn some_places_of_the_longest_table() {
    for frame in [0, 15, 16, 511, 512, 1007, 1008, 1022, 1023] {
        takes_from_both_ends(1024, frame, frame);
        takes_from_both_ends(1024, 0, frame);
        takes_from_both_ends(1024, frame, 1023);
    }
}

/// The most frames that there may be.
#[test]
fn of_1024_frames() {
    let mut world = with_table(FIVE_PAGES, &[FREE_ENTRY; 1024]);
    for (page, frame) in [(0, 1023), (1, 1022), (2, 1021)] {
        expect_answer(&mut world, translate(1, page), take(frame, page as u16));
        expect(&mut world, store(page), 0);
    }
    expect(&mut world, resize(STACK, 1020), 0);
    expect(&mut world, resize(HEAP, 1), 0);
    let last = [stack_entry(0, 4095 - 1019), heap_entry(0, 0), copy_entry(2), copy_entry(1), copy_entry(0)];
    assert_eq!(table(&world)[1019..], last);
    expect(&mut world, store(3), 8);
    expect(&mut world, resize(STACK, 0), 0);
    expect_answer(&mut world, translate(1, 3), take(1019, 3));
}
