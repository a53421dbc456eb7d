//! Both begins: the bytes that they write, those that they leave, and the order of their refusals.

mod common;

use common::Host;
use hekthumar::layout::{ACCOUNT_ENTRY, CONTROL_HEADER, FRAME_TABLE, SHADOW_RECORD, SNAPSHOT_HEADER};
use hekthumar::*;

const PROGRAM: u16 = 0;
const ABSENT: u16 = 1;
const SPOILED: u16 = 2;
const SLOTS: u16 = 3;
const NOBODY: u16 = 4;

const FRAMES: [usize; 6] = [1, 2, 16, 17, 1_023, 1_024];

impl Host {
    /// Control block and pool start without a zero, so that every byte written shows.
    fn new(frames: usize) -> Host {
        let mut builder = SnapshotBuilder::new();
        builder.account(Account::program([0x13, 0, 0, 0]));
        builder.account(Account::absent());
        builder.account(Account::program([0x13, 0, 0, 0]));
        builder.account(Account::data(PROGRAM, [7; 8]).writable());
        let mut host = Host::filled(builder, frames, 0xCC);
        host.snapshot[SNAPSHOT_HEADER + ACCOUNT_ENTRY * usize::from(SPOILED)] = 7;
        host
    }

    fn begin(&mut self, program: u16) -> Result<(), Refusal> {
        self.unless_refused(|memory| memory.begin(program, Edition::Newer))
    }

    fn begin_with_pages(&mut self, program: u16, pages: usize) -> Result<(), Refusal> {
        self.unless_refused(|memory| memory.begin_with_pages(program, Edition::Newer, pages))
    }
}

/// The control block of a program just begun: header, record 1, and the entry of frame 0 where it is the stack's.
fn begun(frames: usize, program: u16, pages: u16) -> Vec<u8> {
    let mut control: Vec<u8> = [frames as u32, 1, 24, 4_512, 2, 0].into_iter().flat_map(u32::to_le_bytes).collect();
    control.resize(control_len(frames), 0);
    let record = CONTROL_HEADER + SHADOW_RECORD;
    control[record..][..2].copy_from_slice(&program.to_le_bytes());
    control[record + 2..][..2].copy_from_slice(&pages.to_le_bytes());
    if pages == 1 {
        control[FRAME_TABLE..][..8].copy_from_slice(&[2, 0, 0, 0, 0xFF, 0x0F, 0, 0]);
    }
    control
}

#[test]
fn begin_takes_frame_0_for_the_stack() {
    for frames in FRAMES {
        let (mut host, mut other) = (Host::new(frames), Host::new(frames));
        assert_eq!(host.begin(SLOTS), Ok(()));
        assert_eq!(other.begin_with_pages(SLOTS, 1), Ok(()));
        assert!(host == other, "{frames} frames");
        assert!(host.control == begun(frames, SLOTS, 1), "{frames} frames");
        assert!(host.pool == [vec![0; PAGE], vec![0xCC; pool_len(frames - 1)]].concat(), "{frames} frames");
    }
}

#[test]
fn without_a_page_the_pool_stays() {
    for frames in FRAMES.into_iter().chain([0]) {
        let mut host = Host::new(frames);
        assert_eq!(host.begin_with_pages(SLOTS, 0), Ok(()));
        assert!(host.control == begun(frames, SLOTS, 0), "{frames} frames");
        assert!(host.pool == vec![0xCC; pool_len(frames)], "{frames} frames");
    }
}

#[test]
fn a_begin_forgets_what_was_before_it() {
    let mut host = Host::new(3);
    host.begin_with_pages(PROGRAM, 0).unwrap();
    let mut memory = host.memory();
    memory.store_u8(Address::data(SLOTS, 0).unwrap(), 1).unwrap();
    memory.resize(Region::Heap, 2).unwrap();
    memory.call(SLOTS, &[5; 256]).unwrap();
    let pool = host.pool.clone();

    host.begin(PROGRAM).unwrap();
    assert_eq!(host.control, begun(3, PROGRAM, 1));
    assert!(host.pool == [&[0; PAGE], &pool[PAGE..]].concat());
}

#[test]
fn the_stack_is_there_right_after_begin() {
    let mut host = Host::new(2);
    host.begin(PROGRAM).unwrap();
    let mut memory = host.memory();
    let stack = |offset| Address::stack(offset).unwrap();
    let mut page = vec![0xEE; PAGE];
    memory.load_span(stack(0xFF_F000), &mut page).unwrap();
    assert!(page == [0; PAGE]);
    assert_eq!(memory.load_u8(stack(0xFF_EFFF)), Err(Refusal::Absent { distance: 0 }));
    memory.store_u64(stack(0xFF_FFF8), 42).unwrap();

    // A callee loads from the page and may neither store to it nor free it; what it adds is below.
    memory.call(SLOTS, &[0; 256]).unwrap();
    assert_eq!(memory.load_u64(stack(0xFF_FFF8)), Ok(42));
    assert_eq!(memory.store_u64(stack(0xFF_FFF8), 1), Err(Refusal::NotPermitted));
    assert_eq!(memory.resize(Region::Stack, 0), Err(Refusal::NotPermitted));
    memory.resize(Region::Stack, 2).unwrap();
    assert_eq!(memory.translate(Kind::Store, stack(0xFF_E000), 1), Ok(Place::Pool { at: PAGE }));
    memory.return_from(&mut [0; 256]).unwrap();

    memory.resize(Region::Stack, 0).unwrap();
    assert_eq!(host.control, begun(2, PROGRAM, 0));
}

/// Of each refusal everything that comes later in the order holds too, as far as it can.
#[test]
fn the_first_refusal_in_the_order_is_told() {
    let no_frame = Host::new(0);
    let longer = |buffer: fn(&mut Host) -> &mut Vec<u8>| {
        let mut host = no_frame.clone();
        buffer(&mut host).push(0);
        host
    };
    for mut host in [longer(|host| &mut host.snapshot), longer(|host| &mut host.control), longer(|host| &mut host.pool)] {
        for (program, pages) in [(PROGRAM, 0), (PROGRAM, 1), (PROGRAM, 2), (NOBODY, 2)] {
            assert_eq!(host.begin_with_pages(program, pages), Err(Refusal::Invalid));
        }
        assert_eq!([PROGRAM, NOBODY].map(|program| host.begin(program)), [Err(Refusal::Invalid); 2]);
    }
    let programs = [
        (NOBODY, Refusal::NoSegment),
        (u16::MAX, Refusal::NoSegment),
        (SPOILED, Refusal::Invalid),
        (ABSENT, Refusal::NoSegment),
        (PROGRAM, Refusal::OutOfFrames),
    ];
    let mut host = no_frame.clone();
    for (program, refusal) in programs {
        for pages in [2, 3, 4_096, 1 << 32, usize::MAX] {
            assert_eq!(host.begin_with_pages(program, pages), Err(Refusal::BadRequest), "{program} {pages}");
        }
        assert_eq!(host.begin_with_pages(program, 1), Err(refusal), "{program}");
        assert_eq!(host.begin(program), Err(refusal), "{program}");
    }
}

/// With 0 pages, and with a frame, nothing is refused but the buffers, the number of pages and the program.
#[test]
fn the_number_8_is_only_for_a_page_without_a_frame() {
    for (frames, pages) in [(0, 0), (1, 0), (1, 1), (1_024, 1)] {
        let begin = |program| Host::new(frames).begin_with_pages(program, pages);
        assert_eq!(begin(NOBODY), Err(Refusal::NoSegment));
        assert_eq!(begin(SPOILED), Err(Refusal::Invalid));
        assert_eq!(begin(ABSENT), Err(Refusal::NoSegment));
        assert_eq!(begin(PROGRAM), Ok(()));
        assert_eq!(Host::new(frames).begin_with_pages(PROGRAM, 2), Err(Refusal::BadRequest));
    }
}
