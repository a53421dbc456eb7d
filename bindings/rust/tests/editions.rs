//! Programs of both editions over the same accounts, seen from a host: where a program executes from, and that all else is the same.

mod common;

use common::Host;
use hekthumar::inspect::ControlHeader;
use hekthumar::layout::{ACCOUNT_ENTRY, SNAPSHOT_HEADER};
use hekthumar::*;

/// May store to its own data.
const PROGRAM: u16 = 0;
/// May store to nothing.
const HELPER: u16 = 1;
const ABSENT: u16 = 2;
const NOBODY: u16 = 3;

const CODE: [u8; 12] = [0x13, 1, 2, 3, 0x93, 4, 5, 6, 0x33, 7, 8, 9];
const FIRST: u64 = 0x0302_0113;
const SECOND: u64 = 0x0605_0493;

const KINDS: [Kind; 5] = [Kind::Load, Kind::Store, Kind::Fetch, Kind::LoadSpan, Kind::StoreSpan];

fn host(frames: usize) -> Host {
    let mut builder = SnapshotBuilder::new();
    builder.transaction([1; 16]);
    builder.block_context(&[2; 120]);
    builder.account(Account::data(PROGRAM, CODE).writable());
    builder.account(Account::program(CODE));
    builder.account(Account::absent());
    Host::filled(builder, frames, 0xCC)
}

fn begun(host: &mut Host, program: u16, edition: Edition) -> Memory<'_> {
    let mut memory = host.memory();
    memory.begin(program, edition).unwrap();
    memory
}

fn code(program: u16, offset: u32) -> Address {
    Address::data(program, offset).unwrap()
}

fn segment(offset: u32) -> Address {
    Address::program(offset).unwrap()
}

fn edition_of(memory: &Memory) -> Option<Edition> {
    Edition::from_number(ControlHeader::read(memory.buffers().1)?.edition)
}

#[test]
fn a_program_of_the_older_edition_executes_from_its_account() {
    for program in [PROGRAM, HELPER] {
        let mut host = host(2);
        let memory = begun(&mut host, program, Edition::Older);
        let at = Address(0x0300_0000_0000 | u64::from(program) << 24);
        assert_eq!((at, memory.fetch(at, 4)), (code(program, 0), Ok(FIRST)));
        assert_eq!(memory.fetch(code(program, 4), 4), Ok(SECOND));
        assert_eq!(memory.fetch(code(program, 2), 4), Err(Refusal::Misaligned));
        assert_eq!(memory.fetch(code(program, 8), 8), Err(Refusal::Absent { distance: 4 }));
        assert_eq!(memory.fetch(code(program, 0), 3), Err(Refusal::BadRequest));
        assert_eq!(memory.translate(Kind::Fetch, at, 4), memory.translate(Kind::Load, at, 4));
    }
}

#[test]
fn it_executes_what_it_has_stored() {
    let mut host = host(3);
    let mut memory = begun(&mut host, PROGRAM, Edition::Older);
    memory.store_u8(code(PROGRAM, 4), 0x6F).unwrap();
    assert_eq!(memory.fetch(code(PROGRAM, 4), 4), Ok(0x0605_046F));
    assert_eq!(memory.fetch(code(PROGRAM, 0), 4), Ok(FIRST));
    assert_eq!(memory.translate(Kind::Fetch, code(PROGRAM, 4), 4), Ok(Place::Pool { at: 2 * PAGE + 4 }));
}

#[test]
fn the_older_edition_executes_from_nowhere_else() {
    let mut host = host(3);
    let mut memory = begun(&mut host, PROGRAM, Edition::Older);
    memory.resize(Region::Heap, 1).unwrap();
    let addresses = [
        Address::data(HELPER, 0),
        Address::data(ABSENT, 0),
        Address::metadata(PROGRAM, 0),
        Address::transaction(0),
        Address::shadow(0),
        Address::block_context(0, 0),
        Address::stack(0xFF_F000),
        Address::heap(0),
    ];
    for address in addresses.map(Result::unwrap) {
        assert_eq!(memory.fetch(address, 4), Err(Refusal::NotPermitted), "{address}");
        assert_eq!(memory.translate(Kind::Fetch, address, 4), Err(Refusal::NotPermitted), "{address}");
        assert_eq!(memory.fetch(address.offset_by(2).unwrap(), 4), Err(Refusal::Misaligned), "{address}");
    }
    assert_eq!(memory.fetch(code(NOBODY, 0), 4), Err(Refusal::NoSegment));
}

/// Whatever the offset, and whatever the entry of the program's account.
#[test]
fn the_older_edition_has_no_program_segment() {
    let mut host = host(2);
    begun(&mut host, PROGRAM, Edition::Older);
    let mut spoiled = host.clone();
    spoiled.snapshot[SNAPSHOT_HEADER + ACCOUNT_ENTRY * usize::from(PROGRAM)] = 7;
    for host in [&mut host, &mut spoiled] {
        for address in [0, 2, 8, 4_092, 0xFF_FFFF].map(segment) {
            let told = KINDS.map(|kind| host.memory().translate(kind, address, 8));
            assert_eq!(told, [Err(Refusal::NoSegment); 5], "{address}");
            assert_eq!(host.memory().load(address, 8), Err(Refusal::NoSegment));
            assert_eq!(host.memory().fetch(address, 8), Err(Refusal::NoSegment));
            assert_eq!(host.memory().load_span(address, &mut [0; 8]), Err(Refusal::NoSegment));
            assert_eq!(host.memory().read_buffer(address), Err(Refusal::NoSegment));
            assert_eq!(host.unless_refused(|memory| memory.store(address, 8, 1)), Err(Refusal::NoSegment));
            assert_eq!(host.unless_refused(|memory| memory.store_span(address, &[1; 8])), Err(Refusal::NoSegment));
        }
    }
}

#[test]
fn a_program_of_the_newer_edition_executes_from_its_segment() {
    let mut host = host(2);
    let mut memory = begun(&mut host, PROGRAM, Edition::Newer);
    assert_eq!(memory.fetch(segment(4), 4), Ok(SECOND));
    assert_eq!(memory.fetch(code(PROGRAM, 4), 4), Err(Refusal::NotPermitted));
    assert_eq!(memory.fetch(code(HELPER, 4), 4), Err(Refusal::NotPermitted));
    // What it stores to its account does not show there.
    memory.store_u8(code(PROGRAM, 4), 0x6F).unwrap();
    assert_eq!(memory.fetch(segment(4), 4), Ok(SECOND));
    assert_eq!(memory.load_u32(segment(4)), Ok(SECOND as u32));
    assert_eq!(memory.load_u32(code(PROGRAM, 4)), Ok(0x0605_046F));
    assert_eq!(memory.store_u8(segment(4), 1), Err(Refusal::NotPermitted));
}

#[test]
fn call_and_return_keep_the_edition() {
    let mut host = host(2);
    let mut memory = begun(&mut host, PROGRAM, Edition::Older);
    let executes = |memory: &Memory, program, other| {
        assert_eq!(edition_of(memory), Some(Edition::Older));
        assert_eq!(memory.fetch(code(program, 0), 4), Ok(FIRST));
        assert_eq!(memory.fetch(code(other, 0), 4), Err(Refusal::NotPermitted));
        assert_eq!(memory.fetch(segment(0), 4), Err(Refusal::NoSegment));
    };
    executes(&memory, PROGRAM, HELPER);
    memory.call(HELPER, &[0; 256]).unwrap();
    executes(&memory, HELPER, PROGRAM);
    memory.return_from(&mut [0; 256]).unwrap();
    executes(&memory, PROGRAM, HELPER);

    memory.begin(PROGRAM, Edition::Newer).unwrap();
    memory.call(HELPER, &[0; 256]).unwrap();
    memory.return_from(&mut [0; 256]).unwrap();
    assert_eq!((edition_of(&memory), memory.fetch(segment(0), 4)), (Some(Edition::Newer), Ok(FIRST)));
}

/// The same session in both editions: the control blocks differ in the edition alone, the pools and the change lists in nothing.
#[test]
fn all_else_is_the_same() {
    let run = |edition| {
        let mut host = host(4);
        let mut memory = begun(&mut host, PROGRAM, edition);
        memory.store_u8(code(PROGRAM, 4), 0x6F).unwrap();
        memory.call(HELPER, &[7; 256]).unwrap();
        memory.resize(Region::Heap, 1).unwrap();
        memory.store_u64(Address::heap(8).unwrap(), 42).unwrap();
        assert_eq!(memory.store_u8(code(PROGRAM, 4), 1), Err(Refusal::NotPermitted));
        memory.return_from(&mut [0; 256]).unwrap();
        let mut out = vec![0; change_list_len(4)];
        let list = memory.change_list(&mut out).unwrap().as_bytes().to_vec();
        (host, list)
    };
    let ((older, older_list), (newer, newer_list)) = (run(Edition::Older), run(Edition::Newer));
    let differing: Vec<usize> = (0..older.control.len()).filter(|&at| older.control[at] != newer.control[at]).collect();
    assert_eq!(differing, [16]);
    assert!(older.pool == newer.pool && older_list == newer_list);
}

/// A begin of this edition by the C interface, which takes any number; and its other form.
fn begin_by_number(host: &mut Host, program: u16, edition: u32, pages: usize) -> [u8; 2] {
    let before = host.clone();
    let Host { snapshot, control, pool } = host;
    let (s, c, p) = (snapshot.as_ptr(), control.as_mut_ptr(), pool.as_mut_ptr());
    let (sl, cl, pl) = (snapshot.len(), control.len(), pool.len());
    // SAFETY: each pointer and length is a vector of its own.
    let numbers = unsafe {
        [
            sys::hekthumar_begin(s, sl, c, cl, p, pl, program, edition),
            sys::hekthumar_begin_pages(s, sl, c, cl, p, pl, program, edition, pages),
        ]
    };
    assert!(numbers.contains(&0) || *host == before, "{numbers:?}");
    numbers
}

#[test]
fn any_other_edition_is_refused() {
    for edition in [0, 3, 0x101, 0x102, 0x1_0001, 0x8000_0002, u32::MAX] {
        // Before the program and the frame are asked, and after the buffers.
        for (frames, program) in [(1, PROGRAM), (0, PROGRAM), (1, NOBODY), (1, ABSENT)] {
            for pages in [0, 1, 2] {
                assert_eq!(begin_by_number(&mut host(frames), program, edition, pages), [2; 2], "{edition:#x}");
            }
        }
        let mut longer = host(1);
        longer.pool.push(0);
        assert_eq!(begin_by_number(&mut longer, NOBODY, edition, 2), [1; 2]);
    }
    for edition in [Edition::Older, Edition::Newer] {
        assert_eq!(begin_by_number(&mut host(1), PROGRAM, edition as u32, 0), [0; 2]);
    }
}

#[test]
fn a_control_block_with_another_edition_is_not_valid() {
    for edition in [Edition::Older, Edition::Newer] {
        for (at, byte) in [(16, 0), (16, 3), (17, 1), (19, 0x80), (20, 1), (23, 0x80)] {
            let mut host = host(1);
            begun(&mut host, PROGRAM, edition);
            host.control[at] = byte;
            assert_eq!(host.memory().load_u8(code(PROGRAM, 0)), Err(Refusal::Invalid), "byte {at}");
            assert_eq!(host.unless_refused(|memory| memory.call(HELPER, &[0; 256])), Err(Refusal::Invalid));
            assert_eq!(host.unless_refused(|memory| memory.resize(Region::Heap, 0)), Err(Refusal::Invalid));
            // A begin reads no byte of it.
            host.memory().begin(PROGRAM, edition).unwrap();
        }
    }
}
