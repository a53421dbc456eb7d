//! Document 01's "Trials at the edges", given to the library and to the model: here the expected numbers are the papers' own, so that
//! the two cannot agree on a wrong one. Where a trial's byte is not present, 02 makes the number 13, and the first byte is the absent one.
//! The words of the change list are 02's, too.

use hekthumar::sys::{Fields, Joined};

use crate::bytes::*;
use crate::interface::{Answer, Bytes, Call, World};
use crate::library;
use crate::model::{self, Planted};

const ACCOUNTS: usize = 6;
const TRANSACTION: usize = 0x4D;
const DATA: usize = 6000;

/// Account 5 has this many bytes, which the program, account 5 too, owns and may write; the others do not exist.
pub fn world(contexts: usize, length: usize) -> World {
    let contexts_at = SNAPSHOT_HEADER + ACCOUNT_ENTRY * ACCOUNTS;
    let transaction_at = contexts_at + CONTEXT * contexts;
    let data_at = transaction_at + TRANSACTION;
    let mut snapshot = vec![0; data_at];
    snapshot.extend((0..length).map(original));
    let total = snapshot.len();
    let header = [ACCOUNTS, contexts, TRANSACTION, SNAPSHOT_HEADER, contexts_at, transaction_at, data_at, total];
    let entry = [5 << 16 | 3, length, data_at, 0];
    for (word, value) in header.into_iter().enumerate() {
        put_u32(&mut snapshot, 4 * word, value as u32);
    }
    for (word, value) in entry.into_iter().enumerate() {
        put_u32(&mut snapshot, SNAPSHOT_HEADER + ACCOUNT_ENTRY * 5 + 4 * word, value as u32);
    }
    World { snapshot, control: vec![0; TABLE_AT + 4 * FRAME_ENTRY], pool: vec![0xAA; 4 * PAGE] }
}

pub fn original(place: usize) -> u8 {
    (place % 251) as u8
}

/// Gives the call to both, which must answer this number and this distance, and hands back the call with its lent buffers.
pub fn expect_with(world: &mut World, call: Call, number: u8, distance: u64) -> Call {
    let told = |answer: Answer| (answer.number(), answer.distance().unwrap_or(0));
    let (mut by_library, mut by_model) = (call.clone(), call);
    let mut models = world.clone();
    let (answer, _) = model::run(&mut models, &mut by_model, &mut Planted::default());
    assert_eq!(told(answer), (number, distance), "model: {}", by_model.describe());
    let answer = library::run(world, &mut by_library);
    assert_eq!(told(answer), (number, distance), "library: {}", by_library.describe());
    assert!(*world == models && by_library == by_model, "buffers: {}", by_library.describe());
    by_library
}

pub fn expect(world: &mut World, call: Call, number: u8) -> Call {
    expect_with(world, call, number, 0)
}

/// Gives the call, which changes no buffer, to both, which must give this answer.
pub fn expect_answer(world: &mut World, mut call: Call, answer: Answer) {
    assert_eq!(model::run(world, &mut call, &mut Planted::default()).0, answer, "model: {}", call.describe());
    assert_eq!(library::run(world, &mut call), answer, "library: {}", call.describe());
}

/// Gives the call to both, each with its own copy of the buffers, which must then be those expected, and hands back the call with its lent
/// buffers.
pub fn expect_buffers(before: &World, call: Call, number: u8, after: &World) -> Call {
    let mut world = before.clone();
    let call = expect(&mut world, call, number);
    assert!(world == *after, "buffers: {}", call.describe());
    call
}

/// 01's begin, which 02 keeps as the one with no pages.
pub fn begun_with(contexts: usize, length: usize) -> World {
    let mut world = world(contexts, length);
    expect(&mut world, Call::BeginPages { program: 5, edition: NEWER, pages: 0 }, 0);
    world
}

fn begun(contexts: usize) -> World {
    begun_with(contexts, DATA)
}

fn load(world: &mut World, address: u64, size: usize, number: u8) {
    expect(world, Call::Load { address, size }, number);
}

#[test]
fn addresses() {
    for (address, segment, index, offset) in
        [(0x0300_0500_0800, 3, 5, 0x800), (0x0000_0100_0040, 0, 1, 0x40), (0x0500_0000_1000, 5, 0, 0x1000)]
    {
        let fields = Answer::Fields(Fields { offset, index, segment, number: 0 });
        let joined = Answer::Joined(Joined { address, number: 0 });
        expect_answer(&mut world(0, DATA), Call::Split { address }, fields);
        expect_answer(&mut world(0, DATA), Call::Join { segment, index, offset }, joined);
    }
    let mut world = begun(0);
    expect(&mut world, Call::Resize { region: STACK, pages: 1 }, 0);
    load(&mut world, 0x0500_0000_1000, 1, 13);
    load(&mut world, 0x0001_0000_0000_0000, 1, 3);
    load(&mut world, 0, 1, 4);
}

#[test]
fn account_data() {
    let mut world = begun(0);
    let base = 0x0300_0500_0000;
    for (offset, size, number) in [(4088, 8, 0), (4093, 8, 5), (5992, 8, 0), (6000, 8, 13)] {
        load(&mut world, base + offset, size, number);
    }
    expect(&mut world, Call::LoadSpan { address: base + 4093, out: Bytes(vec![0; 8]) }, 6);
}

#[test]
fn contexts_shadow_and_regions() {
    let mut world = begun(1);
    load(&mut world, 0x0000_0400_0070, 8, 0);
    load(&mut world, 0x0000_0400_0078, 1, 13);
    load(&mut world, 0x0000_0200_0000 + 4480, 8, 0);
    load(&mut world, 0x0000_0200_0000 + 4488, 1, 13);
    expect(&mut world, Call::Resize { region: STACK, pages: 1 }, 0);
    expect(&mut world, Call::Resize { region: HEAP, pages: 1 }, 0);
    for (address, number) in [(0x0500_00FF_F000, 0), (0x0500_00FF_EFFF, 13), (0x0700_0000_0FFF, 0), (0x0700_0000_1000, 13)] {
        load(&mut world, address, 1, number);
    }
    let mut many = begun(512);
    load(&mut many, 0x0000_041F_F000, 1, 0);
    load(&mut many, 0x0000_0420_0000, 1, 13);
}

#[test]
fn change_list() {
    let mut world = begun(0);
    let empty = expect(&mut world, Call::ChangeList { out: Bytes(vec![0xEE; 16]) }, 0);
    assert_eq!(empty, Call::ChangeList { out: Bytes([0, 16, 16, 16].into_iter().flat_map(u32::to_le_bytes).collect()) });
    expect(&mut world, Call::Store { address: 0x0300_0500_1004, size: 1, value: 0x11 }, 0);
    expect(&mut world, Call::Store { address: 0x0300_0500_1008, size: 1, value: 0x22 }, 0);
    let listed = expect(&mut world, Call::ChangeList { out: Bytes(vec![0xEE; 4124]) }, 0);
    // "In 01's case the words are 1, 16, 28, 4124."
    let mut expected: Vec<u8> = [1, 16, 28, 4124].into_iter().flat_map(u32::to_le_bytes).collect();
    expected.extend([0x05, 0x00, 0x01, 0x00, 0x70, 0x07, 0x00, 0x00, 0x00, 0x00, 0x00, 0x00]);
    expected.extend((PAGE..DATA).map(|place| match place {
        0x1004 => 0x11,
        0x1008 => 0x22,
        _ => original(place),
    }));
    expected.extend([0; 2192]);
    assert_eq!(listed, Call::ChangeList { out: Bytes(expected) });
}
