//! Frame tables with more entries than a search looks at one by one, and change lists longer than the library's short arrays. Pages are taken in
//! several orders, and each call that goes over the table must answer and leave what the model does.

use crate::bytes::*;
use crate::interface::{Bytes, Call, World};
use crate::library;
use crate::model::{self, Planted};

const ACCOUNTS: usize = 2;
const PAGES: usize = 100;
const FRAMES: usize = 140;
const DATA_AT: usize = SNAPSHOT_HEADER + ACCOUNT_ENTRY * ACCOUNTS;

/// Account 0, the program, has no bytes; account 1 has a hundred pages, the last a short one, which the program owns and may write.
fn world() -> World {
    let length = PAGE * PAGES - 5;
    let mut snapshot = vec![0; DATA_AT];
    snapshot.extend((0..length).map(|place| (place * 31 % 251) as u8));
    let total = snapshot.len();
    let header = [ACCOUNTS, 0, 0, SNAPSHOT_HEADER, DATA_AT, DATA_AT, DATA_AT, total];
    for (word, value) in header.into_iter().chain([1, 0, DATA_AT, 0]).enumerate() {
        put_u32(&mut snapshot, 4 * word, value as u32);
    }
    for (word, value) in [3, length, DATA_AT, 0].into_iter().enumerate() {
        put_u32(&mut snapshot, SNAPSHOT_HEADER + ACCOUNT_ENTRY + 4 * word, value as u32);
    }
    World { snapshot, control: vec![0; TABLE_AT + FRAME_ENTRY * FRAMES], pool: vec![0xAA; PAGE * FRAMES] }
}

/// The library's world and the model's.
struct Both(World, World);

impl Both {
    /// Gives the call to both: one answer, which is no refusal, and the same bytes in every buffer.
    fn give(&mut self, call: Call) -> Call {
        let (mut by_library, mut by_model) = (call.clone(), call);
        let given = library::run(&mut self.0, &mut by_library);
        let (expected, _) = model::run(&mut self.1, &mut by_model, &mut Planted::default());
        assert_eq!((given.number(), &given), (0, &expected), "{}", by_library.describe());
        assert!(self.0 == self.1 && by_library == by_model, "{}", by_library.describe());
        by_library
    }

    fn page(&mut self, page: usize) {
        let address = 0x0300_0100_0000 + (PAGE * page) as u64;
        self.give(Call::Translate { kind: 1, address, length: 8 });
        self.give(Call::Load { address, size: 8 });
        self.give(Call::PageView { account: 1, page: page as u16 });
    }

    fn store(&mut self, page: usize) {
        self.give(Call::Store { address: 0x0300_0100_0008 + (PAGE * page) as u64, size: 8, value: page as u64 + 1 });
    }

    fn resize(&mut self, region: u8, pages: usize) {
        self.give(Call::Resize { region, pages });
    }

    /// With registers that have this in every byte.
    fn call(&mut self, byte: usize) {
        self.give(Call::Invoke { program: 0, registers: Bytes(vec![byte as u8; 256]) });
    }

    fn return_(&mut self) {
        self.give(Call::Return { registers: Bytes(vec![0; 256]) });
    }
}

/// Takes copies of the pages in this order, with stack and heap pages between them and at depths that rise, and asks for each page before
/// and after.
fn taken(order: impl Iterator<Item = usize>) {
    let world = world();
    let mut both = Both(world.clone(), world);
    both.give(Call::BeginPages { program: 0, edition: NEWER, pages: 0 });
    for (turn, page) in order.enumerate() {
        both.page(page);
        both.store(page);
        both.page(page);
        if turn % 16 == 5 {
            both.resize(2 + (turn / 16 % 2) as u8, turn / 8 + 1);
            both.give(Call::Load { address: 0x0500_00FF_F000, size: 8 });
        }
        if turn % 8 == 7 {
            both.call(turn);
        }
    }
    let Call::ChangeList { out } = both.give(Call::ChangeList { out: Bytes(vec![0x55; LIST_HEADER + (LIST_ENTRY + PAGE) * PAGES]) }) else {
        unreachable!()
    };
    both.give(Call::Apply { list: out, account: 1, data: Bytes(world_data(&both.0)) });
    (0..PAGES / 8).for_each(|_| both.return_());
    both.call(7);
    both.resize(2, 18);
    both.resize(3, 14);
    both.return_();
    // The last heap page that the callee left has its frame behind those of all stack pages, before those of all copies.
    both.give(Call::Store { address: 0x0700_0000_D000, size: 8, value: 9 });
    for pages in [3, 1, 0] {
        both.resize(2, pages);
        both.resize(3, pages);
    }
}

/// The bytes of account 1.
fn world_data(world: &World) -> Vec<u8> {
    world.snapshot[DATA_AT..].to_vec()
}

#[test]
fn pages_taken_upwards() {
    taken(0..PAGES);
}

#[test]
fn pages_taken_downwards() {
    taken((0..PAGES).rev());
}

#[test]
fn pages_taken_without_order() {
    taken((0..PAGES).map(|i| i * 37 % PAGES));
}

/// Stack and heap pages of several depths alternate in the table: in most groups some entries leave at a return and some stay.
#[test]
fn returns_over_both_regions() {
    let world = world();
    let mut both = Both(world.clone(), world);
    both.give(Call::BeginPages { program: 0, edition: NEWER, pages: 0 });
    for pages in 1..=FRAMES / 2 {
        both.resize(STACK, pages);
        both.resize(HEAP, pages);
        if pages % 10 == 0 {
            both.call(pages);
        }
    }
    for live in (1..=FRAMES / 20).rev() {
        both.return_();
        assert_eq!((both.0.region_size(STACK), both.0.region_size(HEAP)), (10 * live, FRAMES / 2));
        assert_eq!((both.0.frames_used_as(STACK), both.0.frames_used_as(HEAP)), (10 * live, FRAMES / 2));
    }
    both.resize(HEAP, 0);
    both.resize(STACK, 0);
}

/// A page that every entry names with another use: the key is there in each group, the copy in none but the last.
#[test]
fn the_key_under_other_uses() {
    let world = world();
    let mut both = Both(world.clone(), world);
    both.give(Call::BeginPages { program: 0, edition: NEWER, pages: 0 });
    both.store(7);
    let copy: Vec<u8> = both.0.control[TABLE_AT + FRAME_ENTRY * (FRAMES - 1)..].to_vec();
    for frame in 0..FRAMES {
        let mut entry = copy.clone();
        entry[0] = if frame == FRAMES - 3 { 1 } else { [0, 2, 3, 4][frame % 4] };
        for world in [&mut both.0, &mut both.1] {
            world.control[TABLE_AT + FRAME_ENTRY * frame..][..FRAME_ENTRY].copy_from_slice(&entry);
        }
    }
    both.page(7);
    both.store(7);
    both.page(8);
    both.store(8);
    both.page(8);
}
