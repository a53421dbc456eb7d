//! What the library says of files: each verdict is the number of one of its calls.

use crate::world::World;
use hekthumar::inspect::{ListEntry, ListHeader};
use hekthumar::layout::{ACCOUNT_ENTRY, MAX_ACCOUNTS, MAX_DATA, MAX_FRAMES, PAGE, SNAPSHOT_HEADER};
use hekthumar::{
    apply, change_list_len, control_len, Account, Address, ChangeList, Edition, Kind, Memory, Refusal, Region, SnapshotBuilder,
};
use std::ops::Range;

/// Whether a snapshot is valid. Begin asks for that first, and then for the account, which no snapshot has.
pub fn snapshot_valid(snapshot: &[u8]) -> bool {
    begin_alone(snapshot, u16::MAX) != Err(Refusal::Invalid)
}

/// Whether the entry of an account of a valid snapshot is valid.
pub fn account_valid(snapshot: &[u8], account: u16) -> bool {
    begin_alone(snapshot, account) != Err(Refusal::Invalid)
}

/// Begin over buffers without a frame, and so without a stack page. It asks the same in either edition.
fn begin_alone(snapshot: &[u8], program: u16) -> Result<(), Refusal> {
    Memory::new(snapshot, &mut vec![0; control_len(0)], &mut []).begin_with_pages(program, Edition::Newer, 0)
}

/// Whether a pool is valid with some control block.
pub fn pool_valid(pool: &[u8]) -> bool {
    let snapshot = SnapshotBuilder::new().build().expect("a snapshot of nothing keeps every limit");
    let mut control = vec![0; control_len(pool.len() / PAGE)];
    Memory::new(&snapshot, &mut control, &mut pool.to_vec()).begin_with_pages(u16::MAX, Edition::Newer, 0) != Err(Refusal::Invalid)
}

/// Whether the three buffers are valid together. Every access asks for that first, and then for its length, which no access has.
pub fn buffers_valid(world: World) -> bool {
    over(world, |memory| memory.translate(Kind::Load, Address(0), 0)) != Err(Refusal::Invalid)
}

/// Whether a change list can be made of the three buffers.
pub fn listable(world: World) -> bool {
    let mut out = vec![0; change_list_len(world.frames())];
    over(world, |memory| memory.change_list(&mut out).map(|_| ())) != Err(Refusal::Invalid)
}

/// Those of some pages of the stack or the heap that cannot be read.
pub fn unreadable(world: World, region: Region, pages: Range<usize>) -> Vec<usize> {
    let address = |offset: u32| match region {
        Region::Stack => Address::stack(offset),
        Region::Heap => Address::heap(offset),
    };
    let load = |memory: &Memory, page: usize| memory.translate(Kind::Load, address((page * PAGE) as u32)?, 1);
    over(world, |memory| pages.filter(|&page| load(memory, page).is_err()).collect())
}

/// Calls that change nothing, over copies of the buffers: a `Memory` borrows them mutably.
fn over<T>(world: World, call: impl FnOnce(&Memory) -> T) -> T {
    let (mut control, mut pool) = (world.control.to_vec(), world.pool.to_vec());
    call(&Memory::new(world.snapshot, &mut control, &mut pool))
}

/// Whether a change list has the layout of one: it is applied for an account that it does not name.
pub fn list_valid(list: &[u8]) -> bool {
    let named: std::collections::BTreeSet<u16> = list_entries(list).map(|entry| entry.account).collect();
    match (0..=u16::MAX).rev().find(|account| !named.contains(account)) {
        Some(account) => list_applies(list, account, &[]),
        None => ChangeList::parse(list).is_ok(),
    }
}

/// Whether a change list can be applied to an account's data.
pub fn list_applies(list: &[u8], account: u16, data: &[u8]) -> bool {
    apply(list, account, &mut data.to_vec()).is_ok()
}

/// The entries that the header counts, as far as there are bytes.
pub fn list_entries(list: &[u8]) -> impl Iterator<Item = ListEntry> + '_ {
    let pages = ListHeader::read(list).map_or(0, |header| header.pages as usize);
    (0..pages).map_while(|number| ListEntry::read(list, number))
}

/// A snapshot in which every account and every page that a snapshot may have is there, for a control block shown without its own.
/// All accounts have the same bytes of data.
pub fn widest_snapshot() -> Vec<u8> {
    let mut builder = SnapshotBuilder::new();
    builder.account(Account::data(0, vec![0; MAX_DATA]));
    for _ in 1..MAX_ACCOUNTS {
        builder.account(Account::data(0, []));
    }
    let mut snapshot = builder.build().expect("the limits are kept");
    let (first, others) = snapshot[SNAPSHOT_HEADER..].split_at_mut(ACCOUNT_ENTRY);
    for entry in others.chunks_exact_mut(ACCOUNT_ENTRY).take(MAX_ACCOUNTS - 1) {
        entry.copy_from_slice(first);
    }
    snapshot
}

/// A pool as long as a control block of this length needs.
pub fn pool_for(control: &[u8]) -> Vec<u8> {
    let frames = control.len().saturating_sub(control_len(0)) / (control_len(1) - control_len(0));
    vec![0; PAGE * frames.min(MAX_FRAMES)]
}

#[cfg(test)]
mod tests {
    use super::*;

    #[test]
    fn the_widest_snapshot_has_every_account() {
        let snapshot = widest_snapshot();
        assert!(snapshot_valid(&snapshot));
        for account in 0..MAX_ACCOUNTS as u16 {
            assert_eq!(hekthumar::account_data(&snapshot, account).map(<[u8]>::len), Some(MAX_DATA));
            assert!(account_valid(&snapshot, account));
        }
    }
}
