//! A rule is named exactly where the library's verdict is that the file is not valid.

use super::{control, list, pool, snapshot};
use crate::verdict::*;
use crate::world::World;
use hekthumar::inspect::{AccountEntry, ListEntry};
use hekthumar::layout::{CONTROL_HEADER, PAGE, SHADOW_RECORD, SNAPSHOT_HEADER};
use hekthumar::*;

/// A generator of numbers, always the same ones (xorshift).
struct Numbers(u64);

impl Numbers {
    fn below(&mut self, bound: usize) -> usize {
        self.0 ^= self.0 << 13;
        self.0 ^= self.0 >> 7;
        self.0 ^= self.0 << 17;
        (self.0 % bound as u64) as usize
    }

    /// The bytes with up to three changed among the first of them, or a few cut off or added.
    fn damaged(&mut self, bytes: &[u8], first: usize) -> Vec<u8> {
        let mut bytes = bytes.to_vec();
        match self.below(12) {
            0 => bytes.truncate(self.below(bytes.len())),
            1 => bytes.extend([0; 8].iter().take(self.below(9))),
            _ => {}
        }
        for _ in 0..self.below(4) {
            let at = self.below(first.min(bytes.len()).max(1));
            let value = [0, 1, 2, 3, 16, 17, 64, 255][self.below(8)];
            if let Some(byte) = bytes.get_mut(at) {
                *byte = value;
            }
        }
        bytes
    }
}

/// A snapshot, and a control block and a pool after some calls.
fn buffers() -> (Vec<u8>, Vec<u8>, Vec<u8>) {
    let mut builder = SnapshotBuilder::new();
    let program = builder.account(Account::program([1, 2, 3, 4]));
    let slots = builder.account(Account::data(program, vec![7; 6_000]).writable());
    builder.account(Account::absent());
    let snapshot = builder.build().unwrap();
    let (mut control, mut pool) = (vec![0; control_len(6)], vec![0; pool_len(6)]);
    let mut memory = Memory::new(&snapshot, &mut control, &mut pool);
    memory.begin(program, Edition::Newer).unwrap();
    memory.store_u8(Address::data(slots, 0).unwrap(), 1).unwrap();
    memory.call(program, &[0; 256]).unwrap();
    memory.store_u8(Address::data(slots, 4_096).unwrap(), 1).unwrap();
    memory.resize(Region::Heap, 2).unwrap();
    (snapshot, control, pool)
}

/// A snapshot, and a change list of two pages of account 1.
fn changes() -> (Vec<u8>, Vec<u8>) {
    let (snapshot, mut control, mut pool) = buffers();
    let mut out = vec![0; change_list_len(6)];
    let made = Memory::new(&snapshot, &mut control, &mut pool).change_list(&mut out).unwrap().as_bytes().to_vec();
    (snapshot, made)
}

#[test]
fn of_snapshots() {
    let (snapshot, ..) = buffers();
    let (mut numbers, mut valid) = (Numbers(1), 0);
    for _ in 0..20_000 {
        let damaged = numbers.damaged(&snapshot, SNAPSHOT_HEADER);
        assert_eq!(snapshot::broken(&damaged).is_empty(), snapshot_valid(&damaged), "{:?}", snapshot::broken(&damaged));
        valid += usize::from(snapshot_valid(&damaged));
    }
    assert!((1_000..19_000).contains(&valid), "{valid}");
}

#[test]
fn of_accounts() {
    let (snapshot, ..) = buffers();
    let (mut numbers, mut valid) = (Numbers(2), 0);
    for _ in 0..20_000 {
        let mut damaged = snapshot.clone();
        let at = AccountEntry::at(1) + numbers.below(16);
        damaged[at] = [0, 1, 2, 3, 4, 32, 112, 255][numbers.below(8)];
        assert_eq!(snapshot::account_broken(&damaged, 1).is_empty(), account_valid(&damaged, 1));
        valid += usize::from(account_valid(&damaged, 1));
    }
    assert!((1_000..19_000).contains(&valid), "{valid}");
}

#[test]
fn of_control_blocks() {
    let (snapshot, control, pool) = buffers();
    let current = CONTROL_HEADER + 2 * SHADOW_RECORD;
    let (mut numbers, mut valid) = (Numbers(3), 0);
    for round in 0..20_000 {
        // the header, or the current invocation's record
        let start = if round % 2 == 0 { 0 } else { current };
        let damaged = [&control[..start], &numbers.damaged(&control[start..], CONTROL_HEADER)].concat();
        let world = World { snapshot: &snapshot, control: &damaged, pool: &pool };
        let broken = control::all_broken(world);
        assert_eq!(broken.is_empty(), buffers_valid(world), "{broken:?}");
        valid += usize::from(buffers_valid(world));
    }
    assert!((1_000..19_000).contains(&valid), "{valid}");
}

#[test]
fn of_frame_tables() {
    let (snapshot, control, pool) = buffers();
    let table = control_len(0);
    let (mut numbers, mut valid) = (Numbers(4), 0);
    for _ in 0..20_000 {
        let mut damaged = control.clone();
        for _ in 0..numbers.below(4) {
            let at = table + numbers.below(control.len() - table);
            damaged[at] = [0, 1, 2, 3][numbers.below(4)];
        }
        let world = World { snapshot: &snapshot, control: &damaged, pool: &pool };
        let broken = control::copies_broken(world);
        assert_eq!(broken.is_empty(), listable(world), "{broken:?}");
        valid += usize::from(listable(world));
    }
    assert!((1_000..19_000).contains(&valid), "{valid}");
}

#[test]
fn of_pools() {
    for length in [0, 1, 4_095, 4_096, 4_097, 8_192, 1_023 * PAGE, 1_024 * PAGE, 1_025 * PAGE] {
        let bytes = vec![0; length];
        assert_eq!(pool::broken(&bytes).is_empty(), pool_valid(&bytes), "{length}");
        assert_eq!(pool_valid(&bytes), length % PAGE == 0 && length <= 1_024 * PAGE);
    }
}

#[test]
fn of_change_lists() {
    let (snapshot, made) = changes();
    let (mut numbers, mut valid, mut applies) = (Numbers(5), 0, 0);
    for _ in 0..20_000 {
        let damaged = numbers.damaged(&made, made.len() - 2 * PAGE);
        assert_eq!(list::broken(&damaged, None).is_empty(), list_valid(&damaged));
        let data = account_data(&snapshot, 1).unwrap();
        let target = list::Target { account: 1, length: data.len() };
        assert_eq!(list::broken(&damaged, Some(target)).is_empty(), list_applies(&damaged, 1, data));
        valid += usize::from(list_valid(&damaged));
        applies += usize::from(list_applies(&damaged, 1, data));
    }
    assert!(1_000 < applies && applies < valid && valid < 19_000, "{applies} {valid}");
}

/// An entry's depth may be any number, what follows it only 0: each bit of both, in each entry.
#[test]
fn of_depths() {
    let (snapshot, made) = changes();
    let data = account_data(&snapshot, 1).unwrap();
    let depths = [0, 1].map(|number| ListEntry::read(&made, number).unwrap().depth);
    assert_eq!(depths, [0, 1]);
    for (entry, bit) in (0..2).flat_map(|entry| (0..32).map(move |bit| (entry, bit))) {
        let mut altered = made.clone();
        altered[ListEntry::at(entry) + 8 + bit / 8] ^= 1 << (bit % 8);
        let broken = list::broken(&altered, None);
        assert_eq!([broken.is_empty(), list_valid(&altered), list_applies(&altered, 1, data)], [bit < 16; 3], "{entry} {bit}");
        assert!(broken.iter().all(|broken| broken.at == ListEntry::at(entry) + 10), "{broken:?}");
    }
}
