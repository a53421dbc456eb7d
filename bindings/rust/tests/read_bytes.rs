//! The bytes that a buffer describes, page by page.

mod common;

use common::Host;
use hekthumar::*;

const SLOTS: u16 = 1;

/// Bytes of the slots: three pages, the last a short one.
fn data() -> Vec<u8> {
    (0..10_000_u32).map(|place| (place % 251) as u8).collect()
}

impl Host {
    fn new() -> Host {
        let mut builder = SnapshotBuilder::new();
        builder.block_context(&[9; 120]);
        builder.block_context(&[9; 120]);
        builder.account(Account::program([0x13, 0, 0, 0]));
        builder.account(Account::data(0, data()).writable());
        let mut host = Host::filled(builder, 4, 0);
        host.memory().begin(0, Edition::Newer).unwrap();
        host
    }

    fn read_bytes(&mut self, pointer: Address, length: u64) -> Result<Vec<u8>, Refusal> {
        self.memory().read_bytes(Buffer { pointer, length })
    }
}

fn slot(offset: u32) -> Address {
    Address::data(SLOTS, offset).unwrap()
}

#[test]
fn within_a_page_and_across() {
    let mut host = Host::new();
    for (offset, length) in [(0, 1), (0, 4_096), (1, 4_095), (1, 4_096), (4_090, 12), (4_096, 4_096), (0, 10_000), (9_999, 1), (3, 9_000)] {
        let expected = &data()[offset..offset + length];
        assert_eq!(host.read_bytes(slot(offset as u32), length as u64).unwrap(), expected);
    }
    // A page with a copy between two without.
    host.memory().store_u8(slot(4_100), 0xEE).unwrap();
    let mut expected = data();
    expected[4_100] = 0xEE;
    assert!(host.read_bytes(slot(0), 10_000).unwrap() == expected);
}

/// Nothing is loaded, so nothing can be refused.
#[test]
fn no_bytes_are_anywhere() {
    for pointer in [slot(0), slot(0xFF_FFFF), Address(0), Address(u64::MAX)] {
        assert_eq!(Host::new().read_bytes(pointer, 0), Ok(vec![]));
    }
}

#[test]
fn the_first_refused_page_is_told() {
    let mut host = Host::new();
    for (pointer, length, refusal) in [
        (slot(9_990), 11, Refusal::Absent { distance: 10 }),
        // 1,808 bytes of the last page are present.
        (slot(4_095), u64::MAX, Refusal::Absent { distance: 1_808 }),
        (slot(12_288), 1, Refusal::Absent { distance: 0 }),
        (Address::block_context(0, 0).unwrap(), 240, Refusal::Absent { distance: 120 }),
        (Address::heap(0).unwrap(), 5, Refusal::Absent { distance: 0 }),
        (Address(1 << 48), 5, Refusal::OutOfRange),
        (Address(0), u64::MAX, Refusal::NoSegment),
    ] {
        assert_eq!(host.read_bytes(pointer, length), Err(refusal), "{length} at {pointer}");
    }
}

#[test]
fn up_to_the_last_offset() {
    let mut host = Host::new();
    let top = Address::stack(0xFF_FFFC).unwrap();
    host.memory().store_u32(top, 0x0403_0201).unwrap();
    assert_eq!(host.read_bytes(top, 4), Ok(vec![1, 2, 3, 4]));
    assert_eq!(host.read_bytes(top, 5), Err(Refusal::OutOfRange));
    assert_eq!(host.read_bytes(top, u64::MAX), Err(Refusal::OutOfRange));
}
