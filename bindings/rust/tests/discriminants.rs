//! The discriminant of a returned value: any other than 0 and 1 is refused, read or written, after every refusal of the access.

mod common;

use common::Host;
use hekthumar::sys::{self, Outcome};
use hekthumar::*;

const PROGRAM: u16 = 0;
const SLOTS: u16 = 1;

/// Neither 0 nor 1; the low bits of most are.
const WRONG: [u64; 10] = [2, 3, 0xFF, 0x100, 0x101, 0x1_0000, 1 << 32, (1 << 32) + 1, 1 << 63, u64::MAX];

const BUFFER: sys::Buffer = sys::Buffer { pointer: 0x1122_3344_5566_7788, length: 0x99AA_BBCC_DDEE_FF00 };
const NOTHING: sys::Buffer = sys::Buffer { pointer: 0, length: 0 };

impl Host {
    /// 6,000 bytes of the program's, and a stack page in frame 0 if there is one.
    fn new(frames: usize) -> Host {
        let mut builder = SnapshotBuilder::new();
        builder.transaction([0; 24]);
        builder.account(Account::program([0x13, 0, 0, 0]));
        builder.account(Account::data(PROGRAM, [7; 6_000]).writable());
        let mut host = Host::filled(builder, frames, 0xCC);
        host.memory().begin_with_pages(PROGRAM, Edition::Newer, frames.min(1)).unwrap();
        host
    }

    fn read(&self, at: Address) -> sys::ReadAnswer<sys::Returned> {
        let Host { snapshot: s, control: c, pool: p } = self;
        // SAFETY: each pointer and length is a slice's, and nothing is written.
        unsafe { sys::hekthumar_read_returned(s.as_ptr(), s.len(), c.as_ptr(), c.len(), p.as_ptr(), p.len(), at.0) }
    }

    /// Writes a returned value with any discriminant; a refused one changes nothing.
    fn write(&mut self, at: Address, discriminant: u64) -> Outcome {
        let before = self.clone();
        let Host { snapshot: s, control: c, pool: p } = self;
        let value = sys::Returned { discriminant, buffer: BUFFER };
        // SAFETY: each pointer and length is a slice's, and the borrow rules keep those that are written apart.
        let outcome =
            unsafe { sys::hekthumar_write_returned(s.as_ptr(), s.len(), c.as_mut_ptr(), c.len(), p.as_mut_ptr(), p.len(), at.0, value) };
        assert!(outcome.number == 0 || *self == before, "{discriminant:#x} at {at}");
        outcome
    }
}

fn slot(offset: u32) -> Address {
    Address::data(SLOTS, offset).unwrap()
}

fn stack(offset: u32) -> Address {
    Address::stack(0xFF_F000 + offset).unwrap()
}

fn told(number: u8) -> Outcome {
    Outcome { distance: 0, number }
}

#[test]
fn a_wrong_one_is_not_read() {
    for discriminant in WRONG {
        for at in [stack(5), slot(101)] {
            let mut host = Host::new(2);
            let bytes = [discriminant, BUFFER.pointer, BUFFER.length].map(u64::to_le_bytes).concat();
            host.memory().store_span(at, &bytes).unwrap();
            assert_eq!(host.unless_refused(|memory| memory.read_returned(at)), Err(Refusal::BadRecord));
            let zeros = sys::Returned { discriminant: 0, buffer: NOTHING };
            assert_eq!(host.read(at), sys::ReadAnswer { record: zeros, distance: 0, number: 14 });
            // The same bytes are no obstacle to any other record.
            assert_eq!(host.memory().read_buffer(at).map(|buffer| buffer.pointer), Ok(Address(discriminant)));
        }
    }
}

#[test]
fn a_right_one_is_read_and_written() {
    let buffer = Buffer { pointer: Address(BUFFER.pointer), length: BUFFER.length };
    for (discriminant, value) in [(0, Returned::Ok(buffer)), (1, Returned::Err(buffer))] {
        let mut host = Host::new(2);
        assert_eq!(host.write(slot(101), discriminant), told(0));
        let record = sys::Returned { discriminant, buffer: BUFFER };
        assert_eq!(host.read(slot(101)), sys::ReadAnswer { record, distance: 0, number: 0 });
        assert_eq!(host.memory().read_returned(slot(101)), Ok(value));
    }
}

#[test]
fn a_wrong_one_is_not_written_and_takes_no_frame() {
    for discriminant in WRONG {
        let mut host = Host::new(2);
        assert_eq!(host.write(stack(5), discriminant), told(14));
        assert_eq!(host.write(slot(101), discriminant), told(14));
        // The frame is still free. Where the page has a copy, its bytes stay, too.
        host.memory().store_u8(slot(0), 1).unwrap();
        assert_eq!(host.write(slot(101), discriminant), told(14));
        let mut out = vec![0; change_list_len(2)];
        assert_eq!(host.memory().change_list(&mut out).map(|list| list.len()), Ok(1));
    }
}

/// Whatever refuses the access is told, and not the discriminant.
#[test]
fn a_wrong_one_is_told_last() {
    let full = || {
        let mut host = Host::new(1);
        assert_eq!(host.memory().store_u8(slot(0), 1), Err(Refusal::OutOfFrames));
        host
    };
    let spoiled = || {
        let mut host = Host::new(2);
        host.control[4] = 0;
        host
    };
    let called = || {
        let mut host = Host::new(2);
        host.memory().call(SLOTS, &[0; 256]).unwrap();
        host
    };
    for discriminant in [0, 1].into_iter().chain(WRONG) {
        assert_eq!(spoiled().write(slot(0), discriminant), told(1));
        assert_eq!(Host::new(2).write(Address(slot(0).0 | 1 << 63), discriminant), told(3));
        assert_eq!(Host::new(2).write(Address::data(2, 0).unwrap(), discriminant), told(4));
        assert_eq!(Host::new(2).write(slot(4_096 - 23), discriminant), told(6));
        assert_eq!(Host::new(2).write(Address::transaction(0).unwrap(), discriminant), told(7));
        assert_eq!(called().write(slot(0), discriminant), told(7));
        assert_eq!(called().write(stack(0), discriminant), told(7));
        assert_eq!(full().write(slot(0), discriminant), told(8));
        assert_eq!(Host::new(0).write(slot(0), discriminant), told(8));
        assert_eq!(Host::new(2).write(slot(5_990), discriminant), Outcome { distance: 10, number: 13 });
    }
}

/// A read that is refused for another reason gives zeros, too, whatever the bytes that it does reach hold.
#[test]
fn a_refused_read_gives_zeros() {
    let host = Host::new(2);
    let zeros = sys::Returned { discriminant: 0, buffer: NOTHING };
    for (at, distance, number) in
        [(slot(0), 0, 14), (slot(4_090), 0, 6), (slot(5_990), 10, 13), (Address(0), 0, 4), (Address(1 << 48), 0, 3)]
    {
        assert_eq!(host.read(at), sys::ReadAnswer { record: zeros, distance, number });
    }
}
