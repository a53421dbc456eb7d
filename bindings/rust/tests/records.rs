//! Records in program memory: their bytes, where they are read and written, and what a refused one leaves.

mod common;

use common::Host;
use hekthumar::layout::{BUFFER, CALL_RECORD, EVENT, LOCATION, RETURNED};
use hekthumar::*;
use std::mem::offset_of;

const PROGRAM: u16 = 0;
const HELPER: u16 = 1;
const SLOTS: u16 = 2;
const READ_ONLY: u16 = 3;

impl Host {
    /// 6,000 bytes of the program's, and two pages each of stack and heap in frames 0 to 3.
    fn new(frames: usize) -> Host {
        let mut builder = SnapshotBuilder::new();
        builder.transaction([3; 60]);
        builder.account(Account::program([4; 60]));
        builder.account(Account::program([5; 60]));
        builder.account(Account::data(PROGRAM, [7; 6_000]).writable());
        builder.account(Account::data(PROGRAM, [8; 60]));
        let mut host = Host::filled(builder, frames, 0xCC);
        let mut memory = host.memory();
        memory.begin(PROGRAM, Edition::Newer).unwrap();
        memory.resize(Region::Stack, 2).unwrap();
        memory.resize(Region::Heap, 2).unwrap();
        host
    }

    fn read(&mut self, record: Record, at: Address) -> Result<Record, Refusal> {
        self.unless_refused(|memory| match record {
            Record::Buffer(_) => memory.read_buffer(at).map(Record::Buffer),
            Record::Event(_) => memory.read_event(at).map(Record::Event),
            Record::Location(_) => memory.read_location(at).map(Record::Location),
            Record::Call(_) => memory.read_call_record(at).map(Record::Call),
            Record::Returned(_) => memory.read_returned(at).map(Record::Returned),
        })
    }

    fn write(&mut self, record: Record, at: Address) -> Result<(), Refusal> {
        self.unless_refused(|memory| match record {
            Record::Buffer(record) => memory.write_buffer(at, record),
            Record::Event(record) => memory.write_event(at, record),
            Record::Location(record) => memory.write_location(at, record),
            Record::Call(record) => memory.write_call_record(at, record),
            Record::Returned(record) => memory.write_returned(at, record),
        })
    }

    fn bytes(&mut self, at: Address, length: usize) -> Vec<u8> {
        let mut bytes = vec![0; length];
        self.memory().load_span(at, &mut bytes).unwrap();
        bytes
    }
}

fn slot(offset: u32) -> Address {
    Address::data(SLOTS, offset).unwrap()
}

/// A record of any kind.
#[derive(Clone, Copy, Debug, PartialEq)]
enum Record {
    Buffer(Buffer),
    Event(Event),
    Location(Location),
    Call(CallRecord),
    Returned(Returned),
}

const FIRST: Buffer = Buffer { pointer: Address(0x0807_0605_0403_0201), length: 0x1817_1615_1413_1211 };
const SECOND: Buffer = Buffer { pointer: Address(0x2827_2625_2423_2221), length: 0x3837_3635_3433_3231 };
const THIRD: Buffer = Buffer { pointer: Address(0x4847_4645_4443_4241), length: 0x5857_5655_5453_5251 };

const FIRST_BYTES: [u8; 16] = [1, 2, 3, 4, 5, 6, 7, 8, 0x11, 0x12, 0x13, 0x14, 0x15, 0x16, 0x17, 0x18];
const SECOND_BYTES: [u8; 16] = [0x21, 0x22, 0x23, 0x24, 0x25, 0x26, 0x27, 0x28, 0x31, 0x32, 0x33, 0x34, 0x35, 0x36, 0x37, 0x38];
const THIRD_BYTES: [u8; 16] = [0x41, 0x42, 0x43, 0x44, 0x45, 0x46, 0x47, 0x48, 0x51, 0x52, 0x53, 0x54, 0x55, 0x56, 0x57, 0x58];

/// Each kind with its bytes in memory.
fn records() -> [(Record, Vec<u8>); 6] {
    let location = Location { file: FIRST, line: 0x6463_6261, column: 0x7473_7271 };
    let call = CallRecord { context_id: FIRST, function: SECOND, params: THIRD };
    [
        (Record::Buffer(FIRST), FIRST_BYTES.to_vec()),
        (Record::Event(Event { kind: FIRST, data: SECOND }), [FIRST_BYTES, SECOND_BYTES].concat()),
        (Record::Location(location), [&FIRST_BYTES[..], &[0x61, 0x62, 0x63, 0x64, 0x71, 0x72, 0x73, 0x74]].concat()),
        (Record::Call(call), [FIRST_BYTES, SECOND_BYTES, THIRD_BYTES].concat()),
        (Record::Returned(Returned::Ok(FIRST)), [&[0, 0, 0, 0, 0, 0, 0, 0], &FIRST_BYTES[..]].concat()),
        (Record::Returned(Returned::Err(SECOND)), [&[1, 0, 0, 0, 0, 0, 0, 0], &SECOND_BYTES[..]].concat()),
    ]
}

/// A writable page of account data, the stack and the heap, with the page before it present, too.
fn pages() -> [Address; 3] {
    [slot(0x1000), Address::stack(0xFF_F000).unwrap(), Address::heap(0x1000).unwrap()]
}

/// The address so many bytes before this one in its segment.
fn before(at: Address, bytes: usize) -> Address {
    Address(at.0 - bytes as u64)
}

#[test]
fn lengths_are_those_of_the_layout() {
    let lengths = records().map(|(_, bytes)| bytes.len());
    assert_eq!(lengths, [BUFFER, EVENT, LOCATION, CALL_RECORD, RETURNED, RETURNED]);
    assert_eq!(lengths, [16, 32, 24, 48, 24, 24]);
    use sys::*;
    let in_c = [size_of::<Buffer>(), size_of::<Event>(), size_of::<Location>(), size_of::<CallRecord>(), size_of::<Returned>()];
    assert_eq!(in_c, lengths[..5]);
    assert_eq!((offset_of!(ReadAnswer<Location>, distance), offset_of!(ReadAnswer<Location>, number)), (24, 26));
    assert_eq!((size_of::<ReadAnswer<Location>>(), size_of::<ReadAnswer<CallRecord>>()), (32, 56));
}

#[test]
fn a_record_is_written_and_read_back() {
    for (record, bytes) in records() {
        for page in pages() {
            // The slots' second page has 1,904 bytes.
            let present = if page == slot(0x1000) { 1_904 } else { PAGE };
            for offset in [0, 1, 4, 8, 101, present - bytes.len()] {
                let mut host = Host::new(5);
                let at = page.offset_by(offset as u32).unwrap();
                host.write(record, at).unwrap();
                assert_eq!(host.bytes(at, bytes.len()), bytes, "{record:?} at {at}");
                assert_eq!(host.read(record, at), Ok(record), "at {at}");
            }
        }
    }
}

/// Bytes beside the record stay.
#[test]
fn a_record_writes_its_own_bytes_alone() {
    for (record, bytes) in records() {
        let mut host = Host::new(5);
        host.write(record, slot(9)).unwrap();
        let beside = [&[7; 9], &bytes[..], &[7; 7]].concat();
        assert_eq!(host.bytes(slot(0), beside.len()), beside);
    }
}

/// Wherever a span load goes, a record is read: the same that a span store of those bytes leaves elsewhere.
#[test]
fn a_record_is_read_where_spans_are_loaded() {
    let mut host = Host::new(5);
    let at = [Address::transaction(3), Address::shadow(11), Address::program(5), Address::data(READ_ONLY, 2), Address::metadata(SLOTS, 1)];
    for at in at.map(Result::unwrap) {
        for (record, bytes) in records() {
            let found = host.bytes(at, bytes.len());
            let answer = host.read(record, at);
            match record {
                Record::Returned(_) if found[..8] != [0; 8] => assert_eq!(answer, Err(Refusal::BadRecord), "{record:?} at {at}"),
                _ => {
                    host.memory().store_span(slot(0), &found).unwrap();
                    assert_eq!(answer, host.read(record, slot(0)), "{record:?} at {at}");
                    assert!(answer.is_ok());
                }
            }
            assert_eq!(host.write(record, at), Err(Refusal::NotPermitted), "{record:?} at {at}");
        }
    }
}

#[test]
fn a_record_does_not_cross_a_page() {
    let mut host = Host::new(6);
    for (record, bytes) in records() {
        for page in pages() {
            for first_part in 1..bytes.len() {
                let at = before(page, first_part);
                assert_eq!(host.write(record, at), Err(Refusal::CrossesPage), "{record:?} at {at}");
                assert_eq!(host.read(record, at), Err(Refusal::CrossesPage), "{record:?} at {at}");
            }
            host.write(record, before(page, bytes.len())).unwrap();
            assert_eq!(host.read(record, before(page, bytes.len())), Ok(record));
        }
        // The end of a segment's addresses is a page's end.
        assert_eq!(host.read(record, Address::stack(0xFF_FFFF).unwrap()), Err(Refusal::CrossesPage));
    }
}

#[test]
fn an_absent_byte_is_told_with_its_distance() {
    let mut host = Host::new(5);
    for (record, bytes) in records() {
        for distance in 0..bytes.len() as u16 {
            let absent = Refusal::Absent { distance };
            let at = slot(6_000 - u32::from(distance));
            assert_eq!(host.write(record, at), Err(absent));
            assert_eq!(host.read(record, at), Err(absent));
            assert_eq!(host.read(record, Address::transaction(60 - u32::from(distance)).unwrap()), Err(absent));
        }
        for at in [Address::stack(0xFF_D000), Address::heap(0x2000)].map(Result::unwrap) {
            assert_eq!(host.write(record, at), Err(Refusal::Absent { distance: 0 }));
            assert_eq!(host.read(record, at), Err(Refusal::Absent { distance: 0 }));
        }
    }
}

#[test]
fn refusals_of_an_access() {
    for (record, _) in records() {
        let mut host = Host::new(5);
        for (at, refusal) in [
            (Address(slot(0).0 | 1 << 48), Refusal::OutOfRange),
            (Address(0), Refusal::NoSegment),
            (Address::data(READ_ONLY + 1, 0).unwrap(), Refusal::NoSegment),
        ] {
            assert_eq!(host.read(record, at), Err(refusal));
            assert_eq!(host.write(record, at), Err(refusal));
        }
        // The helper owns no account, and the stack and heap were grown at a lower depth.
        host.memory().call(HELPER, &[0; 256]).unwrap();
        for at in pages() {
            assert_eq!(host.write(record, at), Err(Refusal::NotPermitted));
        }
        host.control[4] = 0;
        assert_eq!(host.read(record, slot(0)), Err(Refusal::Invalid));
        assert_eq!(host.write(record, slot(0)), Err(Refusal::Invalid));
    }
}

#[test]
fn a_write_takes_a_frame_as_a_span_store_does() {
    for (record, bytes) in records() {
        let (mut host, mut other) = (Host::new(5), Host::new(5));
        host.write(record, slot(3)).unwrap();
        other.memory().store_span(slot(3), &bytes).unwrap();
        assert!(host == other, "{record:?}");
        // The last frame is taken: this page has it, the other needs one.
        assert_eq!(host.write(record, slot(0x1003)), Err(Refusal::OutOfFrames));
        host.write(record, slot(100)).unwrap();
        assert_eq!(host.read(record, slot(100)), Ok(record));
        assert!(host.read(Record::Buffer(FIRST), slot(0x1003)).is_ok());
    }
}

#[test]
fn written_records_are_listed() {
    let mut host = Host::new(6);
    let mut data = vec![7; 6_000];
    for ((record, bytes), offset) in records().into_iter().zip((0x1001..).step_by(100)) {
        host.write(record, slot(offset)).unwrap();
        data[offset as usize..][..bytes.len()].copy_from_slice(&bytes);
    }
    let mut out = vec![0; change_list_len(6)];
    let memory = host.memory();
    let list = memory.change_list(&mut out).unwrap();
    let mut changed = vec![7; 6_000];
    list.apply(SLOTS, &mut changed).unwrap();
    assert_eq!(list.len(), 1);
    assert!(changed == data);
}
