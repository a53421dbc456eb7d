//! Behaviour of the safe interface, seen from a host.

use hekthumar::layout::{LIST_ENTRY, LIST_HEADER};
use hekthumar::*;

const PROGRAM: u16 = 0;
const FOREIGN: u16 = 1;
const READ_ONLY: u16 = 2;
const ABSENT: u16 = 3;
const CALLEE: u16 = 4;
const SLOTS: u16 = 5;

/// The buffers of a host, and the data of account `SLOTS`.
struct Host {
    snapshot: Vec<u8>,
    control: Vec<u8>,
    pool: Vec<u8>,
    slots: Vec<u8>,
}

impl Host {
    fn new(frames: usize) -> Host {
        let slots: Vec<u8> = (0..6_000_u32).map(|i| (i % 251) as u8).collect();
        let mut builder = SnapshotBuilder::new();
        builder.transaction(*b"transaction");
        builder.block_context(&[9; 120]);
        let accounts = [
            Account::program([0x13, 0, 0, 0]),
            Account::data(CALLEE, [1; 8]).writable(),
            Account::data(PROGRAM, [2; 8]),
            Account::absent(),
            Account::program([0x93, 0, 0, 0]),
            Account::data(PROGRAM, slots.clone()).writable().metadata([5; 64]),
        ];
        let numbers = accounts.map(|account| builder.account(account));
        assert_eq!(numbers, [PROGRAM, FOREIGN, READ_ONLY, ABSENT, CALLEE, SLOTS]);
        // A begin overwrites the control block and zeroes the frame that it takes: neither buffer needs to be clean.
        Host { snapshot: builder.build().unwrap(), control: vec![0xCC; control_len(frames)], pool: vec![0xCC; pool_len(frames)], slots }
    }

    fn memory(&mut self) -> Memory<'_> {
        Memory::new(&self.snapshot, &mut self.control, &mut self.pool)
    }

    fn begin(&mut self) -> Memory<'_> {
        let mut memory = self.memory();
        memory.begin(PROGRAM, Edition::Newer).unwrap();
        memory
    }

    /// Begins without a stack page.
    fn begin_empty(&mut self) -> Memory<'_> {
        let mut memory = self.memory();
        memory.begin_with_pages(PROGRAM, Edition::Newer, 0).unwrap();
        memory
    }
}

fn slot(offset: u32) -> Address {
    Address::data(SLOTS, offset).unwrap()
}

fn words(bytes: &[u8]) -> Vec<u32> {
    bytes.as_chunks().0.iter().map(|word| u32::from_le_bytes(*word)).collect()
}

/// A small generator of numbers, so that a failure can be repeated.
struct Random(u64);

impl Random {
    fn below(&mut self, bound: u64) -> u64 {
        self.0 ^= self.0 << 13;
        self.0 ^= self.0 >> 7;
        self.0 ^= self.0 << 17;
        self.0 % bound
    }
}

#[test]
fn two_stores_on_one_page_are_both_listed() {
    let mut host = Host::new(4);
    let original = host.slots.clone();
    let mut memory = host.begin();
    memory.store_u8(slot(0x1004), 0x11).unwrap();
    memory.store_u8(slot(0x1008), 0x22).unwrap();

    let mut out = vec![0xEE; change_list_len(4)];
    let list = memory.change_list(&mut out).unwrap();
    let bytes = list.as_bytes();
    assert_eq!(words(&bytes[..16]), [1, 16, 28, 4124]);
    assert_eq!(bytes[16..28], [0x05, 0, 0x01, 0, 0x70, 0x07, 0, 0, 0, 0, 0, 0]);
    let mut expected = original[4096..].to_vec();
    (expected[4], expected[8]) = (0x11, 0x22);
    assert_eq!(bytes[28..][..1_904], expected);
    assert_eq!(bytes[28 + 1_904..], [0; 2_192]);

    assert_eq!(list.len(), 1);
    let changes: Vec<_> = list.entries().collect();
    assert_eq!(changes, [Change { account: SLOTS, page: 1, live: &expected, depth: 0 }]);
    let mut data = original.clone();
    list.apply(SLOTS, &mut data).unwrap();
    assert_eq!(data, [&original[..4096], &expected].concat());
    assert_eq!(out[4124..], vec![0xEE; change_list_len(4) - 4124]);
}

#[test]
fn without_a_store_the_list_is_empty() {
    let mut host = Host::new(1);
    let mut out = [0; 16];
    let list = host.begin().change_list(&mut out).unwrap();
    assert!(list.is_empty() && list.entries().next().is_none());
    assert_eq!(words(list.as_bytes()), [0, 16, 16, 16]);
}

#[test]
fn refusals_of_accesses() {
    let mut host = Host::new(0);
    let mut fresh = host.memory();
    assert_eq!(fresh.load(slot(0), 1), Err(Refusal::Invalid));
    assert_eq!(fresh.begin(ABSENT, Edition::Newer), Err(Refusal::NoSegment));

    let mut memory = host.begin_empty();
    assert_eq!(memory.load(slot(0), 3), Err(Refusal::BadRequest));
    assert_eq!(memory.load_span(slot(0), &mut []), Err(Refusal::BadRequest));
    assert_eq!(memory.load_u8(Address(1 << 48)), Err(Refusal::OutOfRange));
    assert_eq!(memory.load_u64(slot(6_000)), Err(Refusal::Absent { distance: 0 }));
    assert_eq!(memory.load_u8(Address(0)), Err(Refusal::NoSegment));
    assert_eq!(memory.load_u8(Address::data(SLOTS + 1, 0).unwrap()), Err(Refusal::NoSegment));
    assert_eq!(memory.load_u64(slot(4_093)), Err(Refusal::Misaligned));
    assert_eq!(memory.load_span(slot(4_093), &mut [0; 8]), Err(Refusal::CrossesPage));
    assert_eq!(memory.store_u8(slot(0), 1), Err(Refusal::OutOfFrames));
    for account in [FOREIGN, READ_ONLY] {
        assert_eq!(memory.store_u8(Address::data(account, 0).unwrap(), 1), Err(Refusal::NotPermitted));
    }
    assert_eq!(memory.fetch(slot(0), 4), Err(Refusal::NotPermitted));
}

#[test]
fn refusals_of_other_calls() {
    let mut host = Host::new(1);
    let mut memory = host.begin();
    assert_eq!(memory.return_from(&mut [0; 256]), Err(Refusal::CallDepth));
    assert_eq!(memory.call(SLOTS + 1, &[0; 256]), Err(Refusal::NoSegment));
    for _ in 1..16 {
        memory.call(CALLEE, &[0; 256]).unwrap();
    }
    assert_eq!(memory.call(CALLEE, &[0; 256]), Err(Refusal::CallDepth));
    assert_eq!(memory.resize(Region::Stack, 4_097), Err(Refusal::RegionTooLarge));
    assert_eq!(memory.resize(Region::Stack, 2), Err(Refusal::OutOfFrames));
    assert_eq!(memory.change_list(&mut [0; 15]), Err(Refusal::OutputTooShort));
    assert_eq!(memory.page_view(SLOTS, 2), Err(Refusal::Absent { distance: 0 }));
    assert_eq!(memory.page_view(ABSENT, 0), Err(Refusal::Absent { distance: 0 }));
    assert_eq!(apply(&[], 0, &mut []), Err(Refusal::BadChangeList));
}

#[test]
fn refusals_have_their_numbers() {
    let numbers = Refusal::ALL.map(Refusal::number);
    assert_eq!(numbers, [1, 2, 3, 4, 5, 6, 7, 8, 9, 10, 11, 12, 13, 14]);
    assert_eq!(numbers.map(Refusal::from_number), Refusal::ALL.map(Some));
    assert_eq!([0, 15, 255].map(Refusal::from_number), [None; 3]);
    assert_eq!(Refusal::CrossesPage.to_string(), "the access crosses a page boundary (refusal 6)");
    let absent = Refusal::Absent { distance: 5 };
    assert_eq!(absent.number(), 13);
    assert_eq!(absent.to_string(), "byte 5 of the access is past the end (refusal 13)");
    assert_eq!(absent.explain(8), "byte 5 of 8 is past the end");
    assert_eq!(Refusal::CrossesPage.explain(8), "the access crosses a page boundary");
    assert_eq!(Refusal::BadRecord.to_string(), "the returned value's discriminant is neither 0 nor 1 (refusal 14)");
}

#[test]
fn a_refused_call_changes_nothing() {
    let mut host = Host::new(2);
    let mut memory = host.begin();
    memory.store_u8(slot(0), 1).unwrap();
    let before = (memory.buffers().1.to_vec(), memory.buffers().2.to_vec());
    assert_eq!(memory.store_span(slot(0x1000), &[3; 4]), Err(Refusal::OutOfFrames));
    let (snapshot, control, pool) = memory.into_buffers();
    assert_eq!((control.to_vec(), pool.to_vec()), before);
    // Lent again, the buffers still hold the first store.
    assert_eq!(Memory::new(snapshot, control, pool).load_u8(slot(0)), Ok(1));
}

#[test]
fn a_page_view_moves_from_the_snapshot_to_the_pool() {
    let mut host = Host::new(4);
    let mut memory = host.begin();
    let (snapshot, ..) = memory.buffers();
    let data = account_data(snapshot, SLOTS).unwrap();
    assert_eq!(memory.page_view(SLOTS, 1).unwrap().as_ptr_range(), data[4096..].as_ptr_range());
    let end = snapshot.len();
    assert_eq!(memory.page_place(SLOTS, 1), Ok(PagePlace::Snapshot(end - 1_904..end)));

    memory.store_u16(slot(0x1004), 0x2211).unwrap();
    let (.., pool) = memory.buffers();
    let view = memory.page_view(SLOTS, 1).unwrap();
    assert_eq!(view.as_ptr_range(), pool[3 * 4_096..][..1_904].as_ptr_range());
    assert_eq!(view[4..6], [0x11, 0x22]);
    assert_eq!(memory.page_place(SLOTS, 1), Ok(PagePlace::Pool(12_288..14_192)));
}

#[test]
fn translation_names_the_place_of_every_segment() {
    let mut host = Host::new(4);
    let memory = host.begin();
    let place = |kind, address: Result<Address, Refusal>| memory.translate(kind, address.unwrap(), 1).unwrap();
    let contexts = 32 + 80 * 6;
    assert_eq!(place(Kind::Load, Address::metadata(SLOTS, 1)), Place::Snapshot { at: 32 + 80 * 5 + 16 + 1 });
    assert_eq!(place(Kind::Load, Address::metadata(ABSENT, 1)), Place::Zeros);
    assert_eq!(place(Kind::Load, Address::block_context(0, 2)), Place::Snapshot { at: contexts + 2 });
    assert_eq!(place(Kind::LoadSpan, Address::transaction(3)), Place::Snapshot { at: contexts + 120 + 3 });
    assert_eq!(place(Kind::Fetch, Address::program(1)), Place::Snapshot { at: contexts + 120 + 11 + 1 });
    assert_eq!(place(Kind::Load, Address::shadow(264)), Place::Control { at: 24 + 264 });
    assert_eq!(place(Kind::Store, Address::stack(0xFFF001)), Place::Pool { at: 1 });
    assert_eq!(place(Kind::StoreSpan, Ok(slot(5))), Place::Take { at: 3 * 4_096 + 5, frame: 3, account: SLOTS, page: 0 });
}

#[test]
fn call_and_return_hand_the_registers_on() {
    let mut host = Host::new(4);
    let mut memory = host.begin();
    memory.resize(Region::Heap, 1).unwrap();
    let registers: Registers = std::array::from_fn(|i| i as u8);
    memory.call(CALLEE, &registers).unwrap();

    let heap = Address::heap(0).unwrap();
    assert_eq!(memory.store_u8(heap, 1), Err(Refusal::NotPermitted));
    assert_eq!(memory.store_u8(slot(0), 1), Err(Refusal::NotPermitted));
    assert_eq!(memory.resize(Region::Heap, 0), Err(Refusal::NotPermitted));
    memory.resize(Region::Heap, 2).unwrap();
    memory.store_u32(heap.offset_by(4096).unwrap(), 7).unwrap();
    memory.store_u8(Address::data(FOREIGN, 3).unwrap(), 7).unwrap();

    let mut returned = [0; 256];
    memory.return_from(&mut returned).unwrap();
    assert_eq!(returned, registers);
    assert_eq!(memory.load_u32(heap.offset_by(4096).unwrap()), Ok(7));
    assert_eq!(memory.load_u32(Address::data(FOREIGN, 0).unwrap()), Ok(0x0701_0101));
    memory.store_u8(heap, 1).unwrap();
}

#[test]
fn spans_and_numbers_read_the_same_bytes() {
    let mut host = Host::new(2);
    let mut memory = host.begin();
    memory.store_span(slot(0x103), &[1, 2, 3, 4, 5]).unwrap();
    memory.store_u64(slot(0x108), 0x0F0E_0D0C_0B0A_0908).unwrap();
    let mut out = [0; 13];
    memory.load_span(slot(0x103), &mut out).unwrap();
    assert_eq!(out, [1, 2, 3, 4, 5, 8, 9, 10, 11, 12, 13, 14, 15]);
    assert_eq!(memory.load_u16(slot(0x106)), Ok(0x0504));
    assert_eq!(memory.load_u32(slot(0x104)), Ok(0x0504_0302));
    assert_eq!(memory.load(slot(0x108), 2), Ok(0x0908));
}

#[test]
fn addresses_split_and_join() {
    assert_eq!(Address(0x0300_0500_0800).fields(), Ok(Fields { segment: 3, index: 5, offset: 0x800 }));
    assert_eq!(Address::transaction(0x40), Ok(Address(0x0000_0100_0040)));
    assert_eq!(Address::block_context(0x1FF, 0x70), Ok(Address(0x0000_041F_F070)));
    assert_eq!(Address::block_context(0, 4_096), Err(Refusal::OutOfRange));
    assert_eq!(Address::block_context(4_096, 0), Err(Refusal::OutOfRange));
    assert_eq!(slot(0xFF_FFFF).offset_by(1), Err(Refusal::OutOfRange));
    assert_eq!(slot(1).offset_by(u32::MAX), Err(Refusal::OutOfRange));
    use Segment::*;
    for segment in [Transaction, ShadowStack, Program, BlockContexts, Metadata(7), Data(0xFFFF), Stack, Heap] {
        assert_eq!(segment.at(0xFF_FFFF).unwrap().segment(), Ok(segment));
    }
    for (segment, index) in [(0, 0), (0, 5), (1, 0), (4, 0), (5, 1), (6, 0), (7, 1), (8, 0)] {
        assert_eq!(Address::join(segment, index, 0).unwrap().segment(), Err(Refusal::NoSegment));
    }
}

#[test]
fn a_built_snapshot_gives_back_its_parts() {
    let mut host = Host::new(0);
    let slots = host.slots.clone();
    let memory = host.begin_empty();
    let (snapshot, ..) = memory.buffers();
    assert_eq!(account_data(snapshot, SLOTS), Some(&slots[..]));
    assert_eq!(account_data(snapshot, ABSENT), Some(&[][..]));
    assert_eq!(account_data(snapshot, SLOTS + 1), None);
    assert_eq!(account_data(&snapshot[..snapshot.len() - 1], SLOTS), None);
    assert_eq!(account_data(&[], 0), None);

    let mut transaction = [0; 11];
    memory.load_span(Address::transaction(0).unwrap(), &mut transaction).unwrap();
    assert_eq!(&transaction, b"transaction");
    assert_eq!(memory.load_u64(Address::block_context(0, 0x70).unwrap()), Ok(0x0909_0909_0909_0909));
    assert_eq!(memory.load_u8(Address::block_context(0, 0x78).unwrap()), Err(Refusal::Absent { distance: 0 }));
    assert_eq!(memory.load_u8(Address::metadata(SLOTS, 63).unwrap()), Ok(5));
    assert_eq!(memory.fetch(Address::program(0).unwrap(), 4), Ok(0x13));
}

#[test]
fn the_fields_of_the_formats_are_those_of_the_calls() {
    use inspect::*;
    let mut host = Host::new(4);
    let mut memory = host.begin();
    let mut registers = [0; 256];
    registers[8] = 0x77;
    memory.call(CALLEE, &registers).unwrap();
    memory.resize(Region::Heap, 1).unwrap();
    memory.store_u8(Address::data(FOREIGN, 3).unwrap(), 0x11).unwrap();
    let mut list = vec![0; change_list_len(4)];
    memory.change_list(&mut list).unwrap();
    let Host { snapshot, control, .. } = host;

    assert_eq!(
        SnapshotHeader::read(&snapshot).map(|header| (header.accounts, header.contexts, header.total as usize)),
        Some((6, 1, snapshot.len()))
    );
    let entry = AccountEntry::read(&snapshot, SLOTS).unwrap();
    assert_eq!((entry.exists(), entry.writable(), entry.owner, entry.length, entry.zero), (true, true, PROGRAM, 6_000, 0));
    assert_eq!(AccountEntry::read(&snapshot, 6), None);
    let header = ControlHeader { frames: 4, invocations: 2, shadow_at: 24, table_at: 4_512, edition: 2, zero: 0 };
    assert_eq!(ControlHeader::read(&control), Some(header));
    let current = Invocation::read(&control, 2).unwrap();
    assert_eq!((current.program, current.stack, current.heap, current.registers[1]), (CALLEE, 1, 1, 0x77));
    let entry = |usage, tag, account, page, depth| FrameEntry { usage, tag, account, page, depth };
    let entries = [entry(2, 0, 0, 4_095, 0), entry(3, 1, 0, 0, 0), entry(0, 0, 0, 0, 0), entry(1, 0, FOREIGN, 0, 1)];
    assert!(frame_entries(&control).eq(entries));
    assert_eq!(ListHeader::read(&list), Some(ListHeader { pages: 1, entries_at: 16, pages_at: 28, total: 4_124 }));
    assert_eq!(ListEntry::read(&list, 0), Some(ListEntry { account: FOREIGN, page: 0, live: 8, depth: 1, zero: 0 }));
    assert_eq!((ListHeader::read(&list[..15]), ControlHeader::read(&[]), Invocation::read(&control, usize::MAX)), (None, None, None));
}

#[test]
fn the_builder_names_the_limit_exceeded() {
    let mut builder = SnapshotBuilder::new();
    builder.transaction(vec![0; 65_536]);
    (0..512).for_each(|number| assert_eq!(builder.block_context(&[0; 120]), number));
    builder.account(Account::program(vec![0; 1 << 24]));
    (1..64).for_each(|number| assert_eq!(builder.account(Account::absent()), number));
    let snapshot = builder.build().unwrap();
    let (mut control, mut pool) = (vec![0; control_len(1_024)], vec![0; pool_len(1_024)]);
    // At all limits at once the library still accepts.
    Memory::new(&snapshot, &mut control, &mut pool).begin(0, Edition::Newer).unwrap();

    let mut long = builder.clone();
    long.transaction(vec![0; 65_537]);
    assert_eq!(long.build(), Err(BuildError::TransactionTooLong(65_537)));
    builder.block_context(&[0; 120]);
    assert_eq!(builder.build(), Err(BuildError::TooManyBlockContexts(513)));
    builder.account(Account::absent());
    assert_eq!(builder.build(), Err(BuildError::TooManyAccounts(65)));
    let mut large = SnapshotBuilder::new();
    large.account(Account::absent());
    large.account(Account::data(0, vec![0; (1 << 24) + 1]));
    assert_eq!(large.build(), Err(BuildError::DataTooLong { account: 1, length: (1 << 24) + 1 }));
}

/// A list of up to three pages of accounts 0 and 1, most of them close to valid.
fn near_list(random: &mut Random) -> Vec<u8> {
    let count = random.below(4) as u32;
    let words = [LIST_HEADER as u32, LIST_HEADER as u32 + LIST_ENTRY as u32 * count, change_list_len(count as usize) as u32];
    let mut bytes: Vec<u8> = [count].into_iter().chain(words).flat_map(u32::to_le_bytes).collect();
    for _ in 0..count {
        bytes.extend([random.below(2) as u8, 0, random.below(4) as u8, 0]);
        bytes.extend((random.below(4_098) as u32).to_le_bytes());
        // Any depth, and behind it mostly 0.
        let zero = if random.below(8) == 0 { 1 << random.below(16) } else { 0 };
        bytes.extend([random.below(1 << 16) as u16, zero].map(u16::to_le_bytes).concat());
    }
    bytes.resize(change_list_len(count as usize) + random.below(3) as usize, 0xAB);
    if random.below(4) == 0 {
        let at = random.below(16) as usize;
        bytes[at] ^= 1 << random.below(8);
    }
    bytes
}

#[test]
fn a_count_that_overflows_32_bits_is_refused() {
    let bytes: Vec<u8> = [1 << 30, 16, 16, 16].into_iter().flat_map(u32::to_le_bytes).collect();
    assert_eq!(ChangeList::parse(&bytes), Err(Refusal::BadChangeList));
    assert_eq!(apply(&bytes, 0, &mut []), Err(Refusal::BadChangeList));
}

#[test]
fn parsing_agrees_with_the_library_on_any_bytes() {
    let mut random = Random(0x9E37_79B9_7F4A_7C15);
    let mut accepted = 0;
    for round in 0..4_000 {
        let noise = random.below(64);
        let bytes = if round % 4 == 0 { (0..noise).map(|_| random.below(256) as u8).collect() } else { near_list(&mut random) };
        let list = ChangeList::parse(&bytes);
        // For an account that no entry names, applying tests nothing but the list itself.
        assert_eq!(list.map(|_| ()), apply(&bytes, 2, &mut []));
        for change in list.iter().flat_map(ChangeList::entries) {
            assert!((1..=PAGE).contains(&change.live.len()));
        }
        accepted += u32::from(list.is_ok());
    }
    assert!(accepted > 100, "too few lists were valid: {accepted}");
}
