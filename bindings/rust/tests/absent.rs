//! A byte that is not present: how far each access comes before it in every segment, and that nothing else has a distance.

mod common;

use common::Host;
use hekthumar::sys::{self, Outcome, Value};
use hekthumar::*;

// The C interface with slices.
#[allow(dead_code)]
#[path = "../benches/compare/library.rs"]
mod library;

const PROGRAM: u16 = 0;
const SLOTS: u16 = 1;
const NOBODY: u16 = 2;

impl Host {
    /// A program of 6 bytes, 5,005 bytes of data, a transaction of 11 bytes, two block contexts; one page each of stack and heap, unless
    /// there is no frame.
    fn new(frames: usize) -> Host {
        let mut builder = SnapshotBuilder::new();
        builder.transaction(*b"transaction");
        builder.block_context(&[8; 120]);
        builder.block_context(&[9; 120]);
        builder.account(Account::program([0x13, 0, 0, 0, 1, 2]));
        builder.account(Account::data(PROGRAM, [7; 5_005]).writable());
        builder.account(Account::absent());
        let mut host = Host::filled(builder, frames, 0);
        let mut memory = host.memory();
        let pages = frames.min(1);
        memory.begin_with_pages(PROGRAM, Edition::Newer, pages).unwrap();
        memory.resize(Region::Heap, pages).unwrap();
        host
    }
}

fn slot(offset: u32) -> Address {
    Address::data(SLOTS, offset).unwrap()
}

/// A place past which some bytes of a span of `length` are absent, `distance` of them being there before.
struct Edge {
    address: Address,
    length: usize,
    distance: u16,
}

fn edge(address: Result<Address, Refusal>, length: usize, distance: u16) -> Edge {
    Edge { address: address.unwrap(), length, distance }
}

/// Edges of every segment whose end can lie within an access.
fn inner_edges() -> Vec<Edge> {
    vec![
        edge(Address::transaction(8), 8, 3),
        edge(Address::transaction(0), 4_096, 11),
        edge(Address::shadow(4_480), 9, 8),
        edge(Address::program(0), 8, 6),
        edge(Address::program(4), 4, 2),
        edge(Address::block_context(0, 112), 100, 8),
        edge(Address::block_context(1, 119), 3, 1),
        edge(Address::metadata(SLOTS, 60), 5, 4),
        edge(Address::metadata(NOBODY, 1), 64, 63),
        edge(Ok(slot(5_000)), 8, 5),
        edge(Ok(slot(4_096)), 4_096, 909),
    ]
}

/// Accesses whose first byte is absent.
fn outer_edges() -> Vec<Edge> {
    vec![
        edge(Address::transaction(16), 8, 0),
        edge(Address::shadow(4_488), 8, 0),
        edge(Address::program(8), 4, 0),
        edge(Address::block_context(0, 120), 8, 0),
        edge(Address::block_context(2, 0), 8, 0),
        edge(Address::metadata(SLOTS, 64), 8, 0),
        edge(Ok(slot(5_008)), 8, 0),
        edge(Ok(slot(0xFF_F000)), 4_096, 0),
        edge(Address::data(NOBODY, 0), 1, 0),
        edge(Address::stack(0xFF_E000), 4_096, 0),
        edge(Address::stack(0xFF_EFF8), 8, 0),
        edge(Address::heap(4_096), 8, 0),
        edge(Address::heap(0xFF_FFFF), 1, 0),
    ]
}

fn edges() -> Vec<Edge> {
    inner_edges().into_iter().chain(outer_edges()).collect()
}

/// Whether a load, a store or a fetch can have this place and length.
fn is_sized(edge: &Edge) -> bool {
    matches!(edge.length, 1 | 2 | 4 | 8) && edge.address.0.is_multiple_of(edge.length as u64)
}

/// What a kind of access answers. A refused one gives no byte.
fn asked(memory: &mut Memory, kind: Kind, address: Address, length: usize) -> Result<(), Refusal> {
    let mut out = vec![0xEE; length];
    let answer = match kind {
        Kind::Load => memory.load(address, length).map(drop),
        Kind::Fetch => memory.fetch(address, length).map(drop),
        Kind::Store => memory.store(address, length, u64::MAX),
        Kind::LoadSpan => memory.load_span(address, &mut out),
        Kind::StoreSpan => memory.store_span(address, &vec![1; length]),
    };
    assert!(answer.is_ok() || out.iter().all(|&byte| byte == 0xEE));
    answer
}

#[test]
fn an_access_says_how_far_it_came() {
    let mut host = Host::new(4);
    for edge in edges() {
        let Edge { address, length, distance } = edge;
        let mut kinds = vec![Kind::LoadSpan];
        let segment = address.segment().unwrap();
        kinds.extend(is_sized(&edge).then_some(Kind::Load));
        kinds.extend((is_sized(&edge) && segment == Segment::Program).then_some(Kind::Fetch));
        if matches!(segment, Segment::Data(SLOTS) | Segment::Stack | Segment::Heap) {
            kinds.push(Kind::StoreSpan);
            kinds.extend(is_sized(&edge).then_some(Kind::Store));
        }
        let before = (host.control.clone(), host.pool.clone());
        for kind in kinds {
            let absent = Refusal::Absent { distance };
            assert_eq!(asked(&mut host.memory(), kind, address, length), Err(absent), "{kind:?} of {length} at {address}");
            assert_eq!(host.memory().translate(kind, address, length), Err(absent), "{kind:?} of {length} at {address}");
        }
        assert!(before == (host.control.clone(), host.pool.clone()));
    }
}

#[test]
fn the_bytes_before_the_distance_are_there_and_the_next_is_not() {
    let mut host = Host::new(4);
    for Edge { address, distance, .. } in inner_edges() {
        let length = usize::from(distance);
        assert_eq!(asked(&mut host.memory(), Kind::LoadSpan, address, length), Ok(()));
        assert_eq!(asked(&mut host.memory(), Kind::LoadSpan, address, length + 1), Err(Refusal::Absent { distance }));
    }
}

#[test]
fn a_copy_ends_where_the_data_ends() {
    let mut host = Host::new(4);
    let mut memory = host.memory();
    memory.store_u8(slot(5_004), 1).unwrap();
    assert_eq!(memory.load_u64(slot(5_000)), Err(Refusal::Absent { distance: 5 }));
    assert_eq!(memory.store_u64(slot(5_000), 1), Err(Refusal::Absent { distance: 5 }));
    assert_eq!(memory.store_span(slot(5_003), &[1; 4]), Err(Refusal::Absent { distance: 2 }));
}

#[test]
fn a_page_without_live_bytes_has_no_view() {
    let mut host = Host::new(4);
    let absent = Refusal::Absent { distance: 0 };
    assert_eq!(host.memory().page_view(SLOTS, 2), Err(absent));
    assert_eq!(host.memory().page_view(SLOTS, u16::MAX), Err(absent));
    assert_eq!(host.memory().page_view(NOBODY, 0), Err(absent));
    let Host { snapshot, control, pool } = &host;
    assert_eq!(library::page_view(snapshot, control, pool, SLOTS, 2), sys::View { start: 0, length: 0, holder: 0, number: 13 });
}

#[test]
fn a_translation_gives_the_distance_in_at() {
    let Host { snapshot, control, pool } = Host::new(4);
    for Edge { address, length, distance } in edges() {
        let place = library::translate(&snapshot, &control, &pool, Kind::LoadSpan as u8, address.0, length);
        let refused = sys::Place { at: distance.into(), frame: 0, account: 0, page: 0, place: 0, number: 13 };
        assert_eq!(place, refused, "{length} at {address}");
    }
}

/// Every access of the C interface, each with its answer's distance and number; the value of a refused one is 0.
fn outcomes(host: &mut Host, address: u64, length: usize) -> Vec<Outcome> {
    let Host { snapshot, control, pool } = host;
    let value = |Value { value, distance, number }| {
        assert!(number == 0 || value == 0);
        Outcome { distance, number }
    };
    let mut outcomes = vec![
        value(library::load(snapshot, control, pool, address, length)),
        value(library::fetch(snapshot, control, pool, address, length)),
        library::load_span(snapshot, control, pool, address, &mut vec![0; length]),
    ];
    for kind in 0..=5 {
        let place = library::translate(snapshot, control, pool, kind, address, length);
        assert!(place.number == 0 || place.number == 13 || place == sys::Place { number: place.number, ..NOWHERE });
    }
    outcomes.push(library::store(snapshot, control, pool, address, length, 1));
    outcomes.push(library::store_span(snapshot, control, pool, address, &vec![1; length]));
    outcomes
}

const NOWHERE: sys::Place = sys::Place { at: 0, frame: 0, account: 0, page: 0, place: 0, number: 0 };

#[test]
fn no_other_answer_has_a_distance() {
    let spoiled = |mut host: Host| {
        host.control[4] = 0;
        host
    };
    // By number: buffers, place and length for which some access is told it; the place lies on or past an end wherever it can.
    let edge = slot(5_000).0;
    let told = [
        (0, Host::new(4), slot(8).0, 8),
        (1, spoiled(Host::new(4)), edge, 8),
        (2, Host::new(4), edge, 0),
        (2, Host::new(4), edge, 4_097),
        (3, Host::new(4), edge | 1 << 48, 8),
        (4, Host::new(4), 0, 8),
        (4, Host::new(4), Address::data(3, 5_000).unwrap().0, 8),
        (5, Host::new(4), slot(5_001).0, 8),
        (6, Host::new(4), slot(8_190).0, 8),
        (7, Host::new(4), Address::transaction(8).unwrap().0, 8),
        (8, Host::new(0), slot(0).0, 8),
    ];
    for (number, mut host, address, length) in told {
        let outcomes = outcomes(&mut host, address, length);
        assert!(outcomes.iter().any(|outcome| outcome.number == number), "{number} is not among {outcomes:?}");
        assert!(outcomes.iter().all(|outcome| outcome.number == 13 || outcome.distance == 0), "{number}: {outcomes:?}");
    }
}
