//! Generation of calls, biased towards the edges of every rule. It looks at the buffers to find those edges.

use std::ops::Range;

use crate::bytes::*;
use crate::interface::{Bytes, Call, World, KINDS, NAMES};
use crate::lists;
use crate::model::snapshot::{Entry, Header};
use crate::random::Random;
use crate::record_calls;
use crate::world::{Size, LENGTHS};

/// What a history is rich in.
pub struct Weights {
    /// How often each kind of call comes, in the order of `NAMES`.
    kinds: [usize; KINDS],
    /// How often a store goes to each row of the table of segments.
    pub stores: [usize; ROWS],
    small_resizes: bool,
}

impl Weights {
    pub fn new(random: &Random, size: Size) -> Weights {
        match size {
            Size::Nested => return Weights::nested(),
            Size::Deep => return Weights::deep(),
            _ => {}
        }
        // Each history favours one kind, so that some go deep, some grow, some fill the pool.
        let mut kinds = KIND_WEIGHTS;
        let favoured = random.below(KINDS);
        // A begin undoes all that came before it, so it stays rare.
        kinds[favoured] *= if NAMES[favoured].starts_with("begin") { 3 } else { 5 };
        Weights { kinds, stores: STORE_ROWS, small_resizes: false }
    }

    /// Calls, returns and resizes outweigh the rest, so that the heap gets pages at several depths, which outlive their invocations.
    fn nested() -> Weights {
        let kinds = weighted(&[("call", 15), ("return", 15), ("resize", 15)]);
        Weights { kinds, stores: HEAP_ROWS, small_resizes: true }
    }

    /// Calls outweigh returns, so that pages are first stored to at every depth, and lists come often enough to name them.
    fn deep() -> Weights {
        let kinds = weighted(&[("call", 10), ("return", 4), ("change_list", 3)]);
        Weights { kinds, stores: STORE_ROWS, small_resizes: true }
    }
}

/// The weights of the kinds, those of some names so many times as large.
fn weighted(factors: &[(&str, usize)]) -> [usize; KINDS] {
    let factor = |name: &str| factors.iter().find(|(of, _)| *of == name).map_or(1, |(_, factor)| *factor);
    std::array::from_fn(|kind| KIND_WEIGHTS[kind] * factor(NAMES[kind]))
}

/// In the order of `NAMES`.
const KIND_WEIGHTS: [usize; KINDS] = [1, 1, 1, 1, 14, 12, 5, 16, 8, 10, 6, 4, 14, 4, 5, 6, 2, 2, 2, 2, 3, 2, 2, 2, 2, 5];

pub fn generate(random: &Random, world: &World, weights: &Weights) -> Call {
    match NAMES[random.weighted(&weights.kinds)] {
        "join" => Call::Join { segment: random.next() as u8, index: random.next() as u16, offset: wide_offset(random) },
        "split" => Call::Split { address: random.next() >> random.choose(&[0, 15, 16, 17, 24]) },
        "begin" => Call::Begin { program: program(random, world), edition: edition(random) },
        "begin_pages" => Call::BeginPages { program: program(random, world), edition: edition(random), pages: stack_pages(random) },
        "translate" => translate(random, world, &weights.stores),
        "load" => {
            let size = size(random);
            Call::Load { address: address(random, world, size, &ANY_ROW), size }
        }
        "fetch" => {
            let size = size(random);
            Call::Fetch { address: address(random, world, size, fetch_rows(world)), size }
        }
        "store" => {
            let (size, value) = (size(random), random.next());
            let value = random.choose(&[value, value, value, 0, u64::MAX]);
            Call::Store { address: address(random, world, size, &weights.stores), size, value }
        }
        "load_span" => {
            let (address, length) = span(random, world, &ANY_ROW);
            Call::LoadSpan { address, out: Bytes(random.bytes(length)) }
        }
        "store_span" => {
            let (address, length) = span(random, world, &weights.stores);
            let bytes = if random.chance(30) { vec![0; length] } else { random.bytes(length) };
            Call::StoreSpan { address, bytes: Bytes(bytes) }
        }
        "call" => Call::Invoke { program: program(random, world), registers: registers(random) },
        "return" => Call::Return { registers: registers(random) },
        "resize" if weights.small_resizes && random.chance(80) => small_resize(random, world),
        "resize" => resize(random, world),
        "change_list" => change_list(random, world),
        "apply" => apply(random, world),
        "page_view" => page_view(random, world),
        name => record_calls::generate(random, world, name, &weights.stores),
    }
}

/// A begin that is accepted if any is; without a frame that is the one with no pages.
pub fn good_begin(random: &Random, world: &World) -> Call {
    let accepted = |header: Header, program: u16| Entry::read(&world.snapshot, &header, program, None).is_some_and(|entry| entry.exists);
    let program = Header::read(&world.snapshot).and_then(|header| (0..header.accounts as u16).find(|&program| accepted(header, program)));
    let (program, edition) = (program.unwrap_or(0), random.choose(&EDITIONS));
    match random.below(3) {
        0 if world.frames() > 0 => Call::Begin { program, edition },
        1 if world.frames() > 0 => Call::BeginPages { program, edition, pages: 1 },
        _ => Call::BeginPages { program, edition, pages: 0 },
    }
}

fn wide_offset(random: &Random) -> u32 {
    let drawn = random.next() as u32;
    random.choose(&[0, 0xFF_FFFF, 0x100_0000, drawn, drawn & 0xFF_FFFF])
}

fn program(random: &Random, world: &World) -> u16 {
    let any = random.below(world.accounts().max(1));
    let own = world.program();
    random.choose(&[0, 1, own, own, any, any, any, any, any, random.choose(&[world.accounts(), 0x100, 0xFFFF])]) as u16
}

/// Numbers of pages that a begin refuses. The low bits of most are those of 0 or 1.
pub const WRONG_STACK_PAGES: [usize; 11] =
    [2, 3, 0x100, 0x101, 0x1_0000, 0x1_0001, 1 << 32, (1 << 32) + 1, 1 << 63, (1 << 63) + 1, usize::MAX];

fn stack_pages(random: &Random) -> usize {
    random.choose(&[0, 1, random.choose(&WRONG_STACK_PAGES)])
}

/// Editions that a begin refuses. The low bits of most are those of 1 or 2.
pub const WRONG_EDITIONS: [u32; 12] = [0, 3, 0xFF, 0x100, 0x101, 0x102, 0x1_0000, 0x1_0001, 0x1_0002, 0x8000_0001, 0x8000_0002, u32::MAX];

fn edition(random: &Random) -> u32 {
    random.choose(&[OLDER, OLDER, NEWER, NEWER, random.choose(&WRONG_EDITIONS)])
}

fn registers(random: &Random) -> Bytes {
    let length = if random.chance(92) { REGISTERS } else { random.choose(&[0, 1, 255, 257, 264]) };
    Bytes(random.bytes(length))
}

fn size(random: &Random) -> usize {
    if random.chance(95) {
        return random.choose(&[1, 2, 4, 8]);
    }
    random.choose(&[0, 3, 5, 9, 16, 4096, 5000, usize::MAX])
}

fn span(random: &Random, world: &World, rows: &[usize; ROWS]) -> (u64, usize) {
    let short = 1 + random.below(20);
    let long = 1 + random.below(PAGE);
    let length = random.choose(&[short, short, short, 8, long, 4095, 4096, random.choose(&[0, 4097, 4096, 5000])]);
    let address = address(random, world, 1, rows);
    let offset = address as usize % PAGE;
    if length > PAGE || random.chance(40) {
        return (address, length);
    }
    // Ends at the page's end, or starts at the page.
    if random.chance(50) {
        return (address, (PAGE - offset).min(length.max(1)));
    }
    (address - offset as u64, length)
}

fn translate(random: &Random, world: &World, stores: &[usize; ROWS]) -> Call {
    let kind = random.choose(&[0, 1, 1, 2, 3, 4, 4, random.choose(&[5, 6, 255, 1])]);
    let rows = [&ANY_ROW, stores, fetch_rows(world), &ANY_ROW, stores, &ANY_ROW][usize::from(kind).min(5)];
    if kind == 3 || kind == 4 {
        let (address, length) = span(random, world, rows);
        return Call::Translate { kind, address, length };
    }
    let length = size(random);
    Call::Translate { kind, address: address(random, world, length, rows), length }
}

fn joined(segment: u8, index: usize, offset: usize) -> u64 {
    u64::from(segment) << 40 | (index as u64 & 0xFFFF) << 24 | offset as u64 & 0xFF_FFFF
}

/// An offset inside what is present, or at or a few bytes from an edge of it; mostly aligned for the size.
pub fn near(random: &Random, present: Range<usize>, size: usize) -> usize {
    let inside = present.start + random.below(present.len().max(1));
    let last_page = present.end.saturating_sub(1) / PAGE * PAGE;
    let edge = random.choose(&[present.start, present.end, present.end, inside / PAGE * PAGE, last_page, MAX_DATA]);
    let away = random.choose(&[0, 1, 2, 4, 7, 8, 8, 9, 100, PAGE]);
    let beside = if random.chance(60) { edge.saturating_sub(away) } else { edge + away };
    let offset = if random.chance(55) { inside } else { beside.min(MAX_DATA - 1) };
    if size.is_power_of_two() && random.chance(85) {
        return offset / size * size;
    }
    offset
}

/// How often an address lies in each row of the table of segments; the last but one is no segment, mostly, and the last is account data
/// again, that of the current program.
pub const ROWS: usize = 10;
pub const ANY_ROW: [usize; ROWS] = [42, 13, 13, 4, 4, 4, 4, 7, 4, 4];
const STORE_ROWS: [usize; ROWS] = [54, 15, 15, 1, 1, 1, 1, 1, 1, 6];
/// For stores to the heap, mostly.
const HEAP_ROWS: [usize; ROWS] = [14, 15, 60, 1, 1, 1, 1, 1, 1, 2];
/// The older edition has the program in its account's data, the newer in 0/3.
const OLDER_FETCH_ROWS: [usize; ROWS] = [16, 4, 4, 2, 2, 6, 2, 3, 3, 60];
const NEWER_FETCH_ROWS: [usize; ROWS] = [8, 4, 4, 2, 2, 60, 2, 3, 3, 6];

fn fetch_rows(world: &World) -> &'static [usize; ROWS] {
    if world.edition() == OLDER {
        &OLDER_FETCH_ROWS
    } else {
        &NEWER_FETCH_ROWS
    }
}

/// An address in any row of the table, in no row, or with upper bits.
fn address(random: &Random, world: &World, size: usize, rows: &[usize; ROWS]) -> u64 {
    address_by(random, world, rows, |present| near(random, present, size))
}

/// As above, with the offset chosen by what is present.
pub fn address_by(random: &Random, world: &World, rows: &[usize; ROWS], offset: impl Fn(Range<usize>) -> usize) -> u64 {
    let (segment, index, present) = row(random, world, rows);
    let address = joined(segment, index, offset(present));
    if random.chance(2) {
        return address | 1 << (48 + random.below(16));
    }
    address
}

/// Type and index of an address in a row, and the offsets present there.
fn row(random: &Random, world: &World, rows: &[usize; ROWS]) -> (u8, usize, Range<usize>) {
    let (stack, heap) = (world.region_size(STACK), world.region_size(HEAP));
    let row = random.weighted(rows);
    let no_page = (row == 1 && stack == 0) || (row == 2 && heap == 0);
    match if no_page && random.chance(70) { 0 } else { row } {
        0 => {
            let account = account(random, world);
            (3, account, 0..world.data_length(account))
        }
        1 => (5, random.weighted(&[30, 1]), MAX_DATA.saturating_sub(PAGE * stack)..MAX_DATA),
        2 => (7, random.weighted(&[30, 1]), 0..PAGE * heap),
        3 => (0, 1, 0..world.transaction()),
        4 => (0, 2, random.choose(&[0, RECORD * world.live()])..TABLE_AT - RECORDS_AT),
        5 => (0, 3, 0..world.data_length(world.program())),
        6 => {
            let start = PAGE * random.below(world.contexts() + 1);
            (0, 4, start..start + CONTEXT)
        }
        7 => (2, random.below(world.accounts() + 1), 0..METADATA),
        9 => (3, world.program(), 0..world.data_length(world.program())),
        _ => (random.below(9) as u8, random.below(6), 0..MAX_DATA),
    }
}

/// Three times in four an account that the current program can store to, if there is one.
fn account(random: &Random, world: &World) -> usize {
    let accounts = world.accounts();
    let open: Vec<usize> = (0..accounts).filter(|&account| world.can_be_stored_to(account)).collect();
    if !open.is_empty() && random.chance(75) {
        return random.choose(&open);
    }
    let any = random.below(accounts.max(1));
    random.choose(&[any, any, any, any, any, any, accounts, random.choose(&[0x100 + any, 0xFFFF])])
}

fn resize(random: &Random, world: &World) -> Call {
    let region = if random.chance(96) { random.choose(&[STACK, HEAP]) } else { random.choose(&[0, 1, 4, 255]) };
    let size = world.region_size(region);
    let free = world.frames_used_as(FREE);
    let few = random.below(8);
    let pages = match random.below(16) {
        0..=4 => size + 1 + few / 4,
        5..=8 => size.saturating_sub(1 + few / 4),
        9 => size,
        10 => size + free,
        11 => size + free + 1,
        12 => random.choose(&[4096, 4097, 65_535, 65_536, 65_537, usize::MAX]),
        13 => 0,
        _ => few,
    };
    Call::Resize { region, pages }
}

/// Growth by one page, so that frames last for several depths, and shrinks by few pages, to the caller's size or to one below it.
fn small_resize(random: &Random, world: &World) -> Call {
    let region = random.choose(&[STACK, HEAP, HEAP, HEAP]);
    let size = world.region_size(region);
    let callers = world.region_size_in(world.live() - 1, region);
    let fewer = size.saturating_sub(1 + random.below(6));
    let pages = random.choose(&[size + 1, size + 1, size + 1, fewer, fewer, callers, callers.saturating_sub(1)]);
    Call::Resize { region, pages }
}

/// An output that is exact, short or long.
fn change_list(random: &Random, world: &World) -> Call {
    let total = LIST_HEADER + (LIST_ENTRY + PAGE) * world.frames_used_as(COPY);
    let length = random.choose(&[total, total, total + 1, total + 100, total - 1, random.below(total), 15, 0]);
    Call::ChangeList { out: Bytes(random.bytes(length)) }
}

fn apply(random: &Random, world: &World) -> Call {
    let account = random.choose(&[0, 1, random.below(world.accounts() + 1), 64, 0xFFFF]) as u16;
    // Apply sets no bound on the data's length: where the snapshot is that long, data also passes 2^24 bytes.
    let long = world.snapshot.len() > MAX_DATA && random.chance(50);
    let length = if long { MAX_DATA + random.choose(&[0, 1, 5000]) } else { random.choose(&LENGTHS) };
    let mut list = lists::good(random, account, length);
    if random.chance(60) {
        lists::spoil(random, &mut list, account, length);
    }
    Call::Apply { list: Bytes(list), account, data: Bytes(random.bytes(length)) }
}

fn page_view(random: &Random, world: &World) -> Call {
    let account = account(random, world);
    let pages = world.data_length(account).div_ceil(PAGE);
    let page = random.choose(&[0, pages.saturating_sub(1), random.below(pages + 1), pages, 0xFFFF]);
    Call::PageView { account: account as u16, page: page as u16 }
}
