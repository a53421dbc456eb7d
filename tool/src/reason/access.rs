//! Why an access was refused.

use super::segment::{extent, name};
use super::{buffers, entry, no_account, no_frame, shallower_page};
use crate::edition;
use crate::text::count;
use crate::world::World;
use hekthumar::layout::PAGE;
use hekthumar::{Address, Fields, Kind, Refusal, Region, Segment};

/// An access that was asked for.
#[derive(Clone, Copy)]
pub struct Access {
    pub kind: Kind,
    pub address: Address,
    pub length: usize,
}

/// The reason behind the number.
pub fn why(world: World, access: Access, refusal: Refusal) -> Option<String> {
    match refusal {
        Refusal::Invalid => buffers(world).or_else(|| not_valid(world, access)),
        Refusal::BadRequest => Some(lengths(access)),
        Refusal::OutOfRange => upper_bits(access.address),
        Refusal::NoSegment => no_segment(world, access.address),
        Refusal::Misaligned => Some(format!("offset {:#x} is not a multiple of {}", offset(access)?, access.length)),
        Refusal::CrossesPage => crossed(access),
        Refusal::NotPermitted => forbidden(world, access),
        Refusal::OutOfFrames => no_free_frame(world, access),
        Refusal::Absent { .. } => absent(world, access, refusal),
        _ => None,
    }
}

fn offset(access: Access) -> Option<usize> {
    access.address.fields().ok().map(|fields| fields.offset as usize)
}

fn lengths(access: Access) -> String {
    let length = count(access.length as u64, "byte");
    match access.kind {
        Kind::LoadSpan | Kind::StoreSpan => format!("a span has 1 to {PAGE} bytes, not {length}"),
        Kind::Load | Kind::Store | Kind::Fetch => format!("a load, a store or a fetch has 1, 2, 4 or 8 bytes, not {length}"),
    }
}

fn upper_bits(address: Address) -> Option<String> {
    let bits = address.0 >> 48;
    (bits != 0).then(|| format!("an address has 48 bits; those above are {bits:#x}"))
}

/// How far the access came, and where the segment ends.
fn absent(world: World, access: Access, refusal: Refusal) -> Option<String> {
    let segment = access.address.segment().ok()?;
    Some(format!("{}: {}", refusal.explain(access.length), extent(world, segment)))
}

fn no_segment(world: World, address: Address) -> Option<String> {
    let Fields { segment, index, .. } = address.fields().ok()?;
    match address.segment() {
        Ok(Segment::Data(account) | Segment::Metadata(account)) => no_account(world, account),
        Ok(Segment::Program) => edition::no_program(world),
        _ => Some(format!("no segment has type {segment} and index {index}")),
    }
}

/// The account's entry, or the page of the stack or the heap.
fn not_valid(world: World, access: Access) -> Option<String> {
    let page = offset(access)? / PAGE;
    match access.address.segment().ok()? {
        Segment::Data(account) | Segment::Metadata(account) => entry(world, account),
        Segment::Program => entry(world, world.current()?.program),
        Segment::Stack => no_frame(world, Region::Stack, page),
        Segment::Heap => no_frame(world, Region::Heap, page),
        _ => None,
    }
}

fn crossed(access: Access) -> Option<String> {
    let offset = offset(access)?;
    let next = (offset / PAGE + 1) * PAGE;
    Some(format!("the next page begins at offset {next:#x}, after {} of {}", next - offset, count(access.length as u64, "byte")))
}

fn forbidden(world: World, access: Access) -> Option<String> {
    let segment = access.address.segment().ok()?;
    let page = offset(access)? / PAGE;
    match segment {
        _ if access.kind == Kind::Fetch => Some(format!("{}; this is {}", edition::fetched(world)?, name(segment))),
        Segment::Data(account) => not_writable(world, account),
        Segment::Stack => shallower_page(world, Region::Stack, page),
        Segment::Heap => shallower_page(world, Region::Heap, page),
        _ => Some(format!("{} is never stored to", name(segment))),
    }
}

/// Everything that keeps the current program from storing to an account.
fn not_writable(world: World, account: u16) -> Option<String> {
    let (entry, program) = (world.account(account)?, world.current()?.program);
    if !entry.exists() {
        return Some(format!("account {account} does not exist"));
    }
    let flag = (!entry.writable()).then(|| format!("account {account} is not writable"));
    let owned = format!("account {account} is owned by account {}, and the current program is account {program}", entry.owner);
    let owner = (entry.owner != program).then_some(owned);
    let reasons: Vec<String> = flag.into_iter().chain(owner).collect();
    Some(reasons.join("; "))
}

fn no_free_frame(world: World, access: Access) -> Option<String> {
    let (page, frames) = (offset(access)? / PAGE, count(world.frames() as u64, "frame"));
    match access.address.segment().ok()? {
        Segment::Data(account) => Some(format!("page {page} of account {account} has no copy, and of {frames} none is free")),
        _ => None,
    }
}
