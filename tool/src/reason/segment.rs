//! The segments in words: what they are called, where they end.

use crate::text::count;
use crate::world::World;
use hekthumar::inspect::SnapshotHeader;
use hekthumar::layout::{CONTEXT, METADATA, PAGE, SEGMENT, SHADOW_STACK};
use hekthumar::{Address, Edition, Region, Segment};

/// The segment that an address lies in, if it lies in one.
pub fn of(world: World, address: Address) -> Option<Segment> {
    let there = |segment: &Segment| *segment != Segment::Program || world.edition() != Some(Edition::Older);
    address.segment().ok().filter(there)
}

/// What a segment is called.
pub fn name(segment: Segment) -> String {
    match segment {
        Segment::Transaction => "the transaction".to_string(),
        Segment::ShadowStack => "the shadow stack".to_string(),
        Segment::Program => "the program".to_string(),
        Segment::BlockContexts => "a block context".to_string(),
        Segment::Metadata(account) => format!("the metadata of account {account}"),
        Segment::Data(account) => format!("the data of account {account}"),
        Segment::Stack => "the stack".to_string(),
        Segment::Heap => "the heap".to_string(),
    }
}

/// How many bytes a segment has whose bytes begin at offset 0 and have no gap.
fn end(world: World, segment: Segment) -> usize {
    match segment {
        Segment::Transaction => SnapshotHeader::read(world.snapshot).map_or(0, |header| header.transaction as usize),
        Segment::ShadowStack => SHADOW_STACK,
        Segment::Program => world.current().map_or(0, |current| world.data_length(current.program)),
        Segment::Metadata(_) => METADATA,
        Segment::Data(account) => world.data_length(account),
        Segment::Heap => PAGE * world.pages(Region::Heap),
        Segment::BlockContexts | Segment::Stack => 0,
    }
}

fn contexts(world: World) -> usize {
    SnapshotHeader::read(world.snapshot).map_or(0, |header| header.contexts as usize)
}

/// Where the bytes of a segment end.
pub fn extent(world: World, segment: Segment) -> String {
    let pages = |region| count(world.pages(region) as u64, "page");
    match segment {
        Segment::BlockContexts => {
            format!(
                "the snapshot has {} of {CONTEXT} bytes, one at each multiple of {PAGE}",
                count(contexts(world) as u64, "block context")
            )
        }
        Segment::Stack => {
            let start = SEGMENT - PAGE * world.pages(Region::Stack);
            format!("the stack has {}, from offset {start:#x} up to {SEGMENT:#x}", pages(Region::Stack))
        }
        Segment::Heap => format!("the heap has {} and ends at offset {:#x}", pages(Region::Heap), end(world, segment)),
        Segment::Data(account) if world.account(account).is_some_and(|entry| !entry.exists()) => {
            format!("account {account} does not exist")
        }
        _ => {
            let end = end(world, segment);
            format!("{} has {} and ends at offset {end:#x}", name(segment), count(end as u64, "byte"))
        }
    }
}
