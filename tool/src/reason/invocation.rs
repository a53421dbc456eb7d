//! Why begin, a call, a return or a change of size was refused.

use super::{buffers, entry, first, no_account, no_frame, shallower_page};
use crate::rules::{control, former_control, snapshot};
use crate::text::count;
use crate::verdict::snapshot_valid;
use crate::world::{region_name, World};
use hekthumar::layout::{FRAME_ENTRY, FRAME_TABLE, MAX_FRAMES, MAX_INVOCATIONS, MAX_REGION};
use hekthumar::{control_len, pool_len, Refusal, Region};
use std::ops::Range;

/// Why begin was refused. It asks nothing of what control block and pool hold, but for their lengths. The edition of a script is always one
/// of the two, so that 2 is for the pages.
pub fn begin(world: World, program: u16, pages: usize, refusal: Refusal) -> Option<String> {
    match refusal {
        Refusal::Invalid if !snapshot_valid(world.snapshot) => first("the snapshot", snapshot::broken(world.snapshot)),
        Refusal::Invalid => lengths(world).or_else(|| entry(world, program)),
        Refusal::BadRequest => Some(format!("begin takes 0 or 1 stack pages; found {pages}")),
        Refusal::OutOfFrames => Some("a stack page needs a frame, and the pool has none".to_string()),
        _ => no_program(world, program, refusal),
    }
}

/// Why a call was refused.
pub fn call(world: World, program: u16, refusal: Refusal) -> Option<String> {
    match refusal {
        Refusal::Invalid => buffers(world).or_else(|| entry(world, program)),
        Refusal::CallDepth => Some(format!("{MAX_INVOCATIONS} invocations are live, the most that there may be")),
        _ => no_program(world, program, refusal),
    }
}

/// Why a return was refused.
pub fn return_from(world: World, refusal: Refusal) -> Option<String> {
    match refusal {
        Refusal::Invalid => buffers(world),
        Refusal::CallDepth => Some("one invocation is live, and it has no caller".to_string()),
        _ => None,
    }
}

/// Why a change of size was refused.
pub fn resize(world: World, region: Region, pages: usize, refusal: Refusal) -> Option<String> {
    let mut leaving = leaving(world, region, pages);
    match refusal {
        Refusal::Invalid => buffers(world).or_else(|| leaving.find_map(|page| no_frame(world, region, page))),
        Refusal::RegionTooLarge => Some(format!("the {} has at most {MAX_REGION} pages", region_name(region))),
        Refusal::OutOfFrames => Some(too_few(world, pages.saturating_sub(world.pages(region)))),
        Refusal::NotPermitted => leaving.find_map(|page| shallower_page(world, region, page)),
        _ => None,
    }
}

fn no_program(world: World, program: u16, refusal: Refusal) -> Option<String> {
    (refusal == Refusal::NoSegment).then(|| no_account(world, program).unwrap_or_else(|| format!("account {program} does not exist")))
}

/// Which length of control block and pool is wrong; of a block made before editions, that it was.
fn lengths(world: World) -> Option<String> {
    let wrong = wrong_length(world)?;
    let former = former_control::broken(world.control).into_iter().collect();
    first("the control block", former).or(Some(wrong))
}

fn wrong_length(world: World) -> Option<String> {
    match (0..=MAX_FRAMES).find(|&frames| control_len(frames) == world.control.len()) {
        None if world.control.len() < FRAME_TABLE => first("the control block", control::broken(world.control)),
        None => Some(format!(
            "a control block has {FRAME_TABLE} + {FRAME_ENTRY} * frames bytes, with at most {MAX_FRAMES} frames; found {}",
            world.control.len()
        )),
        Some(frames) => (pool_len(frames) != world.pool.len())
            .then(|| format!("a pool of {} has {} bytes; found {}", count(frames as u64, "frame"), pool_len(frames), world.pool.len())),
    }
}

/// The pages that leave a region.
fn leaving(world: World, region: Region, pages: usize) -> Range<usize> {
    let size = world.pages(region).min(MAX_REGION);
    match region {
        Region::Stack => MAX_REGION - size..MAX_REGION.saturating_sub(pages),
        Region::Heap => pages..size,
    }
}

fn too_few(world: World, needed: usize) -> String {
    let (free, frames) = (world.free_frames(), world.frames());
    format!("{} more, and free frames: {free} of {frames}", count(needed as u64, "page"))
}
