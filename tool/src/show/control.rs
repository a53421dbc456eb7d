//! What a control block holds, judged with its snapshot and its pool where they are given.

use super::{complain, verdict, Beside, Shown};
use crate::edition;
use crate::failure::Failure;
use crate::output::Output;
use crate::pool_map;
use crate::rules::control::{all_broken, copies_broken};
use crate::rules::former_control::made_before_editions;
use crate::rules::Broken;
use crate::session::register_lines;
use crate::verdict::{buffers_valid, listable, pool_for, snapshot_valid, unreadable, widest_snapshot};
use crate::world::{region_name, World};
use hekthumar::inspect::{ControlHeader, FrameEntry, Invocation};
use hekthumar::layout::{FRAME_TABLE, MAX_INVOCATIONS, MAX_REGION};
use hekthumar::Region;

/// Shows the counts, the edition, the live invocations and the map of the pool.
pub fn show(file: &Shown, beside: &Beside, out: &mut Output) -> Result<(), Failure> {
    // Without a snapshot the control block is judged with one that has every account and every page that there may be.
    let snapshot = beside.snapshot.filter(|snapshot| snapshot_valid(snapshot));
    let stand_in =
        (snapshot.map_or_else(widest_snapshot, |_| Vec::new()), beside.pool.map_or_else(|| pool_for(&file.bytes), |_| Vec::new()));
    let world = World { snapshot: snapshot.unwrap_or(&stand_in.0), control: &file.bytes, pool: beside.pool.unwrap_or(&stand_in.1) };
    let valid = buffers_valid(world);
    verdict(file, valid, judged_by(snapshot.is_some(), beside.pool.is_some()), &all_broken(world), out)?;
    if let Some(header) = ControlHeader::read(&file.bytes) {
        show_parts(world, header, out)?;
    }
    if valid {
        show_refusals(file, world, out)?;
    }
    Ok(())
}

/// By which files the verdict is.
fn judged_by(snapshot: bool, pool: bool) -> &'static str {
    match (snapshot, pool) {
        (true, true) => " with this snapshot and this pool",
        (true, false) => " with this snapshot",
        (false, true) => " with this pool; what needs a valid snapshot is not judged",
        (false, false) => "; what needs a valid snapshot is not judged",
    }
}

/// Shows the header, and what follows it as far as it is known where that lies.
fn show_parts(world: World, header: ControlHeader, out: &mut Output) -> Result<(), Failure> {
    let ControlHeader { frames, invocations, edition, .. } = header;
    if made_before_editions(world.control) {
        return out.line(format_args!("  frames {frames}, live invocations {invocations}, made before editions"));
    }
    if world.control.len() < FRAME_TABLE {
        return Ok(());
    }
    let room = pool_map::marks(world.control).len();
    let room = if room == frames as usize { String::new() } else { format!(" (room for {room})") };
    out.line(format_args!("  frames {frames}{room}, live invocations {invocations}, edition {}", edition::described(edition)))?;
    show_invocations(world, out)?;
    out.lines(pool_map::lines(world.control))
}

fn show_invocations(world: World, out: &mut Output) -> Result<(), Failure> {
    for number in 1..=world.invocations().min(MAX_INVOCATIONS) {
        let Some(Invocation { program, stack, heap, registers }) = Invocation::read(world.control, number) else {
            break;
        };
        out.line(format_args!("  invocation {number}: program {program}, stack pages {stack}, heap pages {heap}"))?;
        out.lines(register_lines(&registers))?;
    }
    Ok(())
}

/// What calls would be refused with 1 for, although the buffers are valid.
fn show_refusals(file: &Shown, world: World, out: &mut Output) -> Result<(), Failure> {
    if !listable(world) {
        out.line("  no change list can be made: it is refused with 1")?;
        complain(&file.name, &copies_broken(world), out)?;
    }
    for region in [Region::Stack, Region::Heap] {
        let missing = unreadable(world, region, pages(world, region));
        if let (Some(first), Some(last)) = (missing.first(), missing.last()) {
            let (region, pages) = (region_name(region), missing.len());
            let which = match pages {
                1 => format!("page {first} of the {region}"),
                _ => format!("{pages} of the {region}'s pages {first} to {last}"),
            };
            let rule = format!("no frame holds {which}: accesses there are refused with 1");
            complain(&file.name, &[Broken { at: FrameEntry::at(0), rule }], out)?;
        }
    }
    Ok(())
}

/// The pages of a region.
fn pages(world: World, region: Region) -> std::ops::Range<usize> {
    let size = world.pages(region);
    match region {
        Region::Stack => MAX_REGION - size..MAX_REGION,
        Region::Heap => 0..size,
    }
}
