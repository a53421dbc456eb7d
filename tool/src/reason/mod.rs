//! Why a call was refused: which of the reasons behind its number, where, and where the segment ends. A refused call changes nothing,
//! so the buffers after it are those that it was refused for.

pub mod access;
pub mod changes;
pub mod invocation;
pub mod record;
pub mod segment;

use crate::rules::{control, snapshot, Broken};
use crate::verdict::{account_valid, buffers_valid};
use crate::world::{region_name, World};
use hekthumar::Region;

/// Which rule the three buffers break, if they are not valid together.
fn buffers(world: World) -> Option<String> {
    if buffers_valid(world) {
        return None;
    }
    let of_snapshot = || first("the snapshot", snapshot::broken(world.snapshot));
    let of_control = || first("the control block", control::all_broken(world));
    of_snapshot().or_else(of_control)
}

/// Which rule an account's entry breaks, if it is not valid.
fn entry(world: World, account: u16) -> Option<String> {
    if account_valid(world.snapshot, account) {
        return None;
    }
    first(&format!("the entry of account {account} is not valid"), snapshot::account_broken(world.snapshot, account))
}

/// The first of some broken rules, and what breaks it.
fn first(what: &str, broken: Vec<Broken>) -> Option<String> {
    broken.first().map(|broken| format!("{what}: {broken}"))
}

/// That there is no account with this number, if there is none.
fn no_account(world: World, account: u16) -> Option<String> {
    let accounts = world.accounts();
    (u32::from(account) >= accounts).then(|| match accounts {
        0 => format!("there is no account {account}: the snapshot has no account"),
        _ => format!("there is no account {account}: the snapshot's accounts are 0 to {}", accounts - 1),
    })
}

/// That no frame holds a page of the stack or the heap, if none does.
fn no_frame(world: World, region: Region, page: usize) -> Option<String> {
    let missing = world.frame_of(region, page).is_none();
    missing.then(|| format!("no frame holds page {page} of the {}", region_name(region)))
}

/// That a page of the stack or the heap was grown by a shallower program, if it was. That need not be a caller: heap pages outlive the
/// return.
fn shallower_page(world: World, region: Region, page: usize) -> Option<String> {
    let depth = world.invocations().saturating_sub(1);
    let (frame, entry) = world.frame_of(region, page)?;
    (usize::from(entry.tag) < depth).then(|| {
        let (region, tag) = (region_name(region), entry.tag);
        format!("page {page} of the {region} is a shallower program's: frame {frame} has the tag {tag}, and the current depth is {depth}")
    })
}
