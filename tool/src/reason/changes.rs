//! Why a change list or the view of a page was refused.

use super::{buffers, entry, first, no_account};
use crate::rules::control;
use crate::text::count;
use crate::world::World;
use hekthumar::Refusal;

/// Why no change list was made.
pub fn list(world: World, refusal: Refusal) -> Option<String> {
    match refusal {
        Refusal::Invalid => buffers(world).or_else(|| first("the control block", control::copies_broken(world))),
        _ => None,
    }
}

/// Why the view of a page was refused.
pub fn view(world: World, account: u16, page: u16, refusal: Refusal) -> Option<String> {
    match refusal {
        Refusal::Invalid => buffers(world).or_else(|| entry(world, account)),
        Refusal::NoSegment => no_account(world, account),
        Refusal::Absent { .. } => {
            let length = count(world.data_length(account) as u64, "byte");
            Some(format!("there is no page {page} of account {account}, which has {length} of data"))
        }
        _ => None,
    }
}
