//! Change lists.

use super::bytes::{with_half, words};
use super::layout::*;
use super::snapshot::slots;

/// A page of a change list: account, page and live bytes.
pub type Change<'a> = (u16, u16, &'a [u8]);

/// A change list of these pages, all first stored to at depth 0.
pub fn list(changes: &[Change]) -> Vec<u8> {
    laid_out(changes, LIST_ENTRY)
}

/// The same list with its pages first stored to at these depths.
pub fn at_depths(list: &[u8], depths: &[u16]) -> Vec<u8> {
    let at = |number| list_entry_at(number) + DEPTH;
    depths.iter().enumerate().fold(list.to_vec(), |list, (number, depth)| with_half(&list, at(number), *depth))
}

/// A change list of these pages as it was before depths were listed.
pub fn former(changes: &[Change]) -> Vec<u8> {
    laid_out(changes, FORMER_LIST_ENTRY)
}

/// A change list of these pages, with zeros after the live bytes of an entry up to its length.
fn laid_out(changes: &[Change], entry: usize) -> Vec<u8> {
    let n = changes.len();
    let pages_at = LIST_HEADER + entry * n;
    let mut list = words([n, LIST_HEADER, pages_at, pages_at + PAGE * n]);
    for (account, page, live) in changes {
        let end = list.len() + entry;
        list.extend([account.to_le_bytes(), page.to_le_bytes()].concat());
        list.extend(words([live.len()]));
        list.resize(end, 0);
    }
    for (_, _, live) in changes {
        list.extend_from_slice(live);
        list.resize(list.len() + PAGE - live.len(), 0);
    }
    list
}

/// The slots with slot 4100 booked.
pub fn booked_slots() -> Vec<u8> {
    let mut slots = slots();
    slots[4_100] = 0x11;
    slots
}

/// The change list of that booking, in account 1.
pub fn booking() -> Vec<u8> {
    list(&[(1, 1, &booked_slots()[PAGE..])])
}

/// The same list as it was before depths were listed.
pub fn former_booking() -> Vec<u8> {
    former(&[(1, 1, &booked_slots()[PAGE..])])
}

/// Both bookings of document 01's trial, in account 5.
pub fn trial_slots() -> Vec<u8> {
    let mut slots = booked_slots();
    slots[4_104] = 0x22;
    slots
}
