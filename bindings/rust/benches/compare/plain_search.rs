//! Searches of the frame table. An entry is one number: use, tag, account, page, depth from the low end on. The entries that a search starts
//! with are tested one by one, since most programs use few frames; the others in groups without a branch inside, which compile to vector
//! instructions, and out of line, so that a call that ends at the first ones saves fewer registers.

use crate::plain_headers::TABLE;

pub type Entry = [u8; 8];

pub const GROUP: usize = 16;
const USE: u64 = 0xFF;
const ACCOUNT: u64 = 0xFFFF << 16;
const PAGE: u64 = 0xFFFF << 32;

#[inline(always)]
pub fn table(c: &[u8]) -> &[Entry] {
    c[TABLE..].as_chunks().0
}

#[inline(always)]
fn word(entry: &Entry) -> u64 {
    u64::from_le_bytes(*entry)
}

/// The lowest of some entries that is wanted under a mask.
#[inline(always)]
fn lowest(entries: &[Entry], mask: u64, wanted: u64) -> Option<usize> {
    entries.iter().position(|e| word(e) & mask == wanted)
}

/// The highest of some entries that is wanted under a mask.
#[inline(always)]
fn highest(entries: &[Entry], mask: u64, wanted: u64) -> Option<usize> {
    entries.iter().rposition(|e| word(e) & mask == wanted)
}

/// Whether one of a group is wanted under a mask. A masked entry is below 2^63, so its difference less one has the top bit set only where there
/// is no difference.
#[inline(always)]
fn any(group: &[Entry; GROUP], mask: u64, wanted: u64) -> bool {
    group.iter().fold(0, |any, e| any | ((word(e) & mask) ^ wanted).wrapping_sub(1)) >> 63 != 0
}

/// As `lowest`, in groups.
#[inline(always)]
fn lowest_in_groups(entries: &[Entry], mask: u64, wanted: u64) -> Option<usize> {
    let (groups, rest) = entries.as_chunks::<GROUP>();
    for (i, group) in groups.iter().enumerate() {
        if any(group, mask, wanted) {
            return lowest(group, mask, wanted).map(|found| GROUP * i + found);
        }
    }
    lowest(rest, mask, wanted).map(|found| GROUP * groups.len() + found)
}

/// As `highest`, in groups that end with the last entry.
#[inline(always)]
fn highest_in_groups(entries: &[Entry], mask: u64, wanted: u64) -> Option<usize> {
    let (rest, groups) = entries.as_rchunks::<GROUP>();
    for (i, group) in groups.iter().enumerate().rev() {
        if any(group, mask, wanted) {
            return highest(group, mask, wanted).map(|found| rest.len() + GROUP * i + found);
        }
    }
    highest(rest, mask, wanted)
}

/// The free frame for a stack or heap page.
#[inline(always)]
pub fn lowest_free(c: &[u8]) -> Option<usize> {
    match table(c).split_first_chunk::<GROUP>() {
        Some((first, after)) => lowest(first, USE, 0).or_else(|| Some(GROUP + lowest_in_groups(after, USE, 0)?)),
        None => lowest(table(c), USE, 0),
    }
}

/// The free frame for a copy.
#[inline(always)]
pub fn highest_free(c: &[u8]) -> Option<usize> {
    match table(c).split_last_chunk::<GROUP>() {
        Some((before, last)) => highest(last, USE, 0).map(|found| before.len() + found).or_else(|| highest_in_groups(before, USE, 0)),
        None => highest(table(c), USE, 0),
    }
}

/// The lowest frame of a stack or heap page.
#[inline(always)]
pub fn region_frame(c: &[u8], region: u8, page: usize) -> Option<usize> {
    let (mask, wanted) = (USE | PAGE, u64::from(region) | (page as u64) << 32);
    match table(c).split_first_chunk::<GROUP>() {
        Some((first, after)) => lowest(first, mask, wanted).or_else(|| Some(GROUP + far_region_frame(after, wanted)?)),
        None => lowest(table(c), mask, wanted),
    }
}

#[inline(never)]
fn far_region_frame(entries: &[Entry], wanted: u64) -> Option<usize> {
    lowest_in_groups(entries, USE | PAGE, wanted)
}

/// The table from two bytes before it on: account and page of each entry are the upper half of a word.
#[inline(always)]
fn shifted(c: &[u8]) -> &[Entry] {
    c[TABLE - 2..].as_chunks().0
}

#[inline(always)]
fn has_key(shifted: &Entry, key: u32) -> bool {
    (word(shifted) >> 32) as u32 == key
}

/// The lowest frame of an account's page. An entry with this account and page that is no copy is rare, so these two are looked for first.
#[inline(always)]
pub fn copy_frame(c: &[u8], account: usize, page: usize) -> Option<usize> {
    let key = account as u32 | (page as u32) << 16;
    if let Some(first) = shifted(c).first_chunk::<GROUP>() {
        if let Some(found) = first.iter().position(|e| has_key(e, key)) {
            if table(c)[found][0] == 1 {
                return Some(found);
            }
        }
    }
    far_copy_frame(c, key)
}

/// As `copy_frame`, where the first group does not tell. Groups are passed over by account and page alone; from the first that has both on,
/// all is compared.
#[inline(never)]
fn far_copy_frame(c: &[u8], key: u32) -> Option<usize> {
    let groups = shifted(c).as_chunks::<GROUP>().0;
    let passed = groups.iter().position(|group| group.iter().fold(false, |any, e| any | has_key(e, key)));
    let from = GROUP * passed.unwrap_or(groups.len());
    let (entries, mask, wanted) = (&table(c)[from..], USE | ACCOUNT | PAGE, 1 | u64::from(key) << 16);
    let near = entries.first_chunk::<GROUP>().and_then(|near| lowest(near, mask, wanted));
    Some(from + near.or_else(|| lowest_in_groups(entries, mask, wanted))?)
}

/// Whether an entry of the group has a use.
#[inline(always)]
fn any_use(group: &[Entry; GROUP], wanted: u32) -> bool {
    group.iter().fold(0, |any, e| any | ((word(e) as u32 & 0xFF) ^ wanted).wrapping_sub(1)) >> 31 != 0
}

/// Whether an entry of the group is a copy.
#[inline(always)]
pub fn any_copy(group: &[Entry; GROUP]) -> bool {
    any_use(group, 1)
}

/// Whether an entry of the group is a stack page's.
#[inline(always)]
pub fn any_stack(group: &[Entry; GROUP]) -> bool {
    any_use(group, 2)
}

/// Whether at least so many frames are free; no more are counted than it takes.
#[inline(always)]
pub fn enough_free(entries: &[Entry], wanted: usize) -> bool {
    let (groups, rest) = entries.as_chunks::<GROUP>();
    let mut free = 0;
    for group in groups {
        free += group.iter().filter(|e| e[0] == 0).count();
        if free >= wanted {
            return true;
        }
    }
    free + rest.iter().filter(|e| e[0] == 0).count() >= wanted
}

#[inline(always)]
pub fn tag(c: &[u8], frame: usize) -> usize {
    table(c)[frame][1] as usize
}
