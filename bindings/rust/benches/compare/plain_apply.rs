//! Applying a change list.

use crate::plain_headers::{number, PAGE};
use crate::plain_words::{u32_at, u64_at};

const HEADER: usize = 16;
const ENTRY: usize = 12;

/// Account, page and live bytes of an entry.
#[inline(always)]
fn change(entry: &[u8; ENTRY]) -> (u16, usize, usize) {
    let e = u64_at(entry, 0);
    (e as u16, (e >> 16) as usize & 0xFFFF, (e >> 32) as usize)
}

/// Whether the number behind the depth is 0: then the two as one are below 2^16.
#[inline(always)]
fn ends_in_zero(entry: &[u8; ENTRY]) -> bool {
    u32_at(entry, 8) < 1 << 16
}

/// Whether the entries ascend and end in 0, and each has the live bytes that applying asks for.
#[inline(always)]
fn entries_good(entries: &[[u8; ENTRY]], account: u16, length: usize) -> bool {
    let mut least = 0;
    entries.iter().all(|entry| {
        let (index, page, live) = change(entry);
        let key = (index as u64) << 16 | page as u64;
        let ascends = key >= least;
        least = key + 1;
        let given = length.saturating_sub(PAGE * page).min(PAGE);
        ascends && ends_in_zero(entry) && live.wrapping_sub(1) < PAGE && (index != account || live == given)
    })
}

#[inline(always)]
fn try_apply(list: &[u8], account: u16, data: &mut [u8]) -> Result<(), u8> {
    let h: &[u8; HEADER] = list.first_chunk().ok_or(12)?;
    let word = |i: usize| u32_at(h, 4 * i) as usize;
    let n = word(0);
    let (pages_at, total) = (HEADER + ENTRY * n, HEADER + (ENTRY + PAGE) * n);
    if word(1) != HEADER || word(2) != pages_at || word(3) != total || list.len() < total {
        return Err(12);
    }
    let (head, pages) = list.split_at(pages_at);
    let entries = head[HEADER..].as_chunks().0;
    if !entries_good(entries, account, data.len()) {
        return Err(12);
    }
    for (entry, bytes) in entries.iter().zip(pages.chunks_exact(PAGE)) {
        let (index, page, live) = change(entry);
        if index == account {
            data[PAGE * page..][..live].copy_from_slice(&bytes[..live]);
        }
    }
    Ok(())
}

#[inline(never)]
pub fn apply(list: &[u8], account: u16, data: &mut [u8]) -> u8 {
    number(try_apply(list, account, data))
}
