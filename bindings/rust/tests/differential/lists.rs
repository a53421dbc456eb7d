//! Change lists made by hand, right ones and damaged ones, for apply.

use std::collections::BTreeSet;

use crate::bytes::*;
use crate::random::Random;

/// A list that applies to `length` bytes of data of an account.
pub fn good(random: &Random, account: u16, length: usize) -> Vec<u8> {
    let keys = keys(random, account, length);
    let [_, _, total] = list_words(keys.len() as u64);
    let mut list = random.bytes(total as usize);
    put_header(&mut list, LIST_ENTRY, keys.len());
    for (place, &(owner, page)) in keys.iter().enumerate() {
        let at = LIST_HEADER + LIST_ENTRY * place;
        let live = if owner == account { live_bytes(length, page) } else { random.choose(&[1, 8, 4095, 4096]) };
        put_u16(&mut list, at, owner);
        put_u16(&mut list, at + 2, page);
        put_u32(&mut list, at + 4, live as u32);
        put_u16(&mut list, at + 8, depth(random));
        put_u16(&mut list, at + 10, 0);
    }
    // "it may be longer than its total"
    let rest = random.choose(&[0, 0, 1, 30]);
    list.extend(random.bytes(rest));
    list
}

fn put_header(list: &mut [u8], entry: usize, count: usize) {
    let words = [&[count as u64], &list_words_by(entry, count as u64)[..]].concat();
    put_words(list, &words.iter().map(|&word| word as u32).collect::<Vec<u32>>());
}

fn depth(random: &Random) -> u16 {
    let reached = random.below(MAX_LIVE) as u16;
    random.choose(&[0, reached, reached, random.choose(&ODD_DEPTHS)])
}

fn keys(random: &Random, account: u16, length: usize) -> BTreeSet<(u16, u16)> {
    let pages = length.div_ceil(PAGE).min(0x1_0000);
    let mut keys = BTreeSet::new();
    for _ in 0..random.choose(&[0, 1, 1, 2, 3, 5]) {
        if pages > 0 && random.chance(60) {
            keys.insert((account, random.choose(&[pages - 1, random.below(pages)]) as u16));
            continue;
        }
        let other = random.choose(&[account.wrapping_add(1), account.wrapping_sub(1), account ^ 0x100, 0xFFFF]);
        if other != account {
            keys.insert((other, random.choose(&[0, 1, 0xFFFF])));
        }
    }
    keys
}

/// One field, or the length, made wrong.
pub fn spoil(random: &Random, list: &mut Vec<u8>, account: u16, length: usize) {
    let count = u32_at(list, 0) as usize;
    match random.below(12) {
        0..=2 => spoil_header(random, list),
        3 => {
            let total = LIST_HEADER + (LIST_ENTRY + PAGE) * count;
            let kept = random.choose(&[total - 1, random.below(total), 15, 16, 0]);
            list.truncate(kept);
        }
        // A count whose 12n and 4,108n are 0 as 32-bit numbers.
        4 => put_words(list, &[1 << 30, 16, 16, 16]),
        5 => drop_depths(list, count),
        6 if count > 0 => {
            let at = random.below(LIST_HEADER + LIST_ENTRY * count);
            list[at] ^= 1 << random.below(8);
        }
        _ if count > 0 => spoil_entry(random, list, count, account, length),
        _ => spoil_header(random, list),
    }
}

/// The list as the base lays it out: the same entries without their last four bytes, and the words that agree with that.
fn drop_depths(list: &mut Vec<u8>, count: usize) {
    for place in (0..count).rev() {
        let at = LIST_HEADER + LIST_ENTRY * place;
        list.drain(at + BASE_LIST_ENTRY..at + LIST_ENTRY);
    }
    put_header(list, BASE_LIST_ENTRY, count);
}

fn spoil_header(random: &Random, list: &mut [u8]) {
    let at = 4 * random.below(4);
    let old = u32_at(list, at);
    put_u32(list, at, random.choose(&[old.wrapping_add(1), old.wrapping_sub(1), old ^ 0x8000_0000, u32::MAX, 0]));
}

fn spoil_entry(random: &Random, list: &mut [u8], count: usize, account: u16, length: usize) {
    let place = random.below(count);
    let at = LIST_HEADER + LIST_ENTRY * place;
    let live = u32_at(list, at + 4);
    match random.below(11) {
        0 => put_u32(list, at + 4, 0),
        1 => put_u32(list, at + 4, random.choose(&[4097, u32::MAX, 0x1_0000 + live])),
        2 | 3 => put_u32(list, at + 4, random.choose(&[live + 1, live - 1, 4096])),
        4 => put_u16(list, at + 2, length.div_ceil(PAGE) as u16),
        5 => put_u16(list, at, account),
        6..=8 => put_u16(list, at + 10, random.choose(&[1, 0x100, 0x8000, 0xFFFF])),
        // The entry before it again, or the two exchanged.
        9 if place > 0 => list.copy_within(at - LIST_ENTRY..at, at),
        _ if place > 0 => {
            let before = part_or_zeros(list, at - LIST_ENTRY, LIST_ENTRY);
            list.copy_within(at..at + LIST_ENTRY, at - LIST_ENTRY);
            list[at..at + LIST_ENTRY].copy_from_slice(&before);
        }
        _ => put_u16(list, at + 2, 0xFFFF),
    }
}
