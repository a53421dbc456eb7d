//! The application of a change list.

use super::bug::Bug;
use super::why::Why;
use crate::bytes::*;

/// Where the parts of a list are.
struct Layout {
    count: usize,
    entry: usize,
    pages_at: usize,
}

/// An entry of a list, and its place in it.
struct Entry {
    place: usize,
    account: u16,
    page: u16,
    live: usize,
    depth: u16,
    zero: u16,
}

pub fn apply(list: &[u8], account: u16, data: &mut [u8], bug: Option<Bug>) -> Result<(), Why> {
    let layout = layout(list, bug)?;
    let entries = entries(list, &layout);
    check_entries(&entries, account, bug)?;
    // "each entry of this account has the live count that this data length gives"
    let own: Vec<&Entry> = entries.iter().filter(|entry| entry.account == account).collect();
    let right = |entry: &&Entry| entry.live == live_bytes(data.len(), entry.page);
    if !own.iter().all(right) && bug != Some(Bug::ApplyIgnoresLiveCount) {
        return Err(Why::ListLiveOfData);
    }
    // "Its live bytes replace the page."
    for entry in own {
        let (from, to) = (layout.pages_at + PAGE * entry.place, PAGE * usize::from(entry.page));
        let replaced = entry.live.min(data.len().saturating_sub(to));
        if let Some(target) = data.get_mut(to..to + replaced) {
            target.copy_from_slice(&list[from..from + replaced]);
        }
    }
    Ok(())
}

/// "12 unless the list has exactly that layout (it may be longer than its total ...)"
fn layout(list: &[u8], bug: Option<Bug>) -> Result<Layout, Why> {
    if list.len() < LIST_HEADER {
        return Err(Why::ListLayout);
    }
    let words: Vec<u64> = (0..4).map(|word| u64::from(u32_at(list, 4 * word))).collect();
    let count = words[0];
    let of = |entry: usize, count: usize| Layout { count, entry, pages_at: LIST_HEADER + entry * count };
    if bug == Some(Bug::ApplyWrapsTotal) && list_words(count).map(|word| word & 0xFFFF_FFFF) == words[1..] {
        let there = (list.len() - LIST_HEADER) / (LIST_ENTRY + PAGE);
        return Ok(of(LIST_ENTRY, there.min(count as usize)));
    }
    let is_long_enough = list.len() as u64 == words[3] || (list.len() as u64 > words[3] && bug != Some(Bug::ApplyRefusesLongerList));
    let taken: &[usize] = if bug == Some(Bug::ApplyTakesBaseLayout) { &[LIST_ENTRY, BASE_LIST_ENTRY] } else { &[LIST_ENTRY] };
    let entry = taken.iter().find(|&&entry| list_words_by(entry, count) == words[1..] && is_long_enough);
    entry.map(|&entry| of(entry, count as usize)).ok_or(Why::ListLayout)
}

/// The base's entries end before the depth.
fn entries(list: &[u8], layout: &Layout) -> Vec<Entry> {
    let entry = |place: usize| {
        let whole = part_or_zeros(&list[LIST_HEADER + layout.entry * place..][..layout.entry], 0, LIST_ENTRY);
        let [account, page, depth, zero] = [0, 2, 8, 10].map(|field| u16_at(&whole, field));
        Entry { place, account, page, live: u32_at(&whole, 4) as usize, depth, zero }
    };
    (0..layout.count).map(entry).collect()
}

/// What is asked of all entries, this account's or not.
fn check_entries(entries: &[Entry], account: u16, bug: Option<Bug>) -> Result<(), Why> {
    // "entries strictly ascending"
    let key = |entry: &Entry| (entry.account, entry.page);
    let equal_allowed = bug == Some(Bug::ApplyAcceptsEqualKeys);
    let ascending = |pair: &[Entry]| key(&pair[0]) < key(&pair[1]) || (equal_allowed && key(&pair[0]) == key(&pair[1]));
    if !entries.windows(2).all(ascending) {
        return Err(Why::ListOrder);
    }
    // "every live count 1..4,096"
    if !entries.iter().all(|entry| (1..=PAGE).contains(&entry.live)) {
        return Err(Why::ListLiveCount);
    }
    // "Applying refuses an entry whose last u16 isn't zero with 12."
    if !entries.iter().all(|entry| ends_right(entry, account, bug)) {
        return Err(Why::ListZero);
    }
    Ok(())
}

/// Any depth is accepted, and behind it 0 alone.
fn ends_right(entry: &Entry, account: u16, bug: Option<Bug>) -> bool {
    let Entry { place, depth, zero, .. } = *entry;
    let is_own = entry.account == account;
    match bug {
        Some(Bug::ApplyIgnoresZero) => true,
        Some(Bug::ApplyAsksZeroOfOwn) => zero == 0 || !is_own,
        Some(Bug::ApplyAsksZeroOfOthers) => zero == 0 || is_own,
        Some(Bug::ApplyAsksZeroOfFirst) => zero == 0 || place > 0,
        Some(Bug::ApplyAsksZeroAsByte) => zero & 0xFF == 0,
        Some(Bug::ApplyAsksDepthZero) => zero == 0 && depth == 0,
        Some(Bug::ApplyAsksDepth) => zero == 0 && usize::from(depth) < MAX_LIVE,
        _ => zero == 0,
    }
}
