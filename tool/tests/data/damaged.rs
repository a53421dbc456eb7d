//! Files that break the rules, each with a name for what is wrong.

use super::bytes::{one_more, patched, with_half, with_word, words};
use super::control::{alone, control, copy_at, entry, mixed_control, record, UNUSED};
use super::layout::*;
use super::list::{booking, list};
use super::snapshot::{data_at, slots, snapshot, sound_mill, Account};

type Named = (&'static str, Vec<u8>);

/// The file with this name.
pub fn named(files: Vec<Named>, name: &str) -> Vec<u8> {
    files.into_iter().find(|(rule, _)| *rule == name).expect("a file has this name").1
}

/// Snapshots whose header or length is wrong.
pub fn snapshots() -> Vec<Named> {
    let mill = sound_mill();
    let (word, one_more) = (|at, value| with_word(&mill, at, value), |at| one_more(&mill, at));
    let before_data = data_at(5, 1, 40) - 1;
    vec![
        ("short", mill[..20].to_vec()),
        ("accounts", word(ACCOUNTS, MAX_ACCOUNTS + 1)),
        ("contexts-count", one_more(CONTEXTS)),
        ("transaction-length", one_more(TRANSACTION)),
        ("many-accounts", snapshot(&[Account::ABSENT; MAX_ACCOUNTS + 1], 0, &[], &[])),
        ("many-contexts", snapshot(&[], MAX_CONTEXTS + 1, &[], &[])),
        ("long-transaction", snapshot(&[], 0, &[0; MAX_TRANSACTION + 1], &[])),
        ("table", one_more(ACCOUNTS_AT)),
        ("contexts", one_more(CONTEXTS_AT)),
        ("transaction", one_more(TRANSACTION_AT)),
        ("data", one_more(DATA_AT)),
        ("total", [mill.as_slice(), b"x"].concat()),
        ("below-data", word(TOTAL, before_data)[..before_data].to_vec()),
        ("large-total", word(TOTAL, MAX_SNAPSHOT + 1)),
    ]
}

/// The mill's snapshot with a wrong entry of account 1.
pub fn accounts() -> Vec<Named> {
    let (mill, at) = (sound_mill(), account_at(1));
    vec![
        ("flags", with_half(&mill, at + FLAGS, 4 | EXISTS)),
        ("length", with_word(&mill, at + LENGTH, MAX_DATA + 1)),
        ("start", with_word(&mill, at + START, data_at(5, 1, 40) - 1)),
        ("end", one_more(&mill, at + START)),
        ("zero", one_more(&mill, at + ZERO)),
    ]
}

/// The mill's snapshot with every rule of an account's entry broken at account 1.
pub fn worst_account() -> Vec<u8> {
    let (mill, at) = (sound_mill(), account_at(1));
    let wrong = with_half(&mill, at + FLAGS, u16::MAX);
    patched(&wrong, at + LENGTH, &words([u32::MAX as usize, 0, 1]))
}

/// Control blocks that no snapshot and no pool makes valid.
pub fn controls() -> Vec<Named> {
    let (mixed, current) = (mixed_control(), record_at(2));
    let (word, one_more) = (|at, value| with_word(&mixed, at, value), |at| one_more(&mixed, at));
    let half = |at, value| with_half(&mixed, current + at, value);
    vec![
        ("short", mixed[..4_000].to_vec()),
        ("zeros", vec![0; FRAME_TABLE]),
        ("frames", one_more(FRAMES)),
        ("frame-count", word(FRAMES, MAX_FRAMES + 1)),
        ("invocations", word(INVOCATIONS, MAX_INVOCATIONS + 1)),
        ("no-invocation", word(INVOCATIONS, 0)),
        ("records", one_more(RECORDS_AT)),
        ("table", one_more(TABLE_AT)),
        ("edition", one_more(EDITION)),
        ("no-edition", word(EDITION, 0)),
        ("last-word", one_more(LAST_WORD)),
        ("length", [mixed.as_slice(), &[0; 3]].concat()),
        ("program", half(PROGRAM, MAX_ACCOUNTS as u16)),
        ("stack", half(STACK_PAGES, MAX_REGION + 1)),
        ("heap", half(HEAP_PAGES, MAX_REGION + 1)),
    ]
}

/// Control blocks that are wrong beside the mill's snapshot, and valid by themselves.
pub fn controls_with_snapshot() -> Vec<Named> {
    vec![
        ("not-a-program", control(&[record(5, 0, 0, &[])], &[UNUSED])),
        ("copy-of-none", copies(&[(1, 1), (5, 0)])),
        ("copy-without-bytes", copies(&[(1, 2), (0, 1), (3, 0)])),
        ("copied-twice", copies(&[(1, 1), (1, 0), (1, 1), (1, 1)])),
        ("stack-without-frame", alone(1, 0, &[UNUSED])),
        ("heap-without-frame", alone(0, 3, &[entry(HEAP, 0, 0, 1), entry(STACK, 0, 0, 0)])),
    ]
}

/// A control block whose frames are copies of these pages, account and page, of depths 0, 1, 2 and so on.
pub fn copies(pages: &[(u16, u16)]) -> Vec<u8> {
    let frames: Vec<_> = pages.iter().zip(0..).map(|(&(account, page), depth)| copy_at(depth, account, page)).collect();
    alone(0, 0, &frames)
}

/// Change lists that can be applied to no data.
pub fn lists() -> Vec<Named> {
    let (good, slots) = (booking(), slots());
    let one_more = |at| one_more(&good, at);
    let live = |value| with_word(&good, list_entry_at(0) + LIVE, value);
    let last_half = |list: &[u8], entry, value| with_half(list, list_entry_at(entry) + LAST_HALF, value);
    let two = list(&[(1, 1, &slots[PAGE..]), (2, 0, &slots[..100])]);
    vec![
        ("short", good[..12].to_vec()),
        ("count", one_more(PAGES)),
        ("entries", one_more(ENTRIES_AT)),
        ("header", one_more(PAGES_AT)),
        ("total", one_more(LIST_TOTAL)),
        ("cut", good[..4_000].to_vec()),
        ("order", list(&[(1, 1, &slots[PAGE..]), (1, 0, &slots[..PAGE])])),
        ("account-order", list(&[(2, 0, &slots[..100]), (1, 1, &slots[PAGE..])])),
        ("twice", list(&[(1, 1, &slots[PAGE..]), (1, 1, &slots[PAGE..])])),
        ("empty-page", live(0)),
        ("large-page", live(PAGE + 1)),
        ("last-half", last_half(&good, 0, 1)),
        // in the high byte, and in an entry of another account
        ("other-last-half", last_half(&two, 1, 0x100)),
    ]
}

/// The list of one booking with one live byte too few for the slots.
pub fn short_of_a_byte() -> Vec<u8> {
    with_word(&booking(), list_entry_at(0) + LIVE, 1_903)
}
