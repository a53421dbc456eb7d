//! Snapshots and pools shown, and what a file is taken for.

use super::case::Case;
use crate::common::folder::Content;
use crate::data::bytes::words;
use crate::data::control::booked_pool;
use crate::data::damaged::{self, named};
use crate::data::layout::{MAX_FRAMES, PAGE};
use crate::data::snapshot::{empty, inspected, mill, slots, snapshot, sound_mill, trials, Account};

pub fn cases() -> Vec<Case> {
    [whole(), kinds(), headers(), accounts()].into_iter().flatten().collect()
}

fn whole() -> Vec<Case> {
    let show = |name, snapshot: Vec<u8>| Case::new(name, "show snapshot").with("snapshot", snapshot);
    vec![
        show("show-snapshot", trials(1, &slots())),
        show("show-snapshot-mill", mill()),
        show("show-snapshot-inspected", inspected()),
        show("show-snapshot-empty", empty()),
        Case::new("show-two-snapshots", "show one two").with("one", mill()).with("two", empty()),
        Case::new("show-two-pools", "show pool=one two").with("one", [7; PAGE]).with("two", booked_pool()),
    ]
}

/// Files whose bytes tell what they are, or do not.
fn kinds() -> Vec<Case> {
    let show = |name, bytes: &[u8]| Case::new(name, "show file").with("file", bytes);
    let said = |name, prefix: &str, bytes: &[u8]| Case::new(name, &format!("show {prefix}=file")).with("file", bytes);
    vec![
        show("show-pool", &booked_pool()),
        show("show-unknown", b"A letter to the miller.\n"),
        // each as much a change list, by the second word, as a snapshot by the fourth or a control block by the third
        show("show-list-or-snapshot", &words([9, 16, 0, 32])),
        show("show-list-or-control", &words([9, 16, 24, 7])),
        // two words of a change list and one of a snapshot; two words of a change list and all of a snapshot
        show("show-rather-list", &words([2, 16, 40, 32])),
        show("show-rather-snapshot", &snapshot(&[Account::ABSENT], 16, &[0; 28], &[])),
        // without the offset of the account table nothing else tells a snapshot
        show("show-no-table", &named(damaged::snapshots(), "table")),
        show("show-damaged-snapshot", &sound_mill()[..6_000]),
        show("show-damaged-list", &named(damaged::lists(), "cut")),
        Case::new("show-long-pool", "show file").with("file", Content::Zeros((PAGE * (MAX_FRAMES + 1)) as u64)),
        said("show-pool-prefix", "pool", &[0; PAGE]),
        said("show-uneven-pool", "pool", &[0; 5_000]),
        // from the frame of the booking on: words that are far from every rule
        said("show-wrong-prefix", "snapshot", &booked_pool()[15 * PAGE..]),
        said("show-unknown-prefix", "script", b"begin 0\n"),
    ]
}

fn headers() -> Vec<Case> {
    let show = |(rule, bytes)| Case::new(format!("show-snapshot-{rule}"), "show snapshot=file").with("file", bytes);
    damaged::snapshots().into_iter().map(show).collect()
}

fn accounts() -> Vec<Case> {
    let show = |(rule, bytes)| Case::new(format!("show-account-{rule}"), "show snapshot").with("snapshot", bytes);
    damaged::accounts().into_iter().chain([("worst", damaged::worst_account())]).map(show).collect()
}
