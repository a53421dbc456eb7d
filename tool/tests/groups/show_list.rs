//! Change lists shown, alone and beside a snapshot.

use super::case::Case;
use crate::data::damaged;
use crate::data::layout::PAGE;
use crate::data::list::{at_depths, booking, former, former_booking, list, Change};
use crate::data::snapshot::{mill, slots, sound_mill};

pub fn cases() -> Vec<Case> {
    [whole(), beside_snapshot(), rules()].into_iter().flatten().collect()
}

fn whole() -> Vec<Case> {
    let show = |name, list: Vec<u8>| Case::new(name, "show list").with("list", list);
    let deep = list(&[(0, 9, &[1; 8]), (1, 0, &[2; PAGE]), (1, 1, &[3; 7]), (2, 0, &[4; 8])]);
    vec![
        show("show-list", booking()),
        // a depth may be any number
        show("show-list-depths", at_depths(&deep, &[1, 0, 15, u16::MAX])),
        show("show-list-former", former_booking()),
        // too short for what its header says, and so taken for a list like any other
        Case::new("show-list-former-cut", "show list=file").with("file", &former_booking()[..4_000]),
        show("show-list-empty", list(&[])),
        show("show-list-longer", [booking(), vec![7; 5]].concat()),
        Case::new("show-two-lists", "show one two").with("one", booking()).with("two", list(&[])),
    ]
}

/// Lists that can and cannot be applied to the data of the mill's accounts.
fn beside_snapshot() -> Vec<Case> {
    let slots = slots();
    let show = |name, list: Vec<u8>| Case::new(name, "show list snapshot").with("list", list).with("snapshot", sound_mill());
    let pages = |name, pages: &[Change]| show(name, list(pages));
    vec![
        pages("show-list-fits", &[(0, 0, &[7; 16]), (1, 0, &slots[..PAGE]), (1, 1, &slots[PAGE..])]),
        show("show-list-former-pages", [former(&[(0, 0, &[7; 16]), (1, 1, &slots[PAGE..])]), vec![7; 5]].concat()),
        show("show-list-live", damaged::short_of_a_byte()),
        pages("show-list-no-page", &[(1, 2, &[7; 8])]),
        pages("show-list-no-account", &[(1, 1, &slots[PAGE..]), (9, 0, &[7; 8])]),
        pages("show-list-absent-account", &[(3, 0, &[7; 8])]),
        Case::new("show-list-bad-account", "show list snapshot").with("list", list(&[(4, 1, &[7; 1_905])])).with("snapshot", mill()),
        Case::new("show-list-bad-snapshot", "show list snapshot=short").with("list", booking()).with("short", mill()[..6_607].to_vec()),
    ]
}

fn rules() -> Vec<Case> {
    let show = |(rule, list)| Case::new(format!("show-list-{rule}"), "show list=file").with("file", list);
    damaged::lists().into_iter().map(show).collect()
}
