//! Change lists applied to an account's data.

use super::case::Case;
use crate::common::folder::Content;
use crate::data::bytes::patched;
use crate::data::damaged;
use crate::data::layout::PAGE;
use crate::data::list::{at_depths, booked_slots, booking, former_booking, list, trial_slots};
use crate::data::snapshot::{slots, sound_mill};

/// A byte more than a change list of 256 pages has.
const LONG: u64 = 1_051_665;

pub fn cases() -> Vec<Case> {
    [accepted(), refused(), rules()].into_iter().flatten().collect()
}

/// The list over the slots, as account 1's.
fn over_slots(name: impl Into<String>, list: impl Into<Content>) -> Case {
    Case::new(name, "apply list 1 slots kept").with("list", list).with("slots", slots())
}

fn accepted() -> Vec<Case> {
    let mut both = slots();
    both[..PAGE].fill(7);
    both[PAGE..].fill(9);
    let pages = list(&[(0, 9, &[1; 8]), (1, 0, &both[..PAGE]), (1, 1, &both[PAGE..]), (2, 0, &[2; 8])]);
    vec![
        over_slots("apply", booking()).leaves("kept", booked_slots()),
        // a depth may be any number
        over_slots("apply-pages", at_depths(&pages, &[0, 15, u16::MAX, 16])).leaves("kept", both),
        over_slots("apply-longer", [booking(), vec![7; 5]].concat()).leaves("kept", booked_slots()),
        over_slots("apply-nothing", list(&[])).leaves("kept", slots()),
        Case::script("apply-saved", sound_mill(), include_str!("../inputs/saves.txt"))
            .with("slots", slots())
            .then("apply kept-list 1 slots kept-slots")
            .leaves("kept-slots", booked_slots()),
        trial(),
        Case::new("apply-other", "apply list 2 slots kept").with("list", booking()).with("slots", slots()).leaves("kept", slots()),
        Case::new("apply-in-place", "apply list 0x1 slots slots")
            .with("list", booking())
            .with("slots", slots())
            .leaves("slots", booked_slots()),
    ]
}

/// Both bookings of document 01's trial. What follows the live bytes of the page is not read.
fn trial() -> Case {
    let both = list(&[(5, 1, &trial_slots()[PAGE..])]);
    let after = both.len() - (2 * PAGE - slots().len());
    let list = patched(&both, after, &[7; 2_192]);
    Case::new("apply-trial", "apply list 5 slots kept").with("list", list).with("slots", slots()).leaves("kept", trial_slots())
}

/// Words and data that do not fit the list.
fn refused() -> Vec<Case> {
    let account = |name, account: &[u8]| {
        let words = [b"apply", b"list".as_slice(), account, b"slots", b"kept"];
        Case::raw(name, &words).with("list", booking()).with("slots", slots()).leaves_no("kept")
    };
    let data = |name, data: Content| Case::new(name, "apply list 1 data kept").with("list", booking()).with("data", data).leaves_no("kept");
    vec![
        account("apply-account", b"65536"),
        account("apply-account-word", b"one"),
        account("apply-account-escape", b"1\x1b[2J\xff"),
        over_slots("apply-live", damaged::short_of_a_byte()).leaves_no("kept"),
        over_slots("apply-former", former_booking()).leaves_no("kept"),
        data("apply-short-data", slots()[..PAGE].into()),
        data("apply-long-data", Content::Zeros(LONG)),
        over_slots("apply-long-list", Content::Zeros(LONG)).leaves_no("kept"),
    ]
}

fn rules() -> Vec<Case> {
    let apply = |(rule, list): (&str, Vec<u8>)| over_slots(format!("apply-{rule}"), list).leaves_no("kept");
    damaged::lists().into_iter().map(apply).collect()
}
