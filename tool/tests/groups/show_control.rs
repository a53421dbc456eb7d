//! Control blocks shown, alone and beside a snapshot and a pool.

use super::case::Case;
use crate::common::folder::Content;
use crate::data::control::{self, booked, booked_pool, former, inspected, mixed_control, older};
use crate::data::damaged::{self, named};
use crate::data::layout::{control_length, MAX_FRAMES, PAGE};
use crate::data::list::booking;
use crate::data::snapshot::{self, mill, sound_mill};

pub fn cases() -> Vec<Case> {
    [alone(), together(), damaged_alone(), damaged_together()].into_iter().flatten().collect()
}

/// A control block and nothing else.
fn alone() -> Vec<Case> {
    let show = |name, control: Vec<u8>| Case::new(name, "show control").with("control", control);
    let long = || Content::Zeros(control_length(MAX_FRAMES) as u64 + 1);
    vec![
        show("show", mixed_control()),
        show("show-saved", booked()),
        show("show-older", older(&mixed_control())),
        show("show-former", former(&mixed_control())),
        show("show-former-no-frames", former(&control::alone(0, 0, &[]))),
        show("show-no-frames", control::alone(0, 0, &[])),
        show("show-damaged", named(damaged::controls(), "table")),
        // no snapshot has an account 64, none of its accounts a page 4096
        show("show-copy-outside", damaged::copies(&[(64, 0), (1, 4_096)])),
        Case::new("show-long", "show long-control").with("long-control", long()),
        Case::new("show-long-prefix", "show control=long-control").with("long-control", long()),
    ]
}

/// A snapshot, a control block, a pool and a change list beside each other.
fn together() -> Vec<Case> {
    let show = |name, words| {
        let files = Case::new(name, words).with("snapshot", sound_mill()).with("list", booking());
        files.with("control", booked()).with("pool", booked_pool())
    };
    let two =
        |name, control, snapshot: Vec<u8>| Case::new(name, "show control snapshot").with("control", control).with("snapshot", snapshot);
    vec![
        show("show-all", "show snapshot control pool list"),
        show("show-all-older", "show snapshot control=older pool").with("older", older(&booked())),
        show("show-all-former", "show snapshot former pool").with("former", former(&booked())),
        show("show-all-backwards", "show list pool control snapshot"),
        show("show-all-prefixes", "show pool=pool list=list snapshot=snapshot control=control"),
        show("show-with-pool", "show control pool"),
        show("show-with-snapshot", "show snapshot control"),
        show("show-other-pool", "show other-pool control").with("other-pool", [7; PAGE]),
        show("show-all-other-pool", "show control snapshot pool=other-pool").with("other-pool", [7; PAGE + 1]),
        show("show-bad-snapshot", "show control pool snapshot=short").with("short", sound_mill()[..6_607].to_vec()),
        show("show-two-controls", "show control one").with("one", inspected()),
        two("show-inspected", inspected(), snapshot::inspected()),
        two("show-mixed", mixed_control(), sound_mill()),
        two("show-copy-not-valid", damaged::copies(&[(4, 0)]), mill()),
    ]
}

fn damaged_alone() -> Vec<Case> {
    let show = |(rule, control)| Case::new(format!("show-{rule}"), "show control=file").with("file", control);
    damaged::controls().into_iter().map(show).collect()
}

fn damaged_together() -> Vec<Case> {
    let show = |(rule, control)| {
        let files = Case::new(format!("show-{rule}"), "show control=file snapshot");
        files.with("file", control).with("snapshot", sound_mill())
    };
    damaged::controls_with_snapshot().into_iter().map(show).collect()
}
