//! Scripts that are carried out, and snapshots that none is carried out over.

use super::case::Case;
use crate::common::folder::Content;
use crate::data::bytes::patched;
use crate::data::control::{alone, booked, booked_pool, control, copy_at, entry, former, record, UNUSED};
use crate::data::damaged;
use crate::data::layout::*;
use crate::data::list::{at_depths, booked_slots, booking, list};
use crate::data::snapshot::{self, mill, sound_mill};

const SAVES: &str = include_str!("../inputs/saves.txt");

pub fn cases() -> Vec<Case> {
    [statements(), kept(), texts(), long(), bad_snapshots()].into_iter().flatten().collect()
}

/// What the statements print.
fn statements() -> Vec<Case> {
    let no_frames = "frames 0\nbegin 0\nbegin 0 0\nstore 0x030001000000 1 1\nheap 1\nmap\n";
    vec![
        every_statement(),
        heap_left(),
        depths(),
        Case::script("run-records", sound_mill(), include_str!("../inputs/records.txt")),
        Case::script("run-no-frames", sound_mill(), no_frames),
        Case::script("run-largest", sound_mill(), include_str!("../inputs/largest.txt")),
        Case::script("run-frames", sound_mill(), "frames 257\nmap\n"),
        Case::script("run-pokes", sound_mill(), include_str!("../inputs/pokes.txt")),
        Case::script("run-account-warnings", damaged::worst_account(), "begin 0 => 0\n"),
    ]
}

fn every_statement() -> Case {
    let mut page = booked_slots()[PAGE..].to_vec();
    page[8..10].copy_from_slice(&[0x22, 0x33]);
    let stack = [entry(STACK, 0, 0, 4_095), entry(STACK, 0, 0, 4_094)];
    let heap = [entry(HEAP, 0, 0, 0), entry(HEAP, 0, 0, 1), entry(HEAP, 1, 0, 2)];
    let frames = [stack.as_slice(), &heap, &[entry(COPY, 0, 1, 1)]].concat();
    Case::script("script", mill(), include_str!("../inputs/script.txt"))
        .leaves("kept-control", alone(2, 3, &frames))
        .leaves("kept-list", list(&[(1, 1, &page)]))
}

/// Heap pages that a callee leaves, and one that it frees. What is kept before and after a return is shown: a caller's size waits for the
/// return, and nobody complains of it, nor of a tag above the depth.
fn heap_left() -> Case {
    let stack = entry(STACK, 0, 0, 4_095);
    let freed = [stack, UNUSED, entry(HEAP, 1, 0, 0), UNUSED, UNUSED, UNUSED];
    let left = [stack, entry(HEAP, 0, 0, 1), entry(HEAP, 1, 0, 0), entry(HEAP, 2, 0, 2), UNUSED, UNUSED];
    let called = |pages, frames| control(&[record(0, 1, 2, &[]), record(1, 1, pages, &[])], frames);
    Case::script("run-heap", sound_mill(), include_str!("../inputs/heap.txt"))
        .then("show freed-control left-control kept-control")
        .leaves("freed-control", called(1, &freed))
        .leaves("left-control", called(3, &left))
        .leaves("kept-control", alone(1, 3, &left))
}

/// Pages first stored to at depths 0, 1 and 2: in the frame table, in the list, and as it is applied.
fn depths() -> Case {
    let mut slots = booked_slots();
    slots[4_104..4_106].copy_from_slice(&[0x22, 0x33]);
    slots[0] = 0x44;
    let record = patched(&snapshot::slots()[..PAGE], 0x10, &[7_u64, 8].map(u64::to_le_bytes).concat());
    let copies = [copy_at(2, 4, 0), copy_at(1, 1, 0), copy_at(0, 1, 1)];
    let frames = [[entry(STACK, 0, 0, 4_095), entry(HEAP, 2, 0, 0), UNUSED].as_slice(), &copies].concat();
    let listed = list(&[(1, 0, &slots[..PAGE]), (1, 1, &slots[PAGE..]), (4, 0, &record)]);
    Case::script("run-depths", sound_mill(), include_str!("../inputs/depths.txt"))
        .with("slots", snapshot::slots())
        .then("show kept-control kept-list")
        .then("apply kept-list 1 slots kept-slots")
        .leaves("kept-control", alone(1, 1, &frames))
        .leaves("kept-list", at_depths(&listed, &[1, 0, 2]))
        .leaves("kept-slots", slots)
}

/// What is kept in files, and gone on from.
fn kept() -> Vec<Case> {
    let lengths = |name, control, pool| {
        Case::script(name, sound_mill(), include_str!("../inputs/resume-lengths.txt")).with("control", control).with("pool", pool)
    };
    let uneven = booked().len() - 1;
    let before_begin = "save-control kept-control\nbegin 0\nsave-control kept-control\n";
    vec![
        saved().leaves("kept-control", booked()).leaves("kept-pool", booked_pool()).leaves("kept-list", booking()),
        resumed(),
        lengths("resume-short-control", booked()[..FRAME_TABLE - 1].to_vec(), booked_pool()),
        lengths("resume-uneven-control", booked()[..uneven].to_vec(), booked_pool()),
        lengths("resume-uneven-zeros", vec![0; uneven], booked_pool()),
        lengths("resume-former", former(&booked()), booked_pool()),
        lengths("resume-former-no-frames", former(&alone(0, 0, &[])), Vec::new()),
        begun_over_former(),
        lengths("resume-short-pool", booked(), booked_pool()[1..].to_vec()),
        lengths("resume-empty-files", Vec::new(), Vec::new()),
        Case::script("save-before-begin", sound_mill(), before_begin),
        Case::script("save-after-poke", sound_mill(), "begin 0\npoke snapshot 12 21\nsave-control kept-control\n"),
        Case::script("save-refused-list", sound_mill(), "save-list kept-list\n").leaves_no("kept-list"),
    ]
}

/// Begin asks for lengths alone: a block made before editions for two frames is as long as one for one.
fn begun_over_former() -> Case {
    let script = "resume control pool\nlist => 1\nbegin 4 => 1\nbegin 0 => 0\nlist => 0 0\nmap => S\n";
    Case::script("resume-former-begun", mill(), script).with("control", former(&alone(0, 0, &[UNUSED; 2]))).with("pool", [7; PAGE])
}

fn saved() -> Case {
    Case::script("saves", mill(), SAVES)
}

/// A second script goes on from what the first has kept: its list is the first's, and a booking more goes into the same copy.
fn resumed() -> Case {
    let both = patched(&booking(), list_entry_at(1) + 8, &[0x22]);
    Case::script("resume", sound_mill(), SAVES)
        .with("second", include_str!("../inputs/resumes.txt"))
        .then("run snapshot second")
        .leaves("same-list", booking())
        .leaves("other-list", both)
}

/// Scripts by their bytes.
fn texts() -> Vec<Case> {
    let script = |name, script: &[u8]| Case::script(name, sound_mill(), script);
    vec![
        script("run-crlf", b"# slots\r\n\r\nbegin 0 => 0\r\n\tlist => 0 0\t\r\n"),
        script("run-no-line-end", b"begin 0\nmap"),
        script("run-escape", b"begin 0 # \x1b[31mred\x07 \xc2\x9b2J\x7f\nlist\t# caf\xc3\xa9 \xff\xfe\n"),
        script("run-file-not-text", b"begin 0\nsave-list k\xffpt\x1b => 0\n"),
        script("run-only-comments", b"# nothing\n\n   # at all"),
    ]
}

/// Files of lengths at which a reader may have a limit.
fn long() -> Vec<Case> {
    let zeros = |name, length| Case::new(name, "run snapshot script").with("snapshot", Content::Zeros(length)).with("script", SAVES);
    vec![
        zeros("run-longest-snapshot", 4 << 20),
        zeros("run-long-snapshot", (4 << 20) + 1),
        Case::script("run-longest-script", sound_mill(), "\n".repeat(65_536)),
        Case::script("run-long-script", sound_mill(), "\n".repeat(65_537)),
    ]
}

/// Snapshots that are not valid.
fn bad_snapshots() -> Vec<Case> {
    let some = ["short", "accounts", "contexts", "total"];
    let bad = damaged::snapshots().into_iter().filter(|(rule, _)| some.contains(rule));
    bad.map(|(rule, snapshot)| Case::script(format!("run-snapshot-{rule}"), snapshot, SAVES).leaves_no("kept-list")).collect()
}
