//! Control blocks and pools.

use super::bytes::{with_word, words};
use super::layout::*;
use super::snapshot::slots;

/// The record of an invocation; registers that are not given are zeros.
pub fn record(program: u16, stack: u16, heap: u16, registers: &[u64]) -> Vec<u8> {
    let mut record: Vec<u8> = [program, stack, heap, 0].into_iter().flat_map(u16::to_le_bytes).collect();
    record.extend(registers.iter().flat_map(|register| register.to_le_bytes()));
    record.resize(RECORD, 0);
    record
}

/// The entry of a frame; of a copy, one made at depth 0.
pub fn entry(usage: u8, tag: u8, account: u16, page: u16) -> [u8; FRAME_ENTRY] {
    let ([a0, a1], [p0, p1]) = (account.to_le_bytes(), page.to_le_bytes());
    [usage, tag, a0, a1, p0, p1, 0, 0]
}

/// The entry of a frame that holds a copy made at a depth.
pub fn copy_at(depth: u16, account: u16, page: u16) -> [u8; FRAME_ENTRY] {
    let mut copy = entry(COPY, 0, account, page);
    copy[COPY_DEPTH..].copy_from_slice(&depth.to_le_bytes());
    copy
}

/// The entry of a frame that nobody uses.
pub const UNUSED: [u8; FRAME_ENTRY] = [FREE, 0, 0, 0, 0, 0, 0, 0];

/// A control block of the newer edition with these live invocations and these frames.
pub fn control(invocations: &[Vec<u8>], frames: &[[u8; FRAME_ENTRY]]) -> Vec<u8> {
    let header = words([frames.len(), invocations.len(), CONTROL_HEADER, FRAME_TABLE, NEWER, 0]);
    let mut shadow = [vec![0; RECORD], invocations.concat()].concat();
    shadow.resize(RECORD * RECORDS, 0);
    [header, shadow, frames.as_flattened().to_vec()].concat()
}

/// The same control block in the older edition.
pub fn older(control: &[u8]) -> Vec<u8> {
    with_word(control, EDITION, OLDER)
}

/// The same control block as it was before editions.
pub fn former(control: &[u8]) -> Vec<u8> {
    let counts = &control[..RECORDS_AT];
    let offsets = words([FORMER_HEADER, FRAME_TABLE - (CONTROL_HEADER - FORMER_HEADER)]);
    [counts, &offsets, &control[CONTROL_HEADER..]].concat()
}

/// One invocation of program 0 with these pages of stack and heap.
pub fn alone(stack: u16, heap: u16, frames: &[[u8; FRAME_ENTRY]]) -> Vec<u8> {
    control(&[record(0, stack, heap, &[])], frames)
}

/// 70 frames in every use, and two invocations; with the mill's snapshot frame 64 holds a page of no account.
pub fn mixed_control() -> Vec<u8> {
    let mut frames = [UNUSED; 70];
    frames[0] = copy_at(1, 1, 1);
    frames[1] = entry(STACK, 0, 0, 4_095);
    frames[2] = entry(HEAP, 1, 0, 0);
    frames[63] = entry(9, 3, 2, 1);
    frames[64] = entry(COPY, 0, 5, 0);
    control(&[record(0, 1, 0, &[]), record(3, 1, 1, &[17, 0, u64::MAX])], &frames)
}

/// Two invocations over the snapshot of the same name: a stack page of the first, a copy, a use that nobody claims, a free frame, a heap
/// page of the second, a free frame whatever else its entry holds.
pub fn inspected() -> Vec<u8> {
    let frames = [entry(STACK, 0, 0, 4_095), entry(COPY, 0, 1, 1), entry(4, 0, 1, 1), UNUSED, entry(HEAP, 1, 0, 0), entry(FREE, 5, 1, 9)];
    control(&[record(0, 1, 0, &[]), record(0, 1, 1, &[])], &frames)
}

/// After begin with 16 frames and a booking on page 1 of account 1.
pub fn booked() -> Vec<u8> {
    let mut frames = [UNUSED; 16];
    frames[0] = entry(STACK, 0, 0, 4_095);
    frames[15] = entry(COPY, 0, 1, 1);
    alone(1, 0, &frames)
}

/// The pool of those 16 frames: page 1 of the slots with slot 4100 booked in the last frame, the rest zeros.
pub fn booked_pool() -> Vec<u8> {
    let mut pool = [&[0; 15 * PAGE], &slots()[PAGE..]].concat();
    pool[15 * PAGE + 4] = 0x11;
    pool.resize(16 * PAGE, 0);
    pool
}
