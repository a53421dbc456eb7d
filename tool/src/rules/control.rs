//! The rules of a control block, with its snapshot and its pool.

use super::{former_control, Broken, Findings};
use crate::text::count;
use crate::verdict::account_valid;
use crate::world::{World, COPY};
use hekthumar::inspect::{frame_entries, ControlHeader, FrameEntry, Invocation};
use hekthumar::layout::*;
use hekthumar::{control_len, pool_len, Edition};
use std::collections::BTreeMap;

/// The rules that a control block breaks by itself, whatever the snapshot and the pool.
pub fn broken(control: &[u8]) -> Vec<Broken> {
    if let Some(former) = former_control::broken(control) {
        return vec![former];
    }
    let mut findings = Findings::default();
    let header = ControlHeader::read(control).filter(|_| control.len() >= FRAME_TABLE);
    let Some(header) = header else {
        let rule = format!("a control block has {FRAME_TABLE} bytes before its frame table; found {}", control.len());
        findings.broken(control.len(), rule);
        return findings.0;
    };
    words(&mut findings, header);
    if header.frames as usize <= MAX_FRAMES {
        let length = control_len(header.frames as usize) as u64;
        let rule = format!("the length, {FRAME_TABLE} + {FRAME_ENTRY} * frames,");
        findings.equal(control.len(), &rule, length, control.len() as u64);
    }
    if (1..=MAX_INVOCATIONS).contains(&(header.invocations as usize)) {
        current(&mut findings, control, header.invocations as usize);
    }
    findings.0
}

/// The rules of each word of the header by itself.
fn words(findings: &mut Findings, header: ControlHeader) {
    findings.at_most(0, "the frame count", MAX_FRAMES, header.frames);
    findings.at_least(4, "the number of live invocations", 1, header.invocations);
    findings.at_most(4, "the number of live invocations", MAX_INVOCATIONS, header.invocations);
    findings.equal(8, "the offset of the shadow records", CONTROL_HEADER as u64, header.shadow_at);
    findings.equal(12, "the offset of the frame table", FRAME_TABLE as u64, header.table_at);
    if Edition::from_number(header.edition).is_none() {
        findings.broken(16, format!("the edition has to be 1 (older) or 2 (newer); found {}", header.edition));
    }
    findings.equal(20, "the header's last word", 0, header.zero);
}

/// The rules of the current invocation's record.
fn current(findings: &mut Findings, control: &[u8], number: usize) {
    let (at, Some(record)) = (Invocation::at(number), Invocation::read(control, number)) else {
        return;
    };
    let least = format!("the current program, below the {MAX_ACCOUNTS} accounts that a snapshot can have,");
    findings.at_most(at, &least, MAX_ACCOUNTS - 1, record.program);
    findings.at_most(at + 2, "the number of stack pages of the current invocation", MAX_REGION, record.stack);
    findings.at_most(at + 4, "the number of heap pages of the current invocation", MAX_REGION, record.heap);
}

/// The rules that a control block breaks, by itself or with its snapshot and its pool.
pub fn all_broken(world: World) -> Vec<Broken> {
    let alone = broken(world.control);
    if !alone.is_empty() {
        return alone;
    }
    [program_broken(world), pool_broken(world)].concat()
}

/// The rule that ties the current program to the snapshot, in a control block that breaks none by itself.
fn program_broken(world: World) -> Vec<Broken> {
    let mut findings = Findings::default();
    if let Some(current) = world.current() {
        if u32::from(current.program) >= world.accounts() {
            let (at, accounts) = (Invocation::at(world.invocations()), world.accounts());
            findings
                .broken(at, format!("the current program has to be one of the snapshot's {accounts} accounts; found {}", current.program));
        }
    }
    findings.0
}

/// The rule that ties the pool to a control block that breaks none by itself.
fn pool_broken(world: World) -> Vec<Broken> {
    let mut findings = Findings::default();
    if let Some(header) = ControlHeader::read(world.control) {
        let (length, found) = (pool_len(header.frames as usize), world.pool.len());
        if length != found {
            findings.broken(0, format!("with {} the pool has {length} bytes; found {found}", count(header.frames.into(), "frame")));
        }
    }
    findings.0
}

/// What in the frame table keeps a change list from being made, in buffers that are valid.
pub fn copies_broken(world: World) -> Vec<Broken> {
    let mut findings = Findings::default();
    let mut held = BTreeMap::new();
    for (frame, entry) in frame_entries(world.control).enumerate().filter(|(_, entry)| entry.usage == COPY) {
        let at = FrameEntry::at(frame);
        if let Some(trouble) = copy_broken(world, entry) {
            findings.broken(at, format!("frame {frame} is a copy of page {} of account {}: {trouble}", entry.page, entry.account));
        }
        let (first, depth) = *held.entry((entry.account, entry.page)).or_insert((frame, entry.depth));
        if first != frame {
            let page = format!("page {} of account {}, with depths {depth} and {}", entry.page, entry.account, entry.depth);
            findings.broken(at, format!("frames {first} and {frame} are both copies of {page}"));
        }
    }
    findings.0
}

/// Why a copy stands for no page of an account.
fn copy_broken(world: World, entry: FrameEntry) -> Option<String> {
    let (accounts, length) = (world.accounts() as usize, world.data_length(entry.account));
    // True of every snapshot, also where none was given.
    if usize::from(entry.account) >= MAX_ACCOUNTS {
        return Some(format!("a snapshot has at most {MAX_ACCOUNTS} accounts"));
    }
    if usize::from(entry.page) * PAGE >= MAX_DATA {
        return Some(format!("an account has at most {MAX_DATA} bytes"));
    }
    if usize::from(entry.account) >= accounts {
        return Some(format!("the snapshot has {}", count(accounts as u64, "account")));
    }
    if !account_valid(world.snapshot, entry.account) {
        return Some("the account's entry is not valid".to_string());
    }
    (usize::from(entry.page) * PAGE >= length).then(|| format!("the account has {}", count(length as u64, "byte")))
}
