//! Where the frames that calls take lie among the others, by the papers; and what of that was seen. Which frame it is, is read from the table
//! as it is before and after the call.

use std::collections::{BTreeMap, BTreeSet};

use crate::bytes::*;
use crate::interface::{Answer, Call, World};

const STORES: [&str; 4] = ["store", "store_span", "write of a record", "translate"];
const REGIONS: [(&str, u8); 2] = [("stack", STACK), ("heap", HEAP)];
/// What lies right beside a frame, if there is no free one on that side at all.
const BESIDE: [&str; 5] = ["the end", "a copy", "a stack page", "a heap page", "another use"];

/// What is left below a frame that a copy takes.
#[derive(Clone, Copy, Debug, PartialEq, Eq, PartialOrd, Ord)]
pub enum Below {
    Free,
    Used,
    /// It is frame 0.
    Nothing,
}

#[derive(Clone, Copy, Debug, PartialEq, Eq, PartialOrd, Ord)]
pub enum Case {
    /// A store that takes a frame for a copy, or a translation that names it.
    Copy { by: &'static str, above: &'static str, below: Below },
    /// Growth: what lies below the lowest frame taken, and whether above the highest one there are copies and free frames.
    Growth { region: &'static str, below: &'static str, copies_above: bool, free_above: bool },
    /// Told 8, with a frame free or none.
    Refused { by: &'static str, free: bool },
}

#[derive(Default)]
pub struct Takings(BTreeMap<Case, u64>);

impl Takings {
    pub fn record(&mut self, case: Option<Case>) {
        if let Some(case) = case {
            *self.0.entry(case).or_default() += 1;
        }
    }

    /// What can be met and never was, and what was met and cannot be.
    pub fn faults(&self) -> Vec<String> {
        let (possible, seen) = (possible(), self.0.keys().copied().collect());
        let mut faults: Vec<String> = possible.difference(&seen).map(|case| format!("never met: {case:?}")).collect();
        faults.extend(seen.difference(&possible).map(|case| format!("met: {case:?}")));
        faults
    }

    pub fn print(&self) {
        for (case, count) in &self.0 {
            println!("{case:?}: met {count} times");
        }
    }
}

/// What an answered call met. `before` are the uses of the frames as they were.
pub fn case(call: &Call, answer: &Answer, before: &[u8], after: &World) -> Option<Case> {
    let (by, region) = match call {
        Call::Store { .. } => (STORES[0], None),
        Call::StoreSpan { .. } => (STORES[1], None),
        Call::WriteRecord { .. } => (STORES[2], None),
        Call::Translate { .. } => (STORES[3], None),
        Call::Resize { region, .. } => REGIONS.into_iter().find(|(_, code)| code == region).map(|(name, _)| (name, Some(name)))?,
        _ => return None,
    };
    if answer.number() == 8 {
        return Some(Case::Refused { by, free: before.contains(&FREE) });
    }
    let taken = taken(answer, before, after);
    let (lowest, highest) = (*taken.first()?, *taken.last()?);
    Some(match region {
        Some(region) => growth(before, region, lowest, highest),
        None => Case::Copy { by, above: above(before, highest), below: below(before, lowest) },
    })
}

/// The frames that were free and are not; or the one that a translation names.
fn taken(answer: &Answer, before: &[u8], after: &World) -> Vec<usize> {
    match answer {
        Answer::Place(place) if place.place == 5 => vec![place.frame.into()],
        _ => {
            let uses = after.uses();
            (0..uses.len().min(before.len())).filter(|&frame| before[frame] == FREE && uses[frame] != FREE).collect()
        }
    }
}

fn growth(before: &[u8], region: &'static str, lowest: usize, highest: usize) -> Case {
    let beyond = &before[highest + 1..];
    let below = beside(&before[..lowest], before[..lowest].last());
    Case::Growth { region, below, copies_above: beyond.contains(&COPY), free_above: beyond.contains(&FREE) }
}

fn above(before: &[u8], frame: usize) -> &'static str {
    let beyond = &before[frame + 1..];
    beside(beyond, beyond.first())
}

fn below(before: &[u8], frame: usize) -> Below {
    match &before[..frame] {
        [] => Below::Nothing,
        uses if uses.contains(&FREE) => Below::Free,
        _ => Below::Used,
    }
}

/// A free frame on the side that has to be passed over is no case of the papers.
fn beside(side: &[u8], nearest: Option<&u8>) -> &'static str {
    match nearest {
        _ if side.contains(&FREE) => "a free frame",
        None => BESIDE[0],
        Some(&usage) => BESIDE[usize::from(usage).min(4)],
    }
}

/// "Account copies shall take the highest free frame; stack and heap keep the lowest." 8 "exactly when a frame is needed and no entry has use
/// 0", or "when fewer are free than needed".
fn possible() -> BTreeSet<Case> {
    STORES.into_iter().flat_map(copies).chain(REGIONS.into_iter().flat_map(|(region, _)| growths(region))).collect()
}

fn copies(by: &'static str) -> Vec<Case> {
    let mut cases = vec![Case::Refused { by, free: false }];
    for above in BESIDE {
        cases.extend([Below::Free, Below::Used, Below::Nothing].map(|below| Case::Copy { by, above, below }));
    }
    cases
}

fn growths(region: &'static str) -> Vec<Case> {
    let mut cases: Vec<Case> = [false, true].map(|free| Case::Refused { by: region, free }).into();
    let sides = [(false, false), (false, true), (true, false), (true, true)];
    for below in BESIDE {
        cases.extend(sides.map(|(copies_above, free_above)| Case::Growth { region, below, copies_above, free_above }));
    }
    cases
}
