//! What a return finds, and what can then be done with heap pages that a deeper invocation left, by the papers; and what of that was seen.

use std::cmp::Ordering::{self, *};
use std::collections::{BTreeMap, BTreeSet};

use crate::bytes::*;
use crate::interface::{Answer, Call, World};
use crate::model::Why;

const ORDERS: [Ordering; 3] = [Less, Equal, Greater];
const REGIONS: [(&str, u8); 2] = [("stack", STACK), ("heap", HEAP)];
const STORES: [&str; 4] = ["store", "store_span", "write of a record", "translate"];

/// A tag is compared with the depth. A page is counted if the caller's size takes it in.
#[derive(Clone, Copy, Debug, PartialEq, Eq, PartialOrd, Ord)]
pub enum Case {
    /// The returning invocation's sizes, compared with the caller's; and its heap's with that in the record below, if that is somebody's.
    Return { stack: Ordering, heap: Ordering, stale: Option<Ordering> },
    /// A store, or a store's translation, that is done or refused by the page's tag.
    Store { by: &'static str, region: &'static str, tag: Ordering, counted: bool },
    /// A shrink that is done or refused by tag: the departing page that is nearest to the base, and the outermost one.
    Shrink { region: &'static str, nearest: Ordering, counted: bool, outermost: Ordering },
    /// A return to a caller whose record has this field wrong, and the others right.
    ReturnToWrong { field: &'static str },
}

/// Each case with the number that was told.
#[derive(Default)]
pub struct Returns(BTreeMap<(Case, u8), u64>);

impl Returns {
    /// `case` is what the call met.
    pub fn record(&mut self, case: Option<Case>, answer: &Answer, why: Option<Why>) {
        if let (Some(case), None | Some(Why::Tag)) = (case, why) {
            *self.0.entry((case, answer.number())).or_default() += 1;
        }
    }

    /// What can be met and never was, and what was met and cannot be.
    pub fn faults(&self) -> Vec<String> {
        let (possible, seen) = (possible(), self.0.keys().copied().collect());
        let mut faults: Vec<String> = possible.difference(&seen).map(|(case, told)| format!("{told} was never told to {case:?}")).collect();
        faults.extend(seen.difference(&possible).map(|(case, told)| format!("{told} was told to {case:?}")));
        faults
    }

    pub fn print(&self) {
        for ((case, told), count) in &self.0 {
            println!("{case:?}: {told} was told {count} times");
        }
    }
}

/// What a call meets in buffers as they are before it. In damaged ones only a wrong record of the caller is of interest.
pub fn case(call: &Call, world: &World, damaged: bool) -> Option<Case> {
    match call {
        Call::Return { .. } if damaged => wrong_caller(world),
        _ if damaged => None,
        Call::Return { .. } => returning(world),
        Call::Store { address, .. } => storing(world, "store", *address),
        Call::StoreSpan { address, .. } => storing(world, "store_span", *address),
        Call::WriteRecord { address, .. } => storing(world, "write of a record", *address),
        Call::Translate { kind: 1 | 4, address, .. } => storing(world, "translate", *address),
        Call::Resize { region, pages } => shrinking(world, *region, *pages),
        _ => None,
    }
}

fn returning(world: &World) -> Option<Case> {
    let caller = world.live() - 1;
    let size = |region| world.region_size(region).cmp(&world.region_size_in(caller, region));
    let stale = (caller > 1).then(|| world.region_size(HEAP).cmp(&world.region_size_in(caller - 1, HEAP)));
    (caller > 0).then(|| Case::Return { stack: size(STACK), heap: size(HEAP), stale })
}

/// The pages of a region that the caller counts; none without a caller.
fn callers(world: &World, region: u8) -> usize {
    if world.live() == 1 {
        return 0;
    }
    world.region_size_in(world.live() - 1, region)
}

/// A page by its distance from the base, and its frame's tag compared with the depth.
fn tag(world: &World, region: u8, place: usize) -> Option<Ordering> {
    let page = if region == STACK { MAX_PAGES - 1 - place } else { place };
    Some(world.tag_of(region, page)?.cmp(&(world.live() - 1)))
}

fn storing(world: &World, by: &'static str, address: u64) -> Option<Case> {
    let page = (address as usize & 0xFF_FFFF) / PAGE;
    let ((name, region), place) = match address >> 24 {
        0x05_0000 => (REGIONS[0], MAX_PAGES - 1 - page),
        0x07_0000 => (REGIONS[1], page),
        _ => return None,
    };
    Some(Case::Store { by, region: name, tag: tag(world, region, place)?, counted: place < callers(world, region) })
}

fn shrinking(world: &World, region: u8, pages: usize) -> Option<Case> {
    let (name, _) = REGIONS.into_iter().find(|(_, code)| *code == region)?;
    let size = world.region_size(region);
    if pages >= size {
        return None;
    }
    let (nearest, outermost) = (tag(world, region, pages)?, tag(world, region, size - 1)?);
    Some(Case::Shrink { region: name, nearest, counted: pages < callers(world, region), outermost })
}

fn wrong_caller(world: &World) -> Option<Case> {
    let caller = world.live() - 1;
    let program = part_or_zeros(&world.control, RECORDS_AT + RECORD * caller, 2);
    let wrong = [
        ("program", number(&program) as usize >= world.accounts()),
        ("stack", world.region_size_in(caller, STACK) > MAX_PAGES),
        ("heap", world.region_size_in(caller, HEAP) > MAX_PAGES),
    ];
    let mut fields = wrong.into_iter().filter(|(_, wrong)| *wrong).map(|(field, _)| field);
    let field = fields.next()?;
    fields.next().is_none().then_some(Case::ReturnToWrong { field })
}

/// How a page's tag can compare with the depth. What the caller does not count was added since its call, so no shallower than at the depth.
/// What it counts is shallower, except for heap pages that an earlier invocation left: stack pages outlive none.
fn tags(region: &str, counted: bool) -> &'static [Ordering] {
    match (region, counted) {
        ("stack", true) => &[Less],
        ("stack", false) => &[Equal],
        (_, true) => &ORDERS,
        (_, false) => &[Equal, Greater],
    }
}

fn possible() -> BTreeSet<(Case, u8)> {
    let wrong = ["program", "stack", "heap"].map(|field| (Case::ReturnToWrong { field }, 0));
    let regions = REGIONS.into_iter().flat_map(|(region, _)| [(region, false), (region, true)]);
    let pages = regions.flat_map(|(region, counted)| [stores(region, counted), shrinks(region, counted)].concat());
    returns().into_iter().chain(pages).chain(wrong).collect()
}

/// A callee may free heap pages that its caller counts, but no such stack page: of the sizes only the heap's falls.
fn returns() -> Vec<(Case, u8)> {
    let mut cases = vec![];
    for stack in [Equal, Greater] {
        for heap in ORDERS {
            let stale = ORDERS.map(Some).into_iter().chain([None]);
            cases.extend(stale.map(|stale| (Case::Return { stack, heap, stale }, 0)));
        }
    }
    cases
}

/// "tag at or above the depth"
fn stores(region: &'static str, counted: bool) -> Vec<(Case, u8)> {
    let cases =
        |by| tags(region, counted).iter().map(move |&tag| (Case::Store { by, region, tag, counted }, if tag == Less { 7 } else { 0 }));
    STORES.into_iter().flat_map(cases).collect()
}

/// "7 if one has a tag below the depth"
fn shrinks(region: &'static str, counted: bool) -> Vec<(Case, u8)> {
    let mut cases = vec![];
    for &nearest in tags(region, counted) {
        let outermost: BTreeSet<Ordering> = tags(region, counted).iter().chain(tags(region, false)).copied().collect();
        for outermost in outermost {
            let case = Case::Shrink { region, nearest, counted, outermost };
            let kept = nearest == Less || outermost == Less;
            cases.push((case, if kept { 7 } else { 0 }));
            // One between the two may keep them.
            if !kept && counted {
                cases.push((case, 7));
            }
        }
    }
    cases
}
