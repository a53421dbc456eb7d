//! What each edition makes of the segment 0/3 and of a fetch, by the papers; that all else is reached under both; and what of that was seen.

use std::collections::{BTreeMap, BTreeSet};

use crate::absences::{access_of, accesses, TRANSLATED};
use crate::bytes::*;
use crate::coverage::{self, FIRST};
use crate::interface::{Call, World, NAMES};
use crate::model::Why;

/// Where an access goes, as far as the editions judge it differently.
#[derive(Clone, Copy, Debug, PartialEq, Eq, PartialOrd, Ord)]
enum Target {
    /// 0/3.
    Program,
    /// Type 3 of the current program's account, on a page that a copy claims or that none claims.
    OwnData {
        copied: bool,
    },
    /// Type 3 of any other index.
    OtherData,
    Elsewhere,
}

/// An access or its translation.
#[derive(Clone, Copy, Debug, PartialEq, Eq, PartialOrd, Ord)]
struct Access {
    translated: bool,
    name: &'static str,
    target: Target,
}

/// A call under an edition, by its place in `NAMES`, and what it accesses if it is an access.
#[derive(Clone, Copy)]
pub struct Met {
    edition: u32,
    kind: usize,
    access: Option<Access>,
}

/// An access under an edition, and what was told; nothing if it was done.
type Case = (u32, Access, Option<Why>);

#[derive(Default)]
pub struct Editions {
    cases: BTreeMap<Case, u64>,
    /// Each kind of call with what it told under each edition.
    told: BTreeMap<(u32, usize, Option<Why>), u64>,
}

/// What a call meets in buffers as they are before it; none if it does not read the control block.
pub fn met(call: &Call, world: &World) -> Option<Met> {
    let kind = call.kind();
    let access = access_of(call).map(|(name, address)| {
        let translated = matches!(call, Call::Translate { .. });
        Access { translated, name, target: target(world, address) }
    });
    reads_control(NAMES[kind]).then(|| Met { edition: world.edition(), kind, access })
}

fn reads_control(name: &str) -> bool {
    !["join", "split", "begin", "begin_pages", "apply"].contains(&name)
}

fn target(world: &World, address: u64) -> Target {
    let (segment, index, page) = (address >> 40, address as usize >> 24 & 0xFFFF, (address as usize & 0xFF_FFFF) / PAGE);
    match (segment, index) {
        (0, 3) => Target::Program,
        (3, own) if own == world.program() => Target::OwnData { copied: world.is_copied(own, page) },
        (3, _) => Target::OtherData,
        _ => Target::Elsewhere,
    }
}

impl Editions {
    /// What comes before the segment is asked is the same under both editions.
    pub fn record(&mut self, met: Option<Met>, why: Option<Why>) {
        let Some(Met { edition, kind, access }) = met else { return };
        if why.is_some_and(|why| FIRST.contains(&why)) {
            return;
        }
        *self.told.entry((edition, kind, why)).or_default() += 1;
        let early = [Why::UnknownKind, Why::Length, Why::UpperBits];
        if let (Some(access), false) = (access, why.is_some_and(|why| early.contains(&why))) {
            *self.cases.entry((edition, access, why)).or_default() += 1;
        }
    }

    /// What can be told and never was, and what was told and cannot be.
    pub fn faults(&self) -> Vec<String> {
        let possible = possible();
        let judged = |(edition, access, _): &Case| access.name == "fetch" || (*edition, access.target) == (OLDER, Target::Program);
        let seen = self.cases.keys().copied().filter(judged).collect();
        let text = |how: &str, (edition, access, told): &Case| format!("edition {edition} {how} {told:?} to {access:?}");
        let mut faults: Vec<String> = possible.difference(&seen).map(|case| text("never told", case)).collect();
        faults.extend(seen.difference(&possible).map(|case| text("told", case)));
        let unseen = told_under_both().into_iter().filter(|case| !self.told.contains_key(case));
        faults.extend(unseen.map(|(edition, kind, told)| format!("{} never told {told:?} under edition {edition}", NAMES[kind])));
        faults
    }

    pub fn print(&self) {
        for ((edition, access, told), count) in self.cases.iter().filter(|((_, access, _), _)| access.name == "fetch") {
            let Access { translated, target, .. } = access;
            println!("edition {edition}, fetch (translated: {translated}) in {target:?}: told {told:?} {count}");
        }
        let reserved = self.cases.iter().filter(|((edition, access, _), _)| (*edition, access.target) == (OLDER, Target::Program));
        println!("edition 1, told 4 in 0/3: {} times", reserved.map(|(_, count)| count).sum::<u64>());
    }
}

/// Each access by itself, and by its translation if it has one.
fn ways(name: &'static str, target: Target) -> impl Iterator<Item = Access> {
    let by_translation = TRANSLATED.contains(&name).then_some(true);
    [false].into_iter().chain(by_translation).map(move |translated| Access { translated, name, target })
}

/// Older: 0/3 is "reserved (4 for every kind)". Of a fetch, all that it can be told past the upper bits.
fn possible() -> BTreeSet<Case> {
    let reserved = accesses().flat_map(|name| ways(name, Target::Program)).map(|access| (OLDER, access, Some(Why::NoSegment)));
    reserved.chain(EDITIONS.into_iter().flat_map(fetches)).collect()
}

fn fetches(edition: u32) -> Vec<Case> {
    let [original, copy] = [false, true].map(|copied| Target::OwnData { copied });
    let mut cases = vec![];
    for target in [Target::Program, original, copy, Target::OtherData, Target::Elsewhere] {
        let told = told_to_fetch(edition, target);
        cases.extend(ways("fetch", target).flat_map(|access| told.iter().map(move |told| (edition, access, *told))));
    }
    cases
}

/// "Fetch is allowed in type 3 for the current program's account, reading what a load reads; elsewhere it is 7"; newer: "in 0/3 only". A fetch
/// is aligned, so it is never 6.
fn told_to_fetch(edition: u32, target: Target) -> Vec<Option<Why>> {
    let allowed = vec![None, Some(Why::Entry), Some(Why::Misaligned), Some(Why::NotPresent)];
    let forbidden = [Why::Entry, Why::Misaligned, Why::Forbidden];
    let also: &[Why] = match (edition, target) {
        (OLDER, Target::Program) => return vec![Some(Why::NoSegment)],
        (NEWER, Target::Program) | (OLDER, Target::OwnData { .. }) => return allowed,
        (_, Target::Elsewhere) => &[Why::NoSegment, Why::NoAccount],
        (_, Target::OtherData) => &[Why::NoAccount],
        _ => &[],
    };
    forbidden.iter().chain(also).map(|why| Some(*why)).collect()
}

/// Every call that reads the control block is done under both editions, and refused for every reason past the first 1.
fn told_under_both() -> Vec<(u32, usize, Option<Why>)> {
    let mut told = vec![];
    for (kind, name) in NAMES.into_iter().enumerate().filter(|(_, name)| reads_control(name)) {
        let reasons = coverage::possible(name).into_iter().filter(|why| !FIRST.contains(why)).map(Some);
        let all: Vec<Option<Why>> = reasons.chain([None]).collect();
        told.extend(EDITIONS.into_iter().flat_map(|edition| all.iter().map(move |why| (edition, kind, *why))));
    }
    told
}
