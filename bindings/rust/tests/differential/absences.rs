//! Where an access can be told 13, and with which distances, by the papers; and what of that was seen.

use std::collections::{BTreeMap, BTreeSet};

use crate::bytes::PAGE;
use crate::interface::{record_call, Answer, Call, NAMES};

/// In the order of the kinds of a translation, which answers for these and not for records.
pub const TRANSLATED: [&str; 5] = ["load", "store", "fetch", "load_span", "store_span"];

/// Each segment, with a number that divides every offset at which its bytes present can end.
const SEGMENTS: [(&str, usize); 8] = [
    ("transaction", 1),
    ("shadow stack", 8),
    ("program", 1),
    ("block context", 8),
    ("metadata", 8),
    ("account data", 1),
    ("stack", PAGE),
    ("heap", PAGE),
];

/// One way to be told 13: by an access or by its translation, in a segment, with the first byte present or not.
#[derive(Clone, Copy, Debug, PartialEq, Eq, PartialOrd, Ord)]
struct Case {
    translated: bool,
    access: &'static str,
    segment: &'static str,
    first_present: bool,
}

#[derive(Default)]
pub struct Absences {
    seen: BTreeMap<Case, u64>,
    /// The distances told to each access, and to its translation.
    distances: BTreeMap<(bool, &'static str), BTreeSet<u64>>,
}

impl Absences {
    pub fn record(&mut self, call: &Call, answer: &Answer) {
        let (Some((access, address)), 13, Some(distance)) = (access_of(call), answer.number(), answer.distance()) else { return };
        let translated = matches!(call, Call::Translate { .. });
        let case = Case { translated, access, segment: segment_of(address), first_present: distance > 0 };
        *self.seen.entry(case).or_default() += 1;
        self.distances.entry((translated, access)).or_default().insert(distance);
    }

    /// What can be told and never was, and what was told and cannot be.
    pub fn faults(&self) -> Vec<String> {
        let (possible, seen) = (possible(), self.seen.keys().copied().collect());
        let mut faults: Vec<String> = possible.difference(&seen).map(|case| format!("13 was never told to {case:?}")).collect();
        faults.extend(seen.difference(&possible).map(|case| format!("13 was told to {case:?}")));
        for (&(translated, access), told) in &self.distances {
            let unseen: Vec<u64> = edges(access).into_iter().filter(|distance| !told.contains(distance)).collect();
            if !unseen.is_empty() {
                faults.push(format!("{access} (translated: {translated}) was never told the distances {unseen:?}"));
            }
        }
        faults
    }

    pub fn print(&self) {
        println!("told 13, with a distance of 0 and above 0:");
        for ((translated, access), told) in &self.distances {
            let count = |segment, first_present| self.seen.get(&Case { translated: *translated, access, segment, first_present });
            let cell = |(segment, _): &(&'static str, usize)| match (count(segment, false), count(segment, true)) {
                (None, None) => None,
                (first, later) => Some(format!("{segment} {} {}", first.unwrap_or(&0), later.unwrap_or(&0))),
            };
            let cells: Vec<String> = SEGMENTS.iter().filter_map(cell).collect();
            let prefix = if *translated { "translate, " } else { "" };
            println!("{prefix}{access}: {}; {} distances up to {:?}", cells.join(", "), told.len(), told.last());
        }
    }
}

/// Bytes of the longest access of this kind. A value, which is aligned, crosses no multiple of as many, a span and a record no page.
fn longest(access: &str) -> usize {
    match record_call(access) {
        Some((_, shape)) => shape.length(),
        None if access.ends_with("span") => PAGE,
        None => 8,
    }
}

/// Distances that must be told: to a value and to a record all below its longest length, to a span the first and the last such.
fn edges(access: &str) -> Vec<u64> {
    let last = longest(access) as u64 - 1;
    if access.ends_with("span") {
        return vec![0, last];
    }
    (0..=last).collect()
}

/// The accesses that a translation answers for, then those of records.
pub fn accesses() -> impl Iterator<Item = &'static str> {
    TRANSLATED.into_iter().chain(NAMES.into_iter().filter(|name| record_call(name).is_some()))
}

/// "Fetch is allowed in 0/3 only", in the older edition "in type 3 for the current program's account". "Loads are allowed in every row."
fn is_permitted(access: &str, segment: &str) -> bool {
    let stores = record_call(access).map_or(access.starts_with("store"), |(is_read, _)| !is_read);
    match access {
        "fetch" => ["program", "account data"].contains(&segment),
        _ if stores => ["account data", "stack", "heap"].contains(&segment),
        _ => true,
    }
}

/// The first byte is present only if the access goes across the end of the bytes present.
fn possible() -> BTreeSet<Case> {
    let mut cases = BTreeSet::new();
    for (segment, divisor) in SEGMENTS {
        for access in accesses().filter(|access| is_permitted(access, segment)) {
            for translated in [false, true].into_iter().filter(|translated| !translated || TRANSLATED.contains(&access)) {
                cases.insert(Case { translated, access, segment, first_present: false });
                if divisor < longest(access) {
                    cases.insert(Case { translated, access, segment, first_present: true });
                }
            }
        }
    }
    cases
}

/// The access that is made or translated, and its address.
pub fn access_of(call: &Call) -> Option<(&'static str, u64)> {
    let (kind, address) = match call {
        Call::Translate { kind, address, .. } => (usize::from(*kind), address),
        Call::Load { address, .. } => (0, address),
        Call::Store { address, .. } => (1, address),
        Call::Fetch { address, .. } => (2, address),
        Call::LoadSpan { address, .. } => (3, address),
        Call::StoreSpan { address, .. } => (4, address),
        Call::ReadRecord { address, .. } | Call::WriteRecord { address, .. } => return Some((NAMES[call.kind()], *address)),
        _ => return None,
    };
    Some((TRANSLATED.get(kind)?, *address))
}

fn segment_of(address: u64) -> &'static str {
    let row = match (address >> 40, address >> 24 & 0xFFFF) {
        (0, index @ 1..=4) => index as usize - 1,
        (2, _) => 4,
        (3, _) => 5,
        (5, 0) => 6,
        (7, 0) => 7,
        _ => return "no segment",
    };
    SEGMENTS[row].0
}
