//! Returned values by their discriminants: which can be read and written, and which refusals of the access can be told where 14 is due,
//! too, so that the order alone decides, by the papers; and what of that was seen.

use std::collections::{BTreeMap, BTreeSet};

use hekthumar::sys::Returned;

use crate::bytes::number;
use crate::coverage;
use crate::interface::{Bytes, Call, World, NAMES};
use crate::library;
use crate::model::Why;
use crate::record::{Record, Shape};
use crate::record_calls::WRONG_DISCRIMINANTS;

/// The call's name, whether the discriminant is wrong, and what was told; nothing if the call was done.
type Case = (&'static str, bool, Option<Why>);

/// A discriminant that a call meets.
pub type Met = (&'static str, u64);

#[derive(Default)]
pub struct Discriminants {
    cases: BTreeMap<Case, u64>,
    /// Those of accesses that nothing else refused.
    values: BTreeMap<Met, u64>,
}

/// The discriminant that the call is given or finds in memory; none if it has none or cannot reach it.
pub fn met(call: &Call, world: &mut World) -> Option<Met> {
    let discriminant = match call {
        Call::WriteRecord { record: Record::Returned(Returned { discriminant, .. }), .. } => *discriminant,
        Call::ReadRecord { shape: Shape::Returned, address } => found(world, *address)?,
        _ => return None,
    };
    Some((NAMES[call.kind()], discriminant))
}

fn found(world: &mut World, address: u64) -> Option<u64> {
    let mut call = Call::LoadSpan { address, out: Bytes(vec![0; 8]) };
    let answer = library::run(world, &mut call);
    let Call::LoadSpan { out, .. } = call else { unreachable!("the call keeps its kind") };
    (answer.number() == 0).then(|| number(&out.0))
}

impl Discriminants {
    pub fn record(&mut self, met: Option<Met>, why: Option<Why>) {
        let Some((name, discriminant)) = met else { return };
        *self.cases.entry((name, discriminant > 1, why)).or_default() += 1;
        if matches!(why, None | Some(Why::Discriminant)) {
            *self.values.entry((name, discriminant)).or_default() += 1;
        }
    }

    /// What can be told and never was, and what was told and cannot be.
    pub fn faults(&self) -> Vec<String> {
        let (possible, seen) = (possible(), self.cases.keys().copied().collect());
        let text = |how: &str, (name, wrong, told): &Case| format!("{name} {how} {told:?} with a discriminant that is wrong: {wrong}");
        let mut faults: Vec<String> = possible.difference(&seen).map(|case| text("never told", case)).collect();
        faults.extend(seen.difference(&possible).map(|case| text("told", case)));
        for name in ["read_returned", "write_returned"] {
            let unseen = [0, 1].into_iter().chain(WRONG_DISCRIMINANTS).filter(|value| !self.values.contains_key(&(name, *value)));
            faults.extend(unseen.map(|value| format!("{name} never met the discriminant {value:#x}")));
        }
        faults
    }

    pub fn print(&self) {
        for ((name, wrong, told), count) in &self.cases {
            println!("{name}, discriminant wrong: {wrong}, told {told:?} {count}");
        }
    }
}

/// "14 comes after every refusal of the access". A read that finds its discriminant can still cross the page, or find a later byte absent.
fn possible() -> BTreeSet<Case> {
    let of_read = vec![Why::Crossing, Why::NotPresent];
    let mut of_write = coverage::possible("write_returned");
    of_write.retain(|why| *why != Why::Discriminant);
    let mut cases = BTreeSet::new();
    for (name, refusals) in [("read_returned", of_read), ("write_returned", of_write)] {
        for wrong in [false, true] {
            cases.insert((name, wrong, wrong.then_some(Why::Discriminant)));
            cases.extend(refusals.iter().map(|why| (name, wrong, Some(*why))));
        }
    }
    cases
}
