//! How deep pages are stored to, first and again, which depths lists name, and what apply makes of an entry's end, by the papers; and
//! what of that was seen.

use std::cmp::Ordering::{self, *};
use std::collections::{BTreeMap, BTreeSet};

use crate::bytes::*;
use crate::interface::{Call, World};
use crate::model::Why;

const STORES: [&str; 3] = ["store", "store_span", "write of a record"];

#[derive(Clone, Copy, Debug, PartialEq, Eq, PartialOrd, Ord)]
enum Case {
    /// A store that takes a copy: is the depth above 0, and how does it compare with that of a copy of the page that the latest begin
    /// dropped?
    First { by: &'static str, deep: bool, dropped: Option<Ordering> },
    /// A store to a page that has a copy, at a depth that compares so with the copy's.
    Again { by: &'static str, depth: Ordering },
    /// A copy in a list, in a table that calls have written or in a damaged one.
    Listed { damaged: bool, depth: u16 },
    /// An entry of a list that was applied to its account or to another.
    Applied { own: bool, depth: u16 },
    /// A list whose entries of the account, or of others, do not end in 0.
    NotZero { own: bool, others: bool },
    /// A list as the base laid it out.
    BaseLayout,
}

/// What a call meets, and the copies that it drops if it is a begin.
pub struct Met {
    cases: Vec<Case>,
    dropped: Option<Dropped>,
}

/// The copies that the latest begin of a history dropped: account and page, and the depth.
#[derive(Default)]
pub struct Dropped(BTreeMap<[u16; 2], u16>);

impl Dropped {
    /// In buffers as they are before the call, which calls from an accepted begin on have written or which are damaged.
    pub fn met(&self, call: &Call, world: &World, is_replayed: bool) -> Met {
        let cases = match call {
            Call::Store { address, .. } if is_replayed => self.storing(world, STORES[0], *address),
            Call::StoreSpan { address, .. } if is_replayed => self.storing(world, STORES[1], *address),
            Call::WriteRecord { address, .. } if is_replayed => self.storing(world, STORES[2], *address),
            Call::ChangeList { .. } => listing(world, !is_replayed),
            Call::Apply { list, account, .. } => applying(&list.0, *account),
            _ => vec![],
        };
        let is_begin = matches!(call, Call::Begin { .. } | Call::BeginPages { .. });
        let dropped = is_begin.then(|| if is_replayed { Dropped(copies(world)) } else { Dropped::default() });
        Met { cases, dropped }
    }

    fn storing(&self, world: &World, by: &'static str, address: u64) -> Vec<Case> {
        let depth = world.live() as u16 - 1;
        let page = [(address >> 24) as u16, ((address & 0xFF_FFFF) as usize / PAGE) as u16];
        let case = match copies(world).get(&page) {
            _ if address >> 40 != 3 => return vec![],
            Some(first) => Case::Again { by, depth: depth.cmp(first) },
            None => Case::First { by, deep: depth > 0, dropped: self.0.get(&page).map(|dropped| depth.cmp(dropped)) },
        };
        vec![case]
    }

    /// After the call, which is refused for this or done.
    pub fn take_in(&mut self, met: Met, why: Option<Why>) {
        if let (Some(dropped), None) = (met.dropped, why) {
            *self = dropped;
        }
    }
}

fn copies(world: &World) -> BTreeMap<[u16; 2], u16> {
    world.copies().into_iter().map(|[account, page, depth]| ([account, page], depth)).collect()
}

fn listing(world: &World, damaged: bool) -> Vec<Case> {
    world.copies().into_iter().map(|[_, _, depth]| Case::Listed { damaged, depth }).collect()
}

fn applying(list: &[u8], account: u16) -> Vec<Case> {
    let words: Vec<u64> = (0..4).map(|word| number(&part_or_zeros(list, 4 * word, 4))).collect();
    let count = words[0] as usize;
    if count > 0 && words[1..] == list_words_by(BASE_LIST_ENTRY, count as u64) {
        return vec![Case::BaseLayout];
    }
    if words[1..] != list_words(count as u64) {
        return vec![];
    }
    let entries = list.get(LIST_HEADER..).unwrap_or(&[]).chunks_exact(LIST_ENTRY).take(count);
    let ends: Vec<(bool, u16, u16)> = entries.map(|entry| (u16_at(entry, 0) == account, u16_at(entry, 8), u16_at(entry, 10))).collect();
    let not_zero = |own: bool| ends.iter().any(|&(is_own, _, zero)| is_own == own && zero != 0);
    if not_zero(true) || not_zero(false) {
        return vec![Case::NotZero { own: not_zero(true), others: not_zero(false) }];
    }
    ends.iter().map(|&(own, depth, _)| Case::Applied { own, depth }).collect()
}

#[derive(Default)]
pub struct Depths(BTreeMap<Case, u64>);

impl Depths {
    /// Stores, lists and applications that were done, and lists that were refused for what they are here for.
    pub fn record(&mut self, met: &Met, why: Option<Why>) {
        for case in &met.cases {
            let told = match case {
                Case::NotZero { .. } => Some(Why::ListZero),
                Case::BaseLayout => Some(Why::ListLayout),
                _ => None,
            };
            if why == told {
                *self.0.entry(*case).or_default() += 1;
            }
        }
    }

    /// What has to be met and never was, and what was met and cannot be.
    pub fn faults(&self) -> Vec<String> {
        let seen = self.0.keys().copied().collect();
        let mut faults: Vec<String> = due().difference(&seen).map(|case| format!("never met: {case:?}")).collect();
        faults.extend(seen.iter().filter(|case| !can_be(case)).map(|case| format!("met: {case:?}")));
        faults
    }

    pub fn print(&self) {
        for (case, count) in self.0.iter().filter(|(case, _)| due().contains(case)) {
            println!("{case:?}: met {count} times");
        }
    }
}

/// Calls reach the depths 0 to 15, of which none is below 0. Damaged tables, and lists given to apply, may hold any.
fn can_be(case: &Case) -> bool {
    match case {
        Case::First { deep: false, dropped: Some(Greater), .. } => false,
        Case::Listed { damaged: false, depth } => usize::from(*depth) < MAX_LIVE,
        _ => true,
    }
}

fn due() -> BTreeSet<Case> {
    let reached = 0..MAX_LIVE as u16;
    let mut due = BTreeSet::from([Case::BaseLayout]);
    due.extend([true, false].map(|own| Case::NotZero { own, others: !own }));
    due.extend(reached.clone().map(|depth| Case::Listed { damaged: false, depth }));
    due.extend(ODD_DEPTHS.map(|depth| Case::Listed { damaged: true, depth }));
    let depths = reached.chain(ODD_DEPTHS);
    due.extend(depths.flat_map(|depth| [true, false].map(|own| Case::Applied { own, depth })));
    due.extend(STORES.into_iter().flat_map(stores));
    due
}

fn stores(by: &'static str) -> Vec<Case> {
    let orders = [Less, Equal, Greater];
    let mut cases = orders.map(|depth| Case::Again { by, depth }).to_vec();
    for deep in [false, true] {
        let first = orders.map(Some).into_iter().chain([None]).map(|dropped| Case::First { by, deep, dropped });
        cases.extend(first.filter(can_be));
    }
    cases
}
