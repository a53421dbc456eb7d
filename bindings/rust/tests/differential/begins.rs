//! What a begin can tell while more than one refusal is due, so that the order alone decides, and what it makes of each edition and each
//! number of pages, by the papers; and what of that was seen.

use std::collections::{BTreeMap, BTreeSet};

use crate::bytes::EDITIONS;
use crate::calls::{WRONG_EDITIONS, WRONG_STACK_PAGES};
use crate::coverage::{BEGIN, PROGRAM};
use crate::interface::{Call, World, NAMES};
use crate::model::Why;

/// What a begin asks, each part after the one before it. A bad edition together with bad pages is one 2: the model asks the edition first.
const ORDER: [&[Why]; 5] = [&BEGIN, &[Why::Edition], &[Why::StackPages], &PROGRAM, &[Why::NoFreeFrame]];

/// Which begin, what it told, and what it would have told next.
type Contest = (&'static str, Why, Why);

/// A number of pages, whether there are frames, and what was told; nothing if the begin was done.
type Pages = (usize, bool, Option<Why>);

/// Which begin, an edition, and what was told; nothing if the begin was done.
type Edition = (&'static str, u32, Option<Why>);

#[derive(Default)]
pub struct Begins {
    contests: BTreeMap<Contest, u64>,
    editions: BTreeMap<Edition, u64>,
    pages: BTreeMap<Pages, u64>,
}

impl Begins {
    /// `due` is all that the begin is refused for, in its order.
    pub fn record(&mut self, call: &Call, world: &World, due: &[Why]) {
        if let [told, others @ ..] = due {
            for other in others {
                *self.contests.entry((NAMES[call.kind()], *told, *other)).or_default() += 1;
            }
        }
        if let Call::Begin { edition, .. } | Call::BeginPages { edition, .. } = call {
            *self.editions.entry((NAMES[call.kind()], *edition, due.first().copied())).or_default() += 1;
        }
        if let Call::BeginPages { pages, .. } = call {
            *self.pages.entry((*pages, world.frames() > 0, due.first().copied())).or_default() += 1;
        }
    }

    /// What can be told and never was, and what was told and cannot be.
    pub fn faults(&self) -> Vec<String> {
        let (possible, seen) = (contests(), self.contests.keys().copied().collect());
        let text = |how: &str, (begin, told, other): &Contest| format!("{begin} {how} {told:?} where {other:?} was due, too");
        let mut faults: Vec<String> = possible.difference(&seen).map(|contest| text("never told", contest)).collect();
        faults.extend(seen.difference(&possible).map(|contest| text("told", contest)));
        let unseen = pages().into_iter().filter(|case| !self.pages.contains_key(case));
        faults.extend(unseen.map(|(pages, frames, told)| format!("{pages:#x} pages (frames: {frames}) never gave {told:?}")));
        let unseen = editions().into_iter().filter(|case| !self.editions.contains_key(case));
        faults.extend(unseen.map(|(begin, edition, told)| format!("{begin} of the edition {edition:#x} never gave {told:?}")));
        faults
    }

    pub fn print(&self) {
        for ((begin, told, other), count) in &self.contests {
            println!("{begin}: {told:?} where {other:?} was due, too {count}");
        }
        let done = |pages, frames| self.pages.get(&(pages, frames, None)).unwrap_or(&0);
        for edition in EDITIONS {
            let done = |begin| self.editions.get(&(begin, edition, None)).unwrap_or(&0);
            println!("edition {edition} begun: begin {}, begin_pages {}", done("begin"), done("begin_pages"));
        }
        println!("begin_pages done: 0 pages {}, 0 pages without frames {}, 1 page {}", done(0, true), done(0, false), done(1, true));
    }
}

/// A snapshot without a valid header has no accounts to ask, and a control block of a wrong length no number of frames.
fn can_be_due_together(told: Why, other: Why) -> bool {
    !(told == Why::Snapshot && PROGRAM.contains(&other)) && (told, other) != (Why::Control, Why::NoFreeFrame)
}

fn contests() -> BTreeSet<Contest> {
    let mut contests = BTreeSet::new();
    for (place, part) in ORDER.iter().enumerate() {
        let later = ORDER[place + 1..].concat();
        for (&told, &other) in part.iter().flat_map(|told| later.iter().map(move |other| (told, other))) {
            if !can_be_due_together(told, other) {
                continue;
            }
            contests.insert(("begin_pages", told, other));
            // The plain begin has no number of pages to refuse.
            if ![told, other].contains(&Why::StackPages) {
                contests.insert(("begin", told, other));
            }
        }
    }
    contests
}

/// "a u32 edition (1 older, 2 newer)"; "any other is 2"
fn editions() -> Vec<Edition> {
    let of_begin = |begin| {
        let done = EDITIONS.into_iter().map(move |edition| (begin, edition, None));
        done.chain(WRONG_EDITIONS.into_iter().map(move |wrong| (begin, wrong, Some(Why::Edition))))
    };
    ["begin", "begin_pages"].into_iter().flat_map(of_begin).collect()
}

/// "the number of pages, 0 or 1; any other is 2"; "With F=0 it answers 8", and no pages need no frame.
fn pages() -> Vec<Pages> {
    let mut pages = vec![(0, true, None), (0, false, None), (1, true, None), (1, false, Some(Why::NoFreeFrame))];
    for frames in [true, false] {
        pages.extend(WRONG_STACK_PAGES.map(|wrong| (wrong, frames, Some(Why::StackPages))));
    }
    pages
}
