//! Which refusals each kind of call can give by the papers, and which were seen.

use std::collections::BTreeMap;

use crate::absences::Absences;
use crate::begins::Begins;
use crate::depths::Depths;
use crate::discriminants::Discriminants;
use crate::editions::Editions;
use crate::interface::{record_call, Answer, Call, KINDS, NAMES};
use crate::model::Why;
use crate::record::Shape;
use crate::returns::Returns;
use crate::takings::Takings;

pub const NUMBERS: usize = 15;

/// "1 for headers, buffer lengths and frame D"
pub const FIRST: [Why; 6] = [Why::Snapshot, Why::Control, Why::EditionWord, Why::ZeroWord, Why::Pool, Why::Record];
/// The first 1 of a begin, which reads nothing of the control block.
pub const BEGIN: [Why; 3] = [Why::Snapshot, Why::Control, Why::Pool];
/// What every access asks between the first 1 and permission, but for its length: a record has that of its shape. An access of a single
/// value is never 6, since it is aligned; a span is never 5.
const REACH: [Why; 5] = [Why::UpperBits, Why::NoSegment, Why::NoAccount, Why::Entry, Why::NotPresent];
/// What a store asks beyond a load.
const STORE: [Why; 3] = [Why::Forbidden, Why::Tag, Why::NoFreeFrame];
pub const PROGRAM: [Why; 3] = [Why::NoAccount, Why::Entry, Why::AbsentProgram];

/// The refusals that the papers name for each kind of call, in the order of `NAMES`. Loads are allowed in every row, so they give no
/// 7 and no 8. A fetch gives 7 outside the program, so it never asks for the frame of a stack or heap page.
pub fn possible(name: &str) -> Vec<Why> {
    use Why::*;
    match name {
        "join" => vec![WideOffset],
        "split" => vec![UpperBits],
        "begin" => [&BEGIN[..], &PROGRAM, &[Edition, NoFreeFrame]].concat(),
        "begin_pages" => [&BEGIN[..], &PROGRAM, &[Edition, StackPages, NoFreeFrame]].concat(),
        "translate" => [&FIRST[..], &REACH, &STORE, &[UnknownKind, Length, Misaligned, Crossing, Unclaimed]].concat(),
        "load" => [&FIRST[..], &REACH, &[Length, Misaligned, Unclaimed]].concat(),
        "fetch" => [&FIRST[..], &REACH, &[Length, Misaligned, Forbidden]].concat(),
        "store" => [&FIRST[..], &REACH, &STORE, &[Length, Misaligned, Unclaimed]].concat(),
        "load_span" => [&FIRST[..], &REACH, &[Length, Crossing, Unclaimed]].concat(),
        "store_span" => [&FIRST[..], &REACH, &STORE, &[Length, Crossing, Unclaimed]].concat(),
        "call" => [&FIRST[..], &PROGRAM, &[Length, Depth]].concat(),
        "return" => [&FIRST[..], &[Length, Depth]].concat(),
        "resize" => [&FIRST[..], &[UnknownKind, TooManyPages, NoFreeFrame, Unclaimed, Tag]].concat(),
        "change_list" => [&FIRST[..], &[CopyOfNoAccount, CopyOfInvalidEntry, CopyWithoutLiveBytes, CopiedTwice, ShortOutput]].concat(),
        "apply" => vec![ListLayout, ListOrder, ListLiveCount, ListZero, ListLiveOfData],
        "page_view" => [&FIRST[..], &[NoAccount, Entry, NoLiveBytes]].concat(),
        name => of_record(name),
    }
}

/// Those of the span load or span store, and of a returned value last its discriminant.
fn of_record(name: &str) -> Vec<Why> {
    let (is_read, shape) = record_call(name).unwrap_or_else(|| unreachable!("{name} is no call"));
    let mut refusals = [&FIRST[..], &REACH, &[Why::Crossing, Why::Unclaimed]].concat();
    if !is_read {
        refusals.extend(STORE);
    }
    if shape == Shape::Returned {
        refusals.push(Why::Discriminant);
    }
    refusals
}

/// How often each kind of call gave each number, and for which reason by the model.
#[derive(Default)]
pub struct Coverage {
    numbers: [[u64; NUMBERS]; KINDS],
    reasons: BTreeMap<(usize, Why), u64>,
    /// How often a translation answered each place.
    places: [u64; 6],
    absences: Absences,
    pub begins: Begins,
    pub depths: Depths,
    pub discriminants: Discriminants,
    pub editions: Editions,
    pub returns: Returns,
    pub takings: Takings,
    pub histories: u64,
    pub calls: u64,
}

impl Coverage {
    pub fn record(&mut self, call: &Call, answer: &Answer, why: Option<Why>) {
        self.calls += 1;
        self.numbers[call.kind()][usize::from(answer.number())] += 1;
        if let Some(why) = why {
            *self.reasons.entry((call.kind(), why)).or_default() += 1;
        }
        if let Answer::Place(place) = answer {
            self.places[usize::from(place.place)] += 1;
        }
        self.absences.record(call, answer);
    }

    /// What the papers name and was never seen, and what was seen and the papers do not name.
    pub fn faults(&self) -> Vec<String> {
        let mut faults = vec![];
        for (kind, name) in NAMES.iter().enumerate() {
            let possible = possible(name);
            for why in possible.iter().filter(|&&why| !self.reasons.contains_key(&(kind, why))) {
                faults.push(format!("{name} never gave {} for {why:?}", why.number()));
            }
            for number in 0..NUMBERS {
                let named = number == 0 || possible.iter().any(|why| usize::from(why.number()) == number);
                if named != (self.numbers[kind][number] > 0) {
                    let seen = if named { "never gave" } else { "gave" };
                    faults.push(format!("{name} {seen} {number}"));
                }
            }
        }
        let unseen = |place: &usize| self.places[*place] == 0;
        faults.extend((0..6).filter(unseen).map(|place| format!("translate never answered place {place}")));
        faults.extend(self.absences.faults());
        faults.extend(self.begins.faults());
        faults.extend(self.depths.faults());
        faults.extend(self.discriminants.faults());
        faults.extend(self.editions.faults());
        faults.extend(self.returns.faults());
        faults.extend(self.takings.faults());
        faults
    }

    pub fn print(&self) {
        println!("{} histories, {} calls", self.histories, self.calls);
        let head: String = (0..NUMBERS).map(|number| format!("{number:>8}")).collect();
        println!("{:<18}{head}", "");
        for (name, counts) in NAMES.iter().zip(&self.numbers) {
            let cell = |&count: &u64| if count == 0 { format!("{:>8}", ".") } else { format!("{count:>8}") };
            println!("{name:<18}{}", counts.iter().map(cell).collect::<String>());
        }
        println!("places of translate, 0 to 5: {:?}", self.places);
        for (kind, name) in NAMES.iter().enumerate() {
            let seen = self.reasons.iter().filter(|((of, _), _)| *of == kind);
            let text: Vec<String> = seen.map(|((_, why), count)| format!("{why:?} {count}")).collect();
            println!("{name}: {}", text.join(", "));
        }
        self.absences.print();
        self.begins.print();
        self.depths.print();
        self.discriminants.print();
        self.editions.print();
        self.returns.print();
        self.takings.print();
    }
}
