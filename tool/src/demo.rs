//! The command `demo`: two bookings on one page of a rice mill's slots, the change list that holds both, and the slots after it is
//! applied.

use crate::answer::Answer;
use crate::failure::Failure;
use crate::output::Output;
use crate::session::{pages, Session};
use hekthumar::{account_data, Account, Address, ChangeList, Edition, SnapshotBuilder, PAGE};

/// The booking program and its slots.
const PROGRAM: u16 = 0;
const SLOTS: u16 = 1;

/// Prints the demonstration.
pub fn demo(out: &mut Output) -> Result<(), Failure> {
    let snapshot = mill();
    let mut session = Session::new(snapshot.clone());
    session.lend(4);
    out.line(INTRODUCTION)?;
    step(out, "begin 0", session.begin(PROGRAM, None, Edition::Newer))?;
    book(&mut session, out)?;
    out.line(POOL)?;
    out.lines(session.map().lines)?;
    let list = session.change_list().expect("the pages of a valid account were stored to");
    let mut slots = account_data(&snapshot, SLOTS).expect("the account was added").to_vec();
    show_list(&list, &slots, out)?;
    out.line(APPLIED)?;
    hekthumar::apply(&list, SLOTS, &mut slots).expect("the list is the account's");
    out.line("  0 done")?;
    out.lines([4097, 4100, 4104, 4105].map(|slot: usize| format!("  slot {slot}: {}", slots[slot])))
}

/// A program without code, and 6,000 slots of which slot 4097 is taken.
fn mill() -> Vec<u8> {
    let mut slots = vec![0; 6_000];
    slots[4097] = 7;
    let mut builder = SnapshotBuilder::new();
    builder.account(Account::program([]));
    builder.account(Account::data(PROGRAM, slots).writable());
    builder.build().expect("a small snapshot keeps every limit")
}

/// The two bookings, and one that is refused.
fn book(session: &mut Session, out: &mut Output) -> Result<(), Failure> {
    let slot = |slot| Address::data(SLOTS, slot).expect("a slot lies in the segment");
    out.line(FIRST)?;
    step(out, "store 0x0300_0100_1004 1 17", session.store(slot(4100), 1, 17))?;
    out.line(SECOND)?;
    step(out, "store-span 0x0300_0100_1008 2222", session.store_span(slot(4104), &[34, 34]))?;
    out.line(REFUSED)?;
    step(out, "store-span 0x0300_0100_176f 2222", session.store_span(slot(5999), &[34, 34]))
}

/// A statement and its answer.
fn step(out: &mut Output, statement: &str, answer: Answer) -> Result<(), Failure> {
    out.line(statement)?;
    out.lines(answer.lines)
}

/// The pages of the list, and the slots that are others in it.
fn show_list(list: &[u8], slots: &[u8], out: &mut Output) -> Result<(), Failure> {
    out.line(LISTED)?;
    out.lines(pages(list))?;
    let changes = ChangeList::parse(list).expect("the library wrote it");
    for change in changes.entries() {
        let start = PAGE * usize::from(change.page);
        let differ = (start..).zip(change.live).filter(|(slot, customer)| slots[*slot] != **customer);
        out.lines(differ.map(|(slot, customer)| format!("  slot {slot}: {} becomes {customer}", slots[slot])))?;
    }
    Ok(())
}

const INTRODUCTION: &str = "\
A rice mill keeps 6,000 milling slots in account 1, one byte to a slot: 0 is free, any other number is
the customer. Slots 0 to 4095 lie on page 0, slots 4096 to 5999 on page 1. The program that books them
is account 0, which owns the slots.
";

const FIRST: &str = "
Customer 17 books slot 4100. The snapshot is never written: page 1 is copied to a free frame of the
pool, and the booking goes into the copy.";

const SECOND: &str = "
Customer 34 books slots 4104 and 4105. Page 1 has its copy already, so no other frame is taken.";

const REFUSED: &str = "
Customer 34 asks for slots 5999 and 6000. Slot 5999 is the last. A refused booking changes nothing.";

const POOL: &str = "
Two frames of four are in use: begin took frame 0, the lowest, for a page of stack, the first booking
frame 3, the highest, for page 1 of account 1. What is free lies between them.";

const LISTED: &str = "
The change list says what to write back: page 1, whole. It was first stored to at depth 0: by then no
program had called another. These of its slots differ from the original.";

const APPLIED: &str = "
Applied to the original slots, the list brings both bookings and leaves the older one.";
