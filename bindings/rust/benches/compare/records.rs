//! Records: an event in a page of account data that has a copy.

use crate::table::Report;
use crate::world::{slot, World, PAGE};
use crate::{library, plain_records};
use hekthumar::sys::{Buffer, Event};
use std::hint::black_box;

pub fn events(report: &mut Report) {
    let mut world = World::begun(64).copied(0..8);
    let address = slot(PAGE + 24);
    report.row(
        "read event",
        &mut world,
        |w| library::read_event(&w.s, &w.c, &w.p, black_box(address)),
        |w| plain_records::read_event(&w.s, &w.c, &w.p, black_box(address)),
    );
    let (kind, data) = (Buffer { pointer: slot(0), length: 6 }, Buffer { pointer: slot(PAGE), length: 200 });
    let event = Event { kind, data };
    report.row(
        "write event",
        &mut world,
        |w| library::write_event(&w.s, &mut w.c, &mut w.p, black_box(address), black_box(event)),
        |w| plain_records::write_event(&w.s, &mut w.c, &mut w.p, black_box(address), black_box(event)),
    );
}
