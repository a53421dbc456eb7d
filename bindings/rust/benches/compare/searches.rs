//! The search of the frame table alone, as far as calls can tell: a load from a copy, without the time of a load refused behind the
//! account's data, which does all but search and read.

use crate::table::Report;
use crate::timing::{compare, Compared};
use crate::world::{slot, World, PAGE, SLOTS_PAGES};
use crate::{library, plain_access};
use std::hint::black_box;

fn loads(world: &mut World, address: u64) -> Compared {
    compare(
        world,
        |w| library::load(&w.s, &w.c, &w.p, black_box(address), black_box(8)),
        |w| plain_access::load(&w.s, &w.c, &w.p, black_box(address), black_box(8)),
    )
}

pub fn alone(report: &mut Report) {
    report.heading("the search alone, by difference", "Rust");
    let mut world = World::begun(1024).copied(0..1024);
    for frame in [0, 1023] {
        let name = format!("search that ends at entry {frame} of 1024");
        if report.is_wanted(&name) {
            let refused = loads(&mut world, slot(PAGE * SLOTS_PAGES));
            report.print(&name, &loads(&mut world, slot(PAGE * frame)).without(&refused));
        }
    }
}
