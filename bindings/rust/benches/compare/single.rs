//! Operations on one place: addresses, loads, stores, refusals, invocations. Numbers pass through `black_box`, so that neither side is
//! compiled for them.

use crate::table::Report;
use crate::world::{slot, World, HEAP, PAGE, STACK};
use crate::{library, plain_access, plain_address, plain_invocations, plain_view};
use hekthumar::{sys, Edition};
use std::hint::black_box;

const STORE: u8 = 1;
const NEWER: u32 = Edition::Newer as u32;

pub fn addresses(report: &mut Report) {
    let (segment, index, offset, address) = (3, 5, 0x800, 0x0300_0500_0800);
    // SAFETY, for both: the function takes numbers only.
    report.row(
        "join",
        &mut (),
        |()| unsafe { sys::hekthumar_join(black_box(segment), black_box(index), black_box(offset)) },
        |()| plain_address::join(black_box(segment), black_box(index), black_box(offset)),
    );
    report.row("split", &mut (), |()| unsafe { sys::hekthumar_split(black_box(address)) }, |()| plain_address::split(black_box(address)));
}

/// A row for a load, refused or not.
fn load_row(report: &mut Report, name: &str, world: &mut World, address: u64, size: usize) {
    report.row(
        name,
        world,
        |w| library::load(&w.s, &w.c, &w.p, black_box(address), black_box(size)),
        |w| plain_access::load(&w.s, &w.c, &w.p, black_box(address), black_box(size)),
    );
}

pub fn loads(report: &mut Report) {
    let mut small = World::begun(64).grown(2).copied(0..32);
    load_row(report, "load 8, account, copy in frame 4", &mut small, slot(8), 8);
    load_row(report, "load 1, account, copy in frame 4", &mut small, slot(9), 1);
    load_row(report, "load 8, account, copy in frame 35 of 64", &mut small, slot(PAGE * 31), 8);
    load_row(report, "load 8, account, only copy, in the last of 64 frames", &mut World::begun(64).grown(2).stored(0..1), slot(8), 8);
    load_row(report, "load 8, account, no copy, 64 frames", &mut small, slot(PAGE * 40), 8);
    let mut large = World::begun(1024).copied(0..1024);
    load_row(report, "load 8, account, copy in frame 0 of 1,024", &mut large, slot(0), 8);
    load_row(report, "load 8, account, copy in frame 1,023", &mut large, slot(PAGE * 1023), 8);
    let mut nearly = World::begun(1024).copied(0..1023);
    load_row(report, "load 8, account, no copy, 1,024 frames", &mut nearly, slot(PAGE * 1023), 8);
    load_row(report, "load 8, stack", &mut small, STACK + 16, 8);
    load_row(report, "load 8, heap", &mut small, HEAP + 16, 8);
    load_row(report, "load 8, transaction", &mut small, 0x0000_0100_0010, 8);
    load_row(report, "load 8, shadow stack", &mut small, 0x0000_0200_0108, 8);
    load_row(report, "load 8, program", &mut small, 0x0000_0300_0010, 8);
    load_row(report, "load 8, block context", &mut small, 0x0000_0400_1010, 8);
    load_row(report, "load 8, metadata", &mut small, 0x0200_0100_0010, 8);
    fetch_row(report, "fetch 4", &mut small, 0x0000_0300_0040);
    let mut older = World::begun_of(Edition::Older, 64).grown(2).copied(0..32);
    fetch_row(report, "fetch 4, older edition", &mut older, 0x0300_0000_0040);
    translations(report, &mut small);
    views(report, &mut small);
}

fn fetch_row(report: &mut Report, name: &str, world: &mut World, address: u64) {
    report.row(
        name,
        world,
        |w| library::fetch(&w.s, &w.c, &w.p, black_box(address), black_box(4)),
        |w| plain_access::fetch(&w.s, &w.c, &w.p, black_box(address), black_box(4)),
    );
}

fn translations(report: &mut Report, world: &mut World) {
    let (address, size) = (slot(PAGE * 50), 8);
    report.row(
        "translate a store without a copy",
        world,
        |w| library::translate(&w.s, &w.c, &w.p, black_box(STORE), black_box(address), black_box(size)),
        |w| plain_access::translate(&w.s, &w.c, &w.p, black_box(STORE), black_box(address), black_box(size)),
    );
}

fn views(report: &mut Report, world: &mut World) {
    report.row(
        "page view of a copy",
        world,
        |w| library::page_view(&w.s, &w.c, &w.p, black_box(1), black_box(7)),
        |w| plain_view::page_view(&w.s, &w.c, &w.p, black_box(1), black_box(7)),
    );
}

fn store_row(report: &mut Report, name: &str, world: &mut World, address: u64, size: usize) {
    report.row(
        name,
        world,
        |w| library::store(&w.s, &mut w.c, &mut w.p, black_box(address), black_box(size), black_box(77)),
        |w| plain_access::store(&w.s, &mut w.c, &mut w.p, black_box(address), black_box(size), black_box(77)),
    );
}

pub fn stores(report: &mut Report) {
    let mut small = World::begun(64).grown(2).copied(0..32);
    store_row(report, "store 8, account, copy in frame 4", &mut small, slot(8), 8);
    store_row(report, "store 1, account, copy in frame 4", &mut small, slot(9), 1);
    store_row(report, "store 8, account, copy in frame 35 of 64", &mut small, slot(PAGE * 31), 8);
    let mut large = World::begun(1024).copied(0..1024);
    store_row(report, "store 8, account, copy in frame 1,023", &mut large, slot(PAGE * 1023), 8);
    store_row(report, "store 8, stack", &mut small, STACK + 16, 8);
    store_row(report, "store 8, heap", &mut small, HEAP + 16, 8);
}

pub fn refused(report: &mut Report) {
    let mut world = World::begun(64);
    load_row(report, "load refused, upper bits", &mut world, 1 << 48, 8);
    load_row(report, "load refused, no segment", &mut world, 0, 8);
    load_row(report, "load refused, misaligned", &mut world, slot(3), 8);
    load_row(report, "load refused, absent", &mut world, STACK, 8);
}

pub fn invocations(report: &mut Report) {
    let given = [7u8; 256];
    for frames in [64, 1024] {
        report.row(
            &format!("begin, {frames} frames"),
            &mut World::begun(frames).grown(2).copied(0..8),
            |w| library::begin(&w.s, &mut w.c, &mut w.p, black_box(0), black_box(NEWER)),
            |w| plain_invocations::begin(&w.s, &mut w.c, &mut w.p, black_box(0), black_box(NEWER)),
        );
        report.row(
            &format!("begin with 0 pages, {frames} frames"),
            &mut World::begun(frames).grown(2).copied(0..8),
            |w| library::begin_pages(&w.s, &mut w.c, &mut w.p, black_box(0), black_box(NEWER), black_box(0)),
            |w| plain_invocations::begin_pages(&w.s, &mut w.c, &mut w.p, black_box(0), black_box(NEWER), black_box(0)),
        );
        report.row(
            &format!("call and return, {frames} frames"),
            &mut (World::begun(frames), [0u8; 256]),
            |(w, registers)| {
                let called = library::call(&w.s, &mut w.c, &w.p, black_box(0), &given);
                (called, library::return_from(&w.s, &mut w.c, &w.p, registers))
            },
            |(w, registers)| {
                let called = plain_invocations::call(&w.s, &mut w.c, &w.p, black_box(0), &given);
                (called, plain_invocations::return_from(&w.s, &mut w.c, &w.p, registers))
            },
        );
    }
}
