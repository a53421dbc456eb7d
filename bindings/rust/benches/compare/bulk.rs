//! Operations on many bytes: spans, the copy of a page, resizing, the change list and its application.

use crate::table::Report;
use crate::world::{slot, World, PAGE, SLOTS_PAGES};
use crate::{library, plain_access, plain_apply, plain_lists, plain_resize};
use hekthumar::{change_list_len, control_len};
use std::hint::black_box;

const LENGTHS: [usize; 3] = [16, 256, 4096];

fn load_span_row(report: &mut Report, name: &str, state: &mut (World, Vec<u8>), address: u64) {
    report.row(
        name,
        state,
        |(w, bytes)| library::load_span(&w.s, &w.c, &w.p, black_box(address), bytes),
        |(w, bytes)| plain_access::load_span(&w.s, &w.c, &w.p, black_box(address), bytes),
    );
}

pub fn spans(report: &mut Report) {
    let world = World::begun(64).copied(0..8);
    for length in LENGTHS {
        load_span_row(report, &format!("span load of {length}"), &mut (world.clone(), vec![3; length]), slot(PAGE));
        report.row(
            &format!("span store of {length}"),
            &mut (world.clone(), vec![3; length]),
            |(w, bytes)| library::store_span(&w.s, &mut w.c, &mut w.p, black_box(slot(PAGE)), bytes),
            |(w, bytes)| plain_access::store_span(&w.s, &mut w.c, &mut w.p, black_box(slot(PAGE)), bytes),
        );
    }
    load_span_row(report, "span load of 4096, no copy", &mut (world, vec![3; PAGE]), slot(PAGE * 40));
}

/// A frame's entry made free again, so that the next store takes it for a copy.
fn forget(control: &mut [u8], frame: usize) {
    control[control_len(frame)..control_len(frame + 1)].fill(0);
}

/// A row for a store to a page without a copy, in a world where a frame is the highest free one.
fn copy_row(report: &mut Report, name: &str, world: &mut World, frame: usize) {
    let (address, size) = (slot(PAGE * 1023), 8);
    report.row(
        name,
        world,
        |w| {
            forget(&mut w.c, frame);
            library::store(&w.s, &mut w.c, &mut w.p, black_box(address), black_box(size), black_box(5))
        },
        |w| {
            forget(&mut w.c, frame);
            plain_access::store(&w.s, &mut w.c, &mut w.p, black_box(address), black_box(size), black_box(5))
        },
    );
}

/// A program at depth 1, so that a copy with a wrong depth shows.
fn deeper(frames: usize) -> World {
    World::begun(frames).called()
}

pub fn copies(report: &mut Report) {
    copy_row(report, "store that takes a copy", &mut deeper(64), 63);
    copy_row(report, "store that takes a copy, 1,024 frames", &mut deeper(1024), 1023);
    copy_row(report, "store that takes a copy, last of 1,024 frames free", &mut deeper(1024).copied(0..1023), 1023);
    copy_row(report, "store that takes a copy, first of 1,024 frames free", &mut deeper(1024).stored(0..1023), 0);
}

pub fn resizes(report: &mut Report) {
    for (region, pages, frames) in [(2, 1, 64), (2, 1, 1024), (2, 16, 64), (3, 16, 64), (3, 512, 1024)] {
        let mut world = World::begun(frames);
        world.p.fill(3);
        report.row(
            &format!("resize region {region} to {pages} and back, {frames} frames"),
            &mut world,
            |w| {
                let grown = library::resize(&w.s, &mut w.c, &mut w.p, black_box(region), black_box(pages));
                (grown, library::resize(&w.s, &mut w.c, &mut w.p, black_box(region), black_box(0)))
            },
            |w| {
                let grown = plain_resize::resize(&w.s, &mut w.c, &mut w.p, black_box(region), black_box(pages));
                (grown, plain_resize::resize(&w.s, &mut w.c, &mut w.p, black_box(region), black_box(0)))
            },
        );
    }
}

fn list_row(report: &mut Report, name: &str, world: World, pages: usize) {
    report.row(
        &format!("change list of {name}"),
        &mut (world, vec![0; change_list_len(pages)]),
        |(w, out)| library::change_list(&w.s, &w.c, &w.p, out),
        |(w, out)| plain_lists::change_list(&w.s, &w.c, &w.p, out),
    );
}

fn list_rows(report: &mut Report, name: &str, world: World, pages: usize) {
    let mut state = (list(&world, pages), world.slots());
    list_row(report, name, world, pages);
    report.row(
        &format!("apply {name}"),
        &mut state,
        |(list, data)| library::apply(list, black_box(1), data),
        |(list, data)| plain_apply::apply(list, black_box(1), data),
    );
}

/// The change list of a world with so many copies.
fn list(world: &World, pages: usize) -> Vec<u8> {
    let mut list = vec![0; change_list_len(pages)];
    assert_eq!(library::change_list(&world.s, &world.c, &world.p, &mut list), 0);
    list
}

pub fn lists(report: &mut Report) {
    list_row(report, "1 page, 1,024 frames", deeper(1024).copied(7..8), 1);
    list_rows(report, "1 page, 64 frames", deeper(64).copied(7..8), 1);
    list_rows(report, "64 pages in order", deeper(64).copied(0..64), 64);
    list_rows(report, "64 pages, last first", deeper(64).copied((0..64).rev()), 64);
    list_rows(report, "1,024 pages in order", deeper(1024).copied(0..1024), 1024);
    list_rows(report, "1,024 pages, last first", deeper(1024).copied((0..1024).rev()), 1024);
    list_rows(report, "1,024 pages, scattered", deeper(1024).copied((0..1024).map(|i| i * 617 % SLOTS_PAGES)), 1024);
}

fn spans_against_copy(report: &mut Report) {
    let mut state = (World::begun(64).copied(0..8), vec![0; PAGE]);
    report.row_unlike(
        "span load of 4096",
        &mut state,
        |(w, page)| library::load_span(&w.s, &w.c, &w.p, slot(PAGE), page),
        |(w, page)| page.copy_from_slice(&w.p[PAGE..2 * PAGE]),
    );
    report.row_unlike(
        "span store of 4096",
        &mut state,
        |(w, page)| library::store_span(&w.s, &mut w.c, &mut w.p, slot(PAGE), page),
        |(w, page)| w.p[PAGE..2 * PAGE].copy_from_slice(page),
    );
}

fn lists_against_copy(report: &mut Report, pages: usize) {
    let (world, pages_at) = (World::begun(pages).copied(0..pages), change_list_len(pages) - PAGE * pages);
    let (slots, list) = (world.slots(), list(&world, pages));
    report.row_unlike(
        &format!("change list of {pages} pages"),
        &mut (world, list.clone()),
        |(w, list)| library::change_list(&w.s, &w.c, &w.p, list),
        |(w, list)| list[pages_at..].copy_from_slice(&w.p),
    );
    report.row_unlike(
        &format!("apply {pages} pages"),
        &mut (list, slots),
        |(list, data)| library::apply(list, 1, data),
        |(list, data)| data[..PAGE * pages].copy_from_slice(&list[pages_at..]),
    );
}

/// Against a copy from where the library reads to where it writes.
pub fn against_copy(report: &mut Report) {
    spans_against_copy(report);
    report.row_unlike(
        "store that takes a copy",
        &mut World::begun(64),
        |w| {
            forget(&mut w.c, 63);
            library::store(&w.s, &mut w.c, &mut w.p, slot(0), 8, 5)
        },
        |w| w.p[PAGE * 63..].copy_from_slice(&w.s[w.s.len() - PAGE * SLOTS_PAGES..][..PAGE]),
    );
    for pages in [64, 1024] {
        lists_against_copy(report, pages);
    }
}
