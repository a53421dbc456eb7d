//! Damage done to the lent buffers between two calls.

use crate::bytes::*;
use crate::calls::WRONG_EDITIONS;
use crate::interface::World;
use crate::random::Random;
use crate::world::spoil_entry;

/// A valid control block with any depth, program, sizes and frame table.
pub fn hand_made_control(random: &Random, world: &mut World) {
    if world.accounts() == 0 {
        return;
    }
    let live = random.choose(&[1, 2, 3, 15, 16, 1 + random.below(MAX_LIVE)]);
    let words = control_words(world.frames(), live, random.choose(&EDITIONS));
    put_words(&mut world.control, &words);
    record(random, world);
    frame_table(random, world, 100);
}

/// Damage that leaves headers, lengths and frame D valid, so that the calls after it get far.
pub fn lasting(random: &Random, world: &mut World) {
    if world.control.len() < TABLE_AT || world.accounts() == 0 {
        return;
    }
    match random.below(11) {
        0..=5 => frame_table(random, world, random.choose(&[20, 50, 100])),
        6 | 7 => {
            put_u32(&mut world.control, 4, 1 + random.below(MAX_LIVE) as u32);
            record(random, world);
        }
        8 => record(random, world),
        9 => put_u32(&mut world.control, EDITION_AT, random.choose(&EDITIONS)),
        _ => {
            let account = random.below(world.accounts());
            spoil_entry(random, &mut world.snapshot, account);
        }
    }
}

/// Any damage; it is undone after the call.
pub fn passing(random: &Random, world: &mut World) {
    match random.below(10) {
        0 => header_word(random, &mut world.control, 6, &[0, 1, 2, 3, 16, 17, TABLE_AT as u32, 1025]),
        1 => header_word(random, &mut world.snapshot, 8, &[0, 64, 65, 513, 65_537, 0x8000_0001]),
        2 => bad_record(random, world, world.record_at()),
        3 => {
            let buffer = random.below(3);
            let buffer = [&mut world.snapshot, &mut world.control, &mut world.pool].into_iter().nth(buffer).expect("one of three");
            change_length(random, buffer);
        }
        4 => flip(random, &mut world.control),
        5 => flip(random, &mut world.snapshot),
        6 => {
            let account = random.below(world.accounts() + 1);
            spoil_entry(random, &mut world.snapshot, account);
        }
        7 => {
            // The caller's record, of which nothing is asked.
            let at = world.record_at() - RECORD;
            if random.chance(50) {
                bad_record(random, world, at);
            } else if at + RECORD <= world.control.len() {
                random.fill(&mut world.control[at..at + RECORD]);
            }
        }
        8 => edition_words(random, &mut world.control),
        _ => {
            // The table loses or gains an entry, and the header and the pool agree or not.
            change_length(random, &mut world.control);
            if random.chance(50) {
                change_length(random, &mut world.pool);
            }
        }
    }
}

/// An edition that there is not, or a last word that is not zero. The low bits of most are those of a right one.
fn edition_words(random: &Random, control: &mut [u8]) {
    if control.len() < RECORDS_AT {
        return;
    }
    if random.chance(50) {
        put_u32(control, EDITION_AT, random.choose(&WRONG_EDITIONS));
    } else {
        put_u32(control, ZERO_AT, random.choose(&[1, 2, 0x100, 0x1_0000, 1 << 31, u32::MAX]));
    }
}

/// Hand-made entries: pages claimed twice, uses above 3, tags around the depth, copies of anything.
fn frame_table(random: &Random, world: &mut World, percent: usize) {
    for frame in 0..world.frames() {
        if random.chance(percent) {
            let entry = frame_entry(random, world);
            world.control[TABLE_AT + FRAME_ENTRY * frame..][..FRAME_ENTRY].copy_from_slice(&entry);
        }
    }
}

fn frame_entry(random: &Random, world: &World) -> [u8; FRAME_ENTRY] {
    let depth = world.live() - 1;
    let usage = random.choose(&[FREE, FREE, COPY, COPY, COPY, STACK, STACK, HEAP, HEAP, 4, 255]);
    let tag = random.choose(&[0, depth, depth, depth.saturating_sub(1), depth + 1, 255]);
    let account = random.choose(&[0, 1, random.below(world.accounts()), random.below(world.accounts()), world.accounts()]);
    let within = |random: &Random, size: usize| random.below(size.max(1)).max(size.saturating_sub(1 + random.below(4)));
    let page = match usage {
        STACK => MAX_PAGES.saturating_sub(1 + within(random, world.region_size(STACK))),
        HEAP => within(random, world.region_size(HEAP)),
        _ => random.below(1 + world.data_length(account) / PAGE),
    };
    let mut entry = [0; FRAME_ENTRY];
    entry[0] = usage;
    entry[1] = tag as u8;
    // The account of a region's entry and the last u16 may hold anything.
    put_u16(&mut entry, 2, if usage == COPY { account as u16 } else { random.choose(&[0, 0xFFFF]) });
    put_u16(&mut entry, 4, page as u16);
    put_u16(&mut entry, 6, random.choose(&[0, depth as u16, random.choose(&ODD_DEPTHS)]));
    entry
}

/// A valid frame D.
fn record(random: &Random, world: &mut World) {
    let at = world.record_at();
    let program = random.choose(&[0, random.below(world.accounts())]);
    put_u16(&mut world.control, at, program as u16);
    for place in [at + 2, at + 4] {
        let pages = random.choose(&[0, 1, 1, 2, 3, 4, 7, MAX_PAGES]);
        put_u16(&mut world.control, place, pages as u16);
    }
    put_u16(&mut world.control, at + 6, random.choose(&[0, 0xABCD]));
}

/// One field of the record at this place, mostly made wrong.
fn bad_record(random: &Random, world: &mut World, at: usize) {
    let accounts = world.accounts() as u16;
    if at + 6 > world.control.len() {
        return;
    }
    match random.below(3) {
        0 => put_u16(&mut world.control, at, random.choose(&[accounts, 0xFFFF])),
        1 => put_u16(&mut world.control, at + 2, random.choose(&[4096, 4097, 0xFFFF])),
        _ => put_u16(&mut world.control, at + 4, random.choose(&[4096, 4097, 0xFFFF])),
    }
}

/// One word of a header moved by one or replaced.
fn header_word(random: &Random, buffer: &mut [u8], words: usize, values: &[u32]) {
    let at = 4 * random.below(words);
    if at + 4 > buffer.len() {
        return;
    }
    let old = u32_at(buffer, at);
    let drawn = random.next() as u32;
    let new = random.choose(&[old.wrapping_add(1), old.wrapping_sub(1), old ^ 0x8000_0000, drawn, random.choose(values)]);
    put_u32(buffer, at, new);
}

/// Cuts or extends a buffer, often by the size of one of its parts.
fn change_length(random: &Random, buffer: &mut Vec<u8>) {
    let step = random.choose(&[1, FRAME_ENTRY, FRAME_ENTRY, RECORD, PAGE, PAGE]);
    let length = match random.below(8) {
        0 => 0,
        1 => random.below(40),
        2..=4 => buffer.len() + step,
        _ => buffer.len().saturating_sub(step),
    };
    buffer.resize(length, 0x5A);
}

/// A single bit, three times in four among the first bytes.
fn flip(random: &Random, buffer: &mut [u8]) {
    if buffer.is_empty() {
        return;
    }
    let first = if random.chance(75) { buffer.len().min(200) } else { buffer.len() };
    buffer[random.below(first)] ^= 1 << random.below(8);
}
