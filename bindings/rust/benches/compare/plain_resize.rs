//! Resizing the stack or the heap.

use crate::plain_headers::{number, vm, MAX_DATA, PAGE, TABLE};
use crate::plain_search::{enough_free, lowest_free, region_frame, tag, Entry};
use crate::plain_words::put_u16;
use std::ops::Range;

/// So many pages are searched for one by one; for more of them one pass over the table is shorter.
const FEW: usize = 4;
const NONE: u16 = u16::MAX;

/// The k-th page of a region: the stack grows down from the top, the heap up from 0. Its own inverse.
#[inline(always)]
fn page_at(region: u8, k: usize) -> usize {
    if region == 2 {
        (MAX_DATA / PAGE - 1).wrapping_sub(k)
    } else {
        k
    }
}

#[inline(always)]
fn region_entry(region: u8, depth: usize, page: usize) -> Entry {
    (u64::from(region) | (depth as u64) << 8 | (page as u64) << 32).to_le_bytes()
}

#[inline(always)]
fn clear(p: &mut [u8], frames: Range<usize>) {
    p[PAGE * frames.start..PAGE * frames.end].fill(0);
}

/// Gives a frame to the k-th page of a region.
#[inline(always)]
pub fn take(c: &mut [u8], p: &mut [u8], frame: usize, region: u8, depth: usize, k: usize) {
    c[TABLE..].as_chunks_mut().0[frame] = region_entry(region, depth, page_at(region, k));
    clear(p, frame..frame + 1);
}

/// Frames that follow each other are cleared at once.
#[inline(always)]
fn grow(c: &mut [u8], p: &mut [u8], region: u8, depth: usize, pages: Range<usize>) -> Result<(), u8> {
    if pages.len() == 1 {
        let frame = lowest_free(c).ok_or(8)?;
        take(c, p, frame, region, depth, pages.start);
        return Ok(());
    }
    let entries: &mut [Entry] = c[TABLE..].as_chunks_mut().0;
    if !enough_free(entries, pages.len()) {
        return Err(8);
    }
    let mut run = 0..0;
    for (k, (frame, entry)) in pages.zip(entries.iter_mut().enumerate().filter(|(_, e)| e[0] == 0)) {
        *entry = region_entry(region, depth, page_at(region, k));
        if frame != run.end {
            clear(p, run);
            run = frame..frame;
        }
        run.end += 1;
    }
    clear(p, run);
    Ok(())
}

/// Frees the frames found, if each page has one that may leave.
#[inline(always)]
fn free(c: &mut [u8], frames: &[u16], depth: usize) -> Result<(), u8> {
    if frames.contains(&NONE) {
        return Err(1);
    }
    if frames.iter().any(|&frame| tag(c, frame as usize) < depth) {
        return Err(7);
    }
    for &frame in frames {
        c[TABLE + 8 * frame as usize..][..8].fill(0);
    }
    Ok(())
}

#[inline(always)]
fn shrink_few(c: &mut [u8], region: u8, depth: usize, pages: Range<usize>) -> Result<(), u8> {
    let mut frames = [NONE; FEW];
    let frames = &mut frames[..pages.len()];
    for (frame, k) in frames.iter_mut().zip(pages) {
        *frame = region_frame(c, region, page_at(region, k)).ok_or(1)? as u16;
    }
    free(c, frames, depth)
}

/// One pass finds the lowest frame of each departing page.
#[inline(always)]
fn shrink_many<const MOST: usize>(c: &mut [u8], region: u8, depth: usize, pages: Range<usize>) -> Result<(), u8> {
    let mut frames = [NONE; MOST];
    let frames = &mut frames[..pages.len()];
    let entries: &[Entry] = c[TABLE..].as_chunks().0;
    for (i, e) in entries.iter().enumerate() {
        let e = u64::from_le_bytes(*e);
        if e as u8 == region {
            let k = page_at(region, (e >> 32) as usize & 0xFFFF).wrapping_sub(pages.start);
            if let Some(frame) = frames.get_mut(k) {
                *frame = (i as u16).min(*frame);
            }
        }
    }
    free(c, frames, depth)
}

/// More pages than frames cannot all have one.
#[inline(always)]
fn shrink(c: &mut [u8], region: u8, depth: usize, pages: Range<usize>) -> Result<(), u8> {
    match pages.len() {
        n if n <= FEW => shrink_few(c, region, depth, pages),
        n if n <= 64 => shrink_many::<64>(c, region, depth, pages),
        n if n <= 1024 => shrink_many::<1024>(c, region, depth, pages),
        _ => Err(1),
    }
}

#[inline(always)]
fn try_resize(s: &[u8], c: &mut [u8], p: &mut [u8], region: u8, pages: usize) -> Result<(), u8> {
    let v = vm(s, c, p)?;
    if region != 2 && region != 3 {
        return Err(2);
    }
    if pages > 4096 {
        return Err(10);
    }
    let (held, depth, at) = (v.pages(region), v.depth(), v.record_at() + 2 * (region as usize - 1));
    if pages > held {
        grow(c, p, region, depth, held..pages)?;
    } else if pages < held {
        shrink(c, region, depth, pages..held)?;
    }
    put_u16(c, at, pages as u16);
    Ok(())
}

#[inline(never)]
pub fn resize(s: &[u8], c: &mut [u8], p: &mut [u8], region: u8, pages: usize) -> u8 {
    number(try_resize(s, c, p, region, pages))
}
