//! Begin, call and return.

use crate::plain_headers::{account, edition_valid, number, snapshot_valid, vm, PAGE, RECORD, RECORDS, TABLE};
use crate::plain_resize::take;
use crate::plain_search::{any_stack, Entry, GROUP};
use crate::plain_words::{put_u16, put_u32, u32_at};

#[inline(always)]
fn program_valid(s: &[u8], program: u16) -> Result<(), u8> {
    let (accounts, data_at) = (u32_at(s, 0) as usize, u32_at(s, 24) as usize);
    if program as usize >= accounts || account(s, data_at, program as usize)?.flags & 1 == 0 {
        return Err(4);
    }
    Ok(())
}

#[inline(always)]
fn try_begin(s: &[u8], c: &mut [u8], p: &mut [u8], program: u16, edition: u32, pages: usize) -> Result<(), u8> {
    let frames = p.len() / PAGE;
    if !snapshot_valid(s) || frames > 1024 || !p.len().is_multiple_of(PAGE) || c.len() != TABLE + 8 * frames {
        return Err(1);
    }
    if pages > 1 || !edition_valid(edition.into()) {
        return Err(2);
    }
    program_valid(s, program)?;
    if pages > frames {
        return Err(8);
    }
    c.fill(0);
    for (i, word) in [frames as u32, 1, RECORDS as u32, TABLE as u32, edition].into_iter().enumerate() {
        put_u32(c, 4 * i, word);
    }
    put_u32(c, RECORDS + RECORD, u32::from(program) | (pages as u32) << 16);
    if pages == 1 {
        take(c, p, 0, 2, 0, 0);
    }
    Ok(())
}

#[inline(never)]
pub fn begin(s: &[u8], c: &mut [u8], p: &mut [u8], program: u16, edition: u32) -> u8 {
    number(try_begin(s, c, p, program, edition, 1))
}

#[inline(never)]
pub fn begin_pages(s: &[u8], c: &mut [u8], p: &mut [u8], program: u16, edition: u32, pages: usize) -> u8 {
    number(try_begin(s, c, p, program, edition, pages))
}

#[inline(always)]
fn try_call(s: &[u8], c: &mut [u8], p: &[u8], program: u16, registers: &[u8]) -> Result<(), u8> {
    let v = vm(s, c, p)?;
    let registers: &[u8; 256] = registers.try_into().map_err(|_| 2)?;
    let (live, at) = (v.live(), v.record_at() + RECORD);
    if live == 16 {
        return Err(9);
    }
    program_valid(s, program)?;
    let first = u64::from(program) | v.record() & 0xFFFF_FFFF_0000;
    put_u32(c, 4, live as u32 + 1);
    let record = &mut c[at..][..RECORD];
    record[..8].copy_from_slice(&first.to_le_bytes());
    record[8..].copy_from_slice(registers);
    Ok(())
}

#[inline(never)]
pub fn call(s: &[u8], c: &mut [u8], p: &[u8], program: u16, registers: &[u8]) -> u8 {
    number(try_call(s, c, p, program, registers))
}

#[inline(always)]
fn free_stack(entries: &mut [Entry], depth: usize) {
    for e in entries {
        if e[0] == 2 && e[1] as usize >= depth {
            *e = [0; 8];
        }
    }
}

#[inline(always)]
fn try_return(s: &[u8], c: &mut [u8], p: &[u8], registers: &mut [u8]) -> Result<(), u8> {
    let v = vm(s, c, p)?;
    let registers: &mut [u8; 256] = registers.try_into().map_err(|_| 2)?;
    let (depth, at, heap) = (v.depth(), v.record_at(), v.pages(3));
    if depth == 0 {
        return Err(9);
    }
    let (head, table) = c.split_first_chunk_mut::<TABLE>().ok_or(1)?;
    put_u32(head, 4, depth as u32);
    put_u16(head, at - RECORD + 4, heap as u16);
    let record = &mut head[at..][..RECORD];
    registers.copy_from_slice(&record[8..]);
    record.fill(0);
    let (groups, rest) = table.as_chunks_mut().0.as_chunks_mut::<GROUP>();
    for group in groups {
        if any_stack(group) {
            free_stack(group, depth);
        }
    }
    free_stack(rest, depth);
    Ok(())
}

#[inline(never)]
pub fn return_from(s: &[u8], c: &mut [u8], p: &[u8], registers: &mut [u8]) -> u8 {
    number(try_return(s, c, p, registers))
}
