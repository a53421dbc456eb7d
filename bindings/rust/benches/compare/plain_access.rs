//! Accesses. Each size of a load, fetch or store has its own code, too.

use crate::plain_headers::{vm, ENTRY, PAGE, TABLE};
use crate::plain_place::{find_place, locate, Place, FETCH, LOAD, LOAD_SPAN, STORE, STORE_SPAN};
use crate::plain_refused::{outcome, Refused};
use crate::plain_words::{u32_at, u64_at};
use hekthumar::sys::{self, Outcome, Value};

#[inline(never)]
pub fn translate(s: &[u8], c: &[u8], p: &[u8], kind: u8, address: u64, length: usize) -> sys::Place {
    let found = match kind {
        LOAD => find_place::<LOAD>(s, c, p, address, length),
        STORE => find_place::<STORE>(s, c, p, address, length),
        FETCH => find_place::<FETCH>(s, c, p, address, length),
        LOAD_SPAN => find_place::<LOAD_SPAN>(s, c, p, address, length),
        STORE_SPAN => find_place::<STORE_SPAN>(s, c, p, address, length),
        _ => vm(s, c, p).and(Err(2)).map_err(Refused::from),
    };
    let place = |place, at: usize| sys::Place { at: at as u64, frame: 0, account: 0, page: 0, place, number: 0 };
    match found {
        Ok(Place::Snapshot(at)) => place(1, at),
        Ok(Place::Control(at)) => place(2, at),
        Ok(Place::Zeros) => place(3, 0),
        Ok(Place::Pool(at)) => place(4, at),
        Ok(Place::Take { frame, account, page }) => {
            let taken = place(5, PAGE * frame + address as usize % PAGE);
            sys::Place { frame: frame as u16, account: account as u16, page: page as u16, ..taken }
        }
        Err(refused) => {
            let Outcome { distance, number } = refused.outcome();
            sys::Place { number, ..place(0, distance.into()) }
        }
    }
}

#[inline(always)]
fn read<const SIZE: usize>(bytes: &[u8], at: usize) -> u64 {
    let mut word = [0; 8];
    word[..SIZE].copy_from_slice(&bytes[at..at + SIZE]);
    u64::from_le_bytes(word)
}

#[inline(always)]
fn load_sized<const KIND: u8, const SIZE: usize>(s: &[u8], c: &[u8], p: &[u8], address: u64) -> Result<u64, Refused> {
    Ok(match locate::<KIND>(s, c, address, SIZE)? {
        Place::Snapshot(at) => read::<SIZE>(s, at),
        Place::Control(at) => read::<SIZE>(c, at),
        Place::Pool(at) => read::<SIZE>(p, at),
        Place::Zeros | Place::Take { .. } => 0,
    })
}

#[inline(always)]
fn load_kind<const KIND: u8>(s: &[u8], c: &[u8], p: &[u8], address: u64, size: usize) -> Result<u64, Refused> {
    vm(s, c, p)?;
    match size {
        8 => load_sized::<KIND, 8>(s, c, p, address),
        4 => load_sized::<KIND, 4>(s, c, p, address),
        2 => load_sized::<KIND, 2>(s, c, p, address),
        1 => load_sized::<KIND, 1>(s, c, p, address),
        _ => Err(2.into()),
    }
}

#[inline(always)]
fn answer(result: Result<u64, Refused>) -> Value {
    let Outcome { distance, number } = outcome(result.map(drop));
    Value { value: result.unwrap_or(0), distance, number }
}

// Load and fetch have C's calling convention, which returns the three fields of their answer in registers; Rust's does so through memory.

#[allow(improper_ctypes_definitions)]
#[inline(never)]
pub extern "C" fn load(s: &[u8], c: &[u8], p: &[u8], address: u64, size: usize) -> Value {
    answer(load_kind::<LOAD>(s, c, p, address, size))
}

#[allow(improper_ctypes_definitions)]
#[inline(never)]
pub extern "C" fn fetch(s: &[u8], c: &[u8], p: &[u8], address: u64, size: usize) -> Value {
    answer(load_kind::<FETCH>(s, c, p, address, size))
}

/// Takes a frame for a copy of an account's page, whose entry keeps the depth.
fn take(s: &[u8], c: &mut [u8], p: &mut [u8], frame: usize, account: usize, page: usize) {
    let depth = u64::from(u32_at(c, 4)) - 1;
    let entry = 1 | (account as u64) << 16 | (page as u64) << 32 | depth << 48;
    c[TABLE + 8 * frame..][..8].copy_from_slice(&entry.to_le_bytes());
    let (first, data) = (u64_at(s, 32 + ENTRY * account), u64_at(s, 32 + ENTRY * account + 8) as usize);
    let live = ((first >> 32) as usize - PAGE * page).min(PAGE);
    let (copied, after) = p[PAGE * frame..][..PAGE].split_at_mut(live);
    copied.copy_from_slice(&s[data + PAGE * page..][..live]);
    after.fill(0);
}

/// The bytes of the pool that a store goes to, in a frame taken for it where one is needed.
#[inline(always)]
pub fn target<'a>(s: &[u8], c: &mut [u8], p: &'a mut [u8], place: Place, address: u64, length: usize) -> &'a mut [u8] {
    let at = match place {
        Place::Pool(at) => at,
        Place::Take { frame, account, page } => {
            take(s, c, p, frame, account, page);
            PAGE * frame + address as usize % PAGE
        }
        _ => unreachable!("a store goes to the pool"),
    };
    &mut p[at..at + length]
}

#[inline(always)]
fn store_sized<const SIZE: usize>(s: &[u8], c: &mut [u8], p: &mut [u8], address: u64, value: u64) -> Result<(), Refused> {
    let place = locate::<STORE>(s, c, address, SIZE)?;
    target(s, c, p, place, address, SIZE).copy_from_slice(&value.to_le_bytes()[..SIZE]);
    Ok(())
}

#[inline(always)]
fn try_store(s: &[u8], c: &mut [u8], p: &mut [u8], address: u64, size: usize, value: u64) -> Result<(), Refused> {
    vm(s, c, p)?;
    match size {
        8 => store_sized::<8>(s, c, p, address, value),
        4 => store_sized::<4>(s, c, p, address, value),
        2 => store_sized::<2>(s, c, p, address, value),
        1 => store_sized::<1>(s, c, p, address, value),
        _ => Err(2.into()),
    }
}

#[inline(never)]
pub fn store(s: &[u8], c: &mut [u8], p: &mut [u8], address: u64, size: usize, value: u64) -> Outcome {
    outcome(try_store(s, c, p, address, size, value))
}

#[inline(always)]
fn try_load_span(s: &[u8], c: &[u8], p: &[u8], address: u64, out: &mut [u8]) -> Result<(), Refused> {
    let n = out.len();
    let (bytes, at) = match find_place::<LOAD_SPAN>(s, c, p, address, n)? {
        Place::Snapshot(at) => (s, at),
        Place::Control(at) => (c, at),
        Place::Pool(at) => (p, at),
        Place::Zeros | Place::Take { .. } => {
            out.fill(0);
            return Ok(());
        }
    };
    out.copy_from_slice(&bytes[at..at + n]);
    Ok(())
}

#[inline(never)]
pub fn load_span(s: &[u8], c: &[u8], p: &[u8], address: u64, out: &mut [u8]) -> Outcome {
    outcome(try_load_span(s, c, p, address, out))
}

#[inline(always)]
fn try_store_span(s: &[u8], c: &mut [u8], p: &mut [u8], address: u64, bytes: &[u8]) -> Result<(), Refused> {
    let place = find_place::<STORE_SPAN>(s, c, p, address, bytes.len())?;
    target(s, c, p, place, address, bytes.len()).copy_from_slice(bytes);
    Ok(())
}

#[inline(never)]
pub fn store_span(s: &[u8], c: &mut [u8], p: &mut [u8], address: u64, bytes: &[u8]) -> Outcome {
    outcome(try_store_span(s, c, p, address, bytes))
}
