//! Where an access goes. Each kind has its own code: the tests that cannot fail for it are not made.

use crate::plain_headers::{account, vm, Vm, ENTRY, MAX_DATA, PAGE, RECORD, RECORDS};
use crate::plain_refused::Refused;
use crate::plain_search::{copy_frame, highest_free, region_frame, tag};

pub const LOAD: u8 = 0;
pub const STORE: u8 = 1;
pub const FETCH: u8 = 2;
pub const LOAD_SPAN: u8 = 3;
pub const STORE_SPAN: u8 = 4;

/// Where an access goes.
#[derive(Clone, Copy)]
pub enum Place {
    Snapshot(usize),
    Control(usize),
    Zeros,
    Pool(usize),
    Take { frame: usize, account: usize, page: usize },
}

const fn stores(kind: u8) -> bool {
    matches!(kind, STORE | STORE_SPAN)
}

const fn is_span(kind: u8) -> bool {
    matches!(kind, LOAD_SPAN | STORE_SPAN)
}

/// Alignment, then the row's permission, then the page's boundary. An aligned access never crosses it.
#[inline(always)]
fn allowed<const KIND: u8>(permitted: bool, offset: usize, length: usize) -> Result<(), u8> {
    if !is_span(KIND) && offset & (length - 1) != 0 {
        return Err(5);
    }
    if !permitted {
        return Err(7);
    }
    if is_span(KIND) && offset % PAGE + length > PAGE {
        return Err(6);
    }
    Ok(())
}

/// Whether all bytes of an access lie before the end of those present.
#[inline(always)]
fn present(end: usize, offset: usize, length: usize) -> Result<(), Refused> {
    if offset + length > end {
        return Err(Refused::absent(end.saturating_sub(offset)));
    }
    Ok(())
}

/// A row that is never stored to, with the end of the bytes present.
#[inline(always)]
fn fixed<const KIND: u8>(fetched: bool, end: usize, offset: usize, length: usize) -> Result<(), Refused> {
    allowed::<KIND>(!stores(KIND) && (fetched || KIND != FETCH), offset, length)?;
    present(end, offset, length)
}

#[inline(always)]
fn in_data<const KIND: u8>(s: &[u8], c: &[u8], v: &Vm, index: usize, offset: usize, length: usize) -> Result<Place, Refused> {
    if index >= v.accounts() {
        return Err(4.into());
    }
    let a = account(s, v.data_at(), index)?;
    let permitted = match KIND {
        FETCH => v.older() && index == v.program() as usize,
        STORE | STORE_SPAN => a.flags & 2 != 0 && a.owner == v.program(),
        _ => true,
    };
    allowed::<KIND>(permitted, offset, length)?;
    present(a.length, offset, length)?;
    let page = offset / PAGE;
    match copy_frame(c, index, page) {
        Some(frame) => Ok(Place::Pool(PAGE * frame + offset % PAGE)),
        None if stores(KIND) => Ok(Place::Take { frame: highest_free(c).ok_or(8)?, account: index, page }),
        None => Ok(Place::Snapshot(a.data + offset)),
    }
}

/// A page of a region is there whole or not at all: where a byte is absent, the first one is.
#[inline(always)]
fn in_region<const KIND: u8>(c: &[u8], v: &Vm, region: u8, offset: usize, length: usize) -> Result<Place, Refused> {
    allowed::<KIND>(KIND != FETCH, offset, length)?;
    let bytes = PAGE * v.pages(region);
    let present = if region == 2 { offset >= MAX_DATA - bytes && offset + length <= MAX_DATA } else { offset + length <= bytes };
    if !present {
        return Err(Refused::absent(0));
    }
    let frame = region_frame(c, region, offset / PAGE).ok_or(1)?;
    if stores(KIND) && tag(c, frame) < v.depth() {
        return Err(7.into());
    }
    Ok(Place::Pool(PAGE * frame + offset % PAGE))
}

#[inline(always)]
fn in_metadata<const KIND: u8>(s: &[u8], v: &Vm, index: usize, offset: usize, length: usize) -> Result<Place, Refused> {
    if index >= v.accounts() {
        return Err(4.into());
    }
    let a = account(s, v.data_at(), index)?;
    fixed::<KIND>(false, 64, offset, length)?;
    Ok(if a.flags & 1 != 0 { Place::Snapshot(32 + ENTRY * index + 16 + offset) } else { Place::Zeros })
}

#[inline(always)]
fn in_program<const KIND: u8>(s: &[u8], v: &Vm, offset: usize, length: usize) -> Result<Place, Refused> {
    let a = account(s, v.data_at(), v.program() as usize)?;
    fixed::<KIND>(true, a.length, offset, length)?;
    Ok(Place::Snapshot(a.data + offset))
}

#[inline(always)]
fn in_contexts<const KIND: u8>(v: &Vm, offset: usize, length: usize) -> Result<Place, Refused> {
    let (block, rest) = (offset / PAGE, offset % PAGE);
    let end = if block < v.contexts() { PAGE * block + 120 } else { 0 };
    fixed::<KIND>(false, end, offset, length)?;
    Ok(Place::Snapshot(v.contexts_at() + 120 * block + rest))
}

/// The place of an access whose headers and length are valid. Set upper bits match no segment, so they are looked at last.
#[inline(always)]
pub fn locate<const KIND: u8>(s: &[u8], c: &[u8], address: u64, length: usize) -> Result<Place, Refused> {
    let v = &Vm::of(s, c).ok_or(1)?;
    let (index, offset) = ((address >> 24) as usize & 0xFFFF, address as usize & 0xFF_FFFF);
    match (address >> 40, index) {
        (3, _) => in_data::<KIND>(s, c, v, index, offset, length),
        (5, 0) => in_region::<KIND>(c, v, 2, offset, length),
        (7, 0) => in_region::<KIND>(c, v, 3, offset, length),
        (0, 1) => {
            fixed::<KIND>(false, v.transaction(), offset, length)?;
            Ok(Place::Snapshot(v.transaction_at() + offset))
        }
        (0, 2) => fixed::<KIND>(false, 17 * RECORD, offset, length).map(|()| Place::Control(RECORDS + offset)),
        (0, 3) if !v.older() => in_program::<KIND>(s, v, offset, length),
        (0, 4) => in_contexts::<KIND>(v, offset, length),
        (2, _) => in_metadata::<KIND>(s, v, index, offset, length),
        _ => Err(Refused::from(if address >> 48 != 0 { 3 } else { 4 })),
    }
}

/// The place of an access.
#[inline(always)]
pub fn find_place<const KIND: u8>(s: &[u8], c: &[u8], p: &[u8], address: u64, length: usize) -> Result<Place, Refused> {
    vm(s, c, p)?;
    let valid = if is_span(KIND) { (1..=PAGE).contains(&length) } else { matches!(length, 1 | 2 | 4 | 8) };
    if !valid {
        return Err(2.into());
    }
    locate::<KIND>(s, c, address, length)
}
