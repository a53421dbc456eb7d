//! The library's functions with slices, in the shapes of `plain`.

use hekthumar::sys::{self, Event, Outcome, Place, ReadAnswer, Value, View};

// SAFETY, for each function here: each pointer and length is a slice's, and the borrow rules keep a written slice apart from the others.

pub fn translate(s: &[u8], c: &[u8], p: &[u8], kind: u8, address: u64, length: usize) -> Place {
    unsafe { sys::hekthumar_translate(s.as_ptr(), s.len(), c.as_ptr(), c.len(), p.as_ptr(), p.len(), kind, address, length) }
}

pub fn load(s: &[u8], c: &[u8], p: &[u8], address: u64, size: usize) -> Value {
    unsafe { sys::hekthumar_load(s.as_ptr(), s.len(), c.as_ptr(), c.len(), p.as_ptr(), p.len(), address, size) }
}

pub fn fetch(s: &[u8], c: &[u8], p: &[u8], address: u64, size: usize) -> Value {
    unsafe { sys::hekthumar_fetch(s.as_ptr(), s.len(), c.as_ptr(), c.len(), p.as_ptr(), p.len(), address, size) }
}

pub fn store(s: &[u8], c: &mut [u8], p: &mut [u8], address: u64, size: usize, value: u64) -> Outcome {
    unsafe { sys::hekthumar_store(s.as_ptr(), s.len(), c.as_mut_ptr(), c.len(), p.as_mut_ptr(), p.len(), address, size, value) }
}

pub fn load_span(s: &[u8], c: &[u8], p: &[u8], address: u64, out: &mut [u8]) -> Outcome {
    let (at, n) = (out.as_mut_ptr(), out.len());
    unsafe { sys::hekthumar_load_span(s.as_ptr(), s.len(), c.as_ptr(), c.len(), p.as_ptr(), p.len(), address, at, n) }
}

pub fn store_span(s: &[u8], c: &mut [u8], p: &mut [u8], address: u64, bytes: &[u8]) -> Outcome {
    let (at, n) = (bytes.as_ptr(), bytes.len());
    unsafe { sys::hekthumar_store_span(s.as_ptr(), s.len(), c.as_mut_ptr(), c.len(), p.as_mut_ptr(), p.len(), address, at, n) }
}

pub fn read_event(s: &[u8], c: &[u8], p: &[u8], address: u64) -> ReadAnswer<Event> {
    unsafe { sys::hekthumar_read_event(s.as_ptr(), s.len(), c.as_ptr(), c.len(), p.as_ptr(), p.len(), address) }
}

pub fn write_event(s: &[u8], c: &mut [u8], p: &mut [u8], address: u64, event: Event) -> Outcome {
    unsafe { sys::hekthumar_write_event(s.as_ptr(), s.len(), c.as_mut_ptr(), c.len(), p.as_mut_ptr(), p.len(), address, event) }
}

pub fn begin(s: &[u8], c: &mut [u8], p: &mut [u8], program: u16, edition: u32) -> u8 {
    unsafe { sys::hekthumar_begin(s.as_ptr(), s.len(), c.as_mut_ptr(), c.len(), p.as_mut_ptr(), p.len(), program, edition) }
}

pub fn begin_pages(s: &[u8], c: &mut [u8], p: &mut [u8], program: u16, edition: u32, pages: usize) -> u8 {
    unsafe { sys::hekthumar_begin_pages(s.as_ptr(), s.len(), c.as_mut_ptr(), c.len(), p.as_mut_ptr(), p.len(), program, edition, pages) }
}

pub fn call(s: &[u8], c: &mut [u8], p: &[u8], program: u16, registers: &[u8]) -> u8 {
    let (at, n) = (registers.as_ptr(), registers.len());
    unsafe { sys::hekthumar_call(s.as_ptr(), s.len(), c.as_mut_ptr(), c.len(), p.as_ptr(), p.len(), program, at, n) }
}

pub fn return_from(s: &[u8], c: &mut [u8], p: &[u8], registers: &mut [u8]) -> u8 {
    let (at, n) = (registers.as_mut_ptr(), registers.len());
    unsafe { sys::hekthumar_return(s.as_ptr(), s.len(), c.as_mut_ptr(), c.len(), p.as_ptr(), p.len(), at, n) }
}

pub fn resize(s: &[u8], c: &mut [u8], p: &mut [u8], region: u8, pages: usize) -> u8 {
    unsafe { sys::hekthumar_resize(s.as_ptr(), s.len(), c.as_mut_ptr(), c.len(), p.as_mut_ptr(), p.len(), region, pages) }
}

pub fn change_list(s: &[u8], c: &[u8], p: &[u8], out: &mut [u8]) -> u8 {
    let (at, n) = (out.as_mut_ptr(), out.len());
    unsafe { sys::hekthumar_change_list(s.as_ptr(), s.len(), c.as_ptr(), c.len(), p.as_ptr(), p.len(), at, n) }
}

pub fn apply(list: &[u8], account: u16, data: &mut [u8]) -> u8 {
    unsafe { sys::hekthumar_apply(list.as_ptr(), list.len(), account, data.as_mut_ptr(), data.len()) }
}

pub fn page_view(s: &[u8], c: &[u8], p: &[u8], account: u16, page: u16) -> View {
    unsafe { sys::hekthumar_page_view(s.as_ptr(), s.len(), c.as_ptr(), c.len(), p.as_ptr(), p.len(), account, page) }
}
