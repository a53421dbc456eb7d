//! Events in safe Rust: each field is read or written where it lies.

use crate::plain_access::target;
use crate::plain_headers::vm;
use crate::plain_place::{locate, Place, LOAD_SPAN, STORE_SPAN};
use crate::plain_refused::{outcome, Refused};
use crate::plain_words::u64_at;
use hekthumar::layout::EVENT;
use hekthumar::sys::{Buffer, Event, Outcome, ReadAnswer};

const NOTHING: Buffer = Buffer { pointer: 0, length: 0 };

#[inline(always)]
fn event_at(bytes: &[u8], at: usize) -> Event {
    let bytes = &bytes[at..at + EVENT];
    let buffer = |at| Buffer { pointer: u64_at(bytes, at), length: u64_at(bytes, at + 8) };
    Event { kind: buffer(0), data: buffer(16) }
}

#[inline(always)]
fn try_read_event(s: &[u8], c: &[u8], p: &[u8], address: u64) -> Result<Event, Refused> {
    vm(s, c, p)?;
    Ok(match locate::<LOAD_SPAN>(s, c, address, EVENT)? {
        Place::Snapshot(at) => event_at(s, at),
        Place::Control(at) => event_at(c, at),
        Place::Pool(at) => event_at(p, at),
        Place::Zeros | Place::Take { .. } => Event { kind: NOTHING, data: NOTHING },
    })
}

#[inline(never)]
pub fn read_event(s: &[u8], c: &[u8], p: &[u8], address: u64) -> ReadAnswer<Event> {
    let result = try_read_event(s, c, p, address);
    let Outcome { distance, number } = outcome(result.map(drop));
    ReadAnswer { record: result.unwrap_or(Event { kind: NOTHING, data: NOTHING }), distance, number }
}

#[inline(always)]
fn try_write_event(s: &[u8], c: &mut [u8], p: &mut [u8], address: u64, event: Event) -> Result<(), Refused> {
    vm(s, c, p)?;
    let place = locate::<STORE_SPAN>(s, c, address, EVENT)?;
    let fields = [event.kind.pointer, event.kind.length, event.data.pointer, event.data.length];
    let bytes = target(s, c, p, place, address, EVENT);
    for (part, field) in bytes.chunks_exact_mut(8).zip(fields) {
        part.copy_from_slice(&field.to_le_bytes());
    }
    Ok(())
}

#[inline(never)]
pub fn write_event(s: &[u8], c: &mut [u8], p: &mut [u8], address: u64, event: Event) -> Outcome {
    outcome(try_write_event(s, c, p, address, event))
}
