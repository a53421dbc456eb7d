//! The library behind its C interface, given the same calls as the model.

use hekthumar::sys::*;

use crate::interface::{Answer, Call, World};
use crate::record::{Record, Shape};

/// An empty buffer is lent as a null pointer with length 0.
fn read(bytes: &[u8]) -> (*const u8, usize) {
    (if bytes.is_empty() { std::ptr::null() } else { bytes.as_ptr() }, bytes.len())
}

fn write(bytes: &mut [u8]) -> (*mut u8, usize) {
    (if bytes.is_empty() { std::ptr::null_mut() } else { bytes.as_mut_ptr() }, bytes.len())
}

/// One call of the library on buffers that it alone holds.
pub fn run(world: &mut World, call: &mut Call) -> Answer {
    let (s, sl) = read(&world.snapshot);
    let (c, cl) = write(&mut world.control);
    let (p, pl) = write(&mut world.pool);
    // SAFETY: every pointer and length is a whole vector or an empty buffer, and no two of them overlap.
    unsafe {
        match call {
            Call::Join { segment, index, offset } => Answer::Joined(hekthumar_join(*segment, *index, *offset)),
            Call::Split { address } => Answer::Fields(hekthumar_split(*address)),
            Call::Begin { program, edition } => Answer::Number(hekthumar_begin(s, sl, c, cl, p, pl, *program, *edition)),
            Call::BeginPages { program, edition, pages } => {
                Answer::Number(hekthumar_begin_pages(s, sl, c, cl, p, pl, *program, *edition, *pages))
            }
            Call::Translate { kind, address, length } => Answer::Place(hekthumar_translate(s, sl, c, cl, p, pl, *kind, *address, *length)),
            Call::Load { address, size } => Answer::Value(hekthumar_load(s, sl, c, cl, p, pl, *address, *size)),
            Call::Fetch { address, size } => Answer::Value(hekthumar_fetch(s, sl, c, cl, p, pl, *address, *size)),
            Call::Store { address, size, value } => Answer::Outcome(hekthumar_store(s, sl, c, cl, p, pl, *address, *size, *value)),
            Call::LoadSpan { address, out } => {
                let (out, length) = write(&mut out.0);
                Answer::Outcome(hekthumar_load_span(s, sl, c, cl, p, pl, *address, out, length))
            }
            Call::StoreSpan { address, bytes } => {
                let (bytes, length) = read(&bytes.0);
                Answer::Outcome(hekthumar_store_span(s, sl, c, cl, p, pl, *address, bytes, length))
            }
            Call::Invoke { program, registers } => {
                let (registers, length) = read(&registers.0);
                Answer::Number(hekthumar_call(s, sl, c, cl, p, pl, *program, registers, length))
            }
            Call::Return { registers } => {
                let (registers, length) = write(&mut registers.0);
                Answer::Number(hekthumar_return(s, sl, c, cl, p, pl, registers, length))
            }
            Call::Resize { region, pages } => Answer::Number(hekthumar_resize(s, sl, c, cl, p, pl, *region, *pages)),
            Call::ChangeList { out } => {
                let (out, length) = write(&mut out.0);
                Answer::Number(hekthumar_change_list(s, sl, c, cl, p, pl, out, length))
            }
            Call::Apply { list, account, data } => {
                let ((list, list_length), (data, length)) = (read(&list.0), write(&mut data.0));
                Answer::Number(hekthumar_apply(list, list_length, *account, data, length))
            }
            Call::PageView { account, page } => Answer::View(hekthumar_page_view(s, sl, c, cl, p, pl, *account, *page)),
            Call::ReadRecord { shape, address } => read_record(world, *shape, *address),
            Call::WriteRecord { address, record } => Answer::Outcome(write_record(world, *address, *record)),
        }
    }
}

fn read_record(world: &World, shape: Shape, address: u64) -> Answer {
    let ((s, sl), (c, cl), (p, pl)) = (read(&world.snapshot), read(&world.control), read(&world.pool));
    // SAFETY: every pointer and length is a whole vector or an empty buffer, and nothing is written.
    unsafe {
        match shape {
            Shape::Buffer => answered(hekthumar_read_buffer(s, sl, c, cl, p, pl, address), Record::Buffer),
            Shape::Event => answered(hekthumar_read_event(s, sl, c, cl, p, pl, address), Record::Event),
            Shape::Location => answered(hekthumar_read_location(s, sl, c, cl, p, pl, address), Record::Location),
            Shape::CallRecord => answered(hekthumar_read_call_record(s, sl, c, cl, p, pl, address), Record::CallRecord),
            Shape::Returned => answered(hekthumar_read_returned(s, sl, c, cl, p, pl, address), Record::Returned),
        }
    }
}

fn answered<T>(answer: ReadAnswer<T>, record: fn(T) -> Record) -> Answer {
    Answer::Read(ReadAnswer { record: record(answer.record), distance: answer.distance, number: answer.number })
}

fn write_record(world: &mut World, address: u64, record: Record) -> Outcome {
    let (s, sl) = read(&world.snapshot);
    let ((c, cl), (p, pl)) = (write(&mut world.control), write(&mut world.pool));
    // SAFETY: every pointer and length is a whole vector or an empty buffer, and no two of them overlap.
    unsafe {
        match record {
            Record::Buffer(record) => hekthumar_write_buffer(s, sl, c, cl, p, pl, address, record),
            Record::Event(record) => hekthumar_write_event(s, sl, c, cl, p, pl, address, record),
            Record::Location(record) => hekthumar_write_location(s, sl, c, cl, p, pl, address, record),
            Record::CallRecord(record) => hekthumar_write_call_record(s, sl, c, cl, p, pl, address, record),
            Record::Returned(record) => hekthumar_write_returned(s, sl, c, cl, p, pl, address, record),
        }
    }
}
