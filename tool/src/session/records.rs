//! Records in program memory, each read and written whole.

use super::Session;
use crate::answer::{Answer, Fact};
use crate::reason::access::Access;
use crate::reason::{record as reason, segment};
use crate::script::{Content, Layout};
use crate::world::World;
use hekthumar::{sys, Address, Buffer, CallRecord, Event, Kind, Location, Refusal, Returned};

impl Session {
    pub(super) fn read(&mut self, record: Layout, address: Address) -> Answer {
        match self.read_content(record, address) {
            Ok(content) => {
                let fields = fields(content);
                let world = self.world();
                Answer::done("", fields.iter().flat_map(Field::facts)).and(fields.iter().map(|field| field.line(world)))
            }
            Err(Refusal::BadRecord) => {
                Answer::refused(Refusal::BadRecord, self.discriminant(address).map(|found| reason::stands(address, found)))
            }
            Err(refusal) => self.refused(Access { kind: Kind::LoadSpan, address, length: record.bytes() }, refusal),
        }
    }

    fn read_content(&mut self, record: Layout, address: Address) -> Result<Content, Refusal> {
        let memory = self.memory();
        Ok(match record {
            Layout::Buffer => Content::Buffer(memory.read_buffer(address)?),
            Layout::Event => Content::Event(memory.read_event(address)?),
            Layout::Location => Content::Location(memory.read_location(address)?),
            Layout::CallRecord => Content::CallRecord(memory.read_call_record(address)?),
            Layout::Returned => match memory.read_returned(address)? {
                Returned::Ok(buffer) => Content::Returned { discriminant: 0, buffer },
                Returned::Err(buffer) => Content::Returned { discriminant: 1, buffer },
            },
        })
    }

    /// The first 8 bytes of a returned value.
    fn discriminant(&mut self, address: Address) -> Option<u64> {
        let mut bytes = [0; 8];
        self.memory().load_span(address, &mut bytes).ok().map(|()| u64::from_le_bytes(bytes))
    }

    pub(super) fn write(&mut self, address: Address, content: Content) -> Answer {
        let written = match content {
            Content::Buffer(buffer) => self.memory().write_buffer(address, buffer),
            Content::Event(event) => self.memory().write_event(address, event),
            Content::Location(location) => self.memory().write_location(address, location),
            Content::CallRecord(call) => self.memory().write_call_record(address, call),
            Content::Returned { discriminant, buffer } => self.write_returned(address, discriminant, buffer),
        };
        match (written, content) {
            (Ok(()), _) => Answer::done("", []),
            (Err(Refusal::BadRecord), Content::Returned { discriminant, .. }) => {
                Answer::refused(Refusal::BadRecord, Some(reason::given(discriminant)))
            }
            (Err(refusal), _) => self.refused(Access { kind: Kind::StoreSpan, address, length: content.layout().bytes() }, refusal),
        }
    }

    /// By the C interface, since a `Returned` has no other discriminant than 0 and 1.
    fn write_returned(&mut self, address: Address, discriminant: u64, buffer: Buffer) -> Result<(), Refusal> {
        let Session { snapshot, control, pool } = self;
        let record = sys::Returned { discriminant, buffer: buffer.into() };
        let (snapshot_len, control_len, pool_len) = (snapshot.len(), control.len(), pool.len());
        let (snapshot, control, pool) = (snapshot.as_ptr(), control.as_mut_ptr(), pool.as_mut_ptr());
        // SAFETY: each pointer and length is that of a vector borrowed for the call, and no two of them overlap.
        let outcome =
            unsafe { sys::hekthumar_write_returned(snapshot, snapshot_len, control, control_len, pool, pool_len, address.0, record) };
        match outcome.number {
            0 => Ok(()),
            13 => Err(Refusal::Absent { distance: outcome.distance }),
            number => Err(Refusal::from_number(number).expect("the library answers 0 to 14")),
        }
    }
}

/// A field that is printed on a line of its own.
enum Field {
    Buffer(&'static str, Buffer),
    Number(&'static str, u64),
    Discriminant(u64),
}

/// What a record holds, in order.
fn fields(content: Content) -> Vec<Field> {
    match content {
        Content::Buffer(buffer) => vec![Field::Buffer("buffer", buffer)],
        Content::Event(Event { kind, data }) => vec![Field::Buffer("kind", kind), Field::Buffer("data", data)],
        Content::Location(Location { file, line, column }) => {
            vec![Field::Buffer("file", file), Field::Number("line", line.into()), Field::Number("column", column.into())]
        }
        Content::CallRecord(CallRecord { context_id, function, params }) => {
            vec![Field::Buffer("context_id", context_id), Field::Buffer("function", function), Field::Buffer("params", params)]
        }
        Content::Returned { discriminant, buffer } => vec![Field::Discriminant(discriminant), Field::Buffer("buffer", buffer)],
    }
}

impl Field {
    fn facts(&self) -> Vec<Fact> {
        match *self {
            Field::Buffer(_, Buffer { pointer, length }) => vec![Fact::Value(pointer.0), Fact::Number(length)],
            Field::Number(_, number) | Field::Discriminant(number) => vec![Fact::Number(number)],
        }
    }

    fn line(&self, world: World) -> String {
        match *self {
            Field::Buffer(name, Buffer { pointer, length }) => {
                format!("    {name}: pointer {pointer}{}, length {length}", named(world, pointer))
            }
            Field::Number(name, number) => format!("    {name}: {number}"),
            Field::Discriminant(discriminant) => {
                format!("    discriminant: {discriminant} ({})", if discriminant == 0 { "Ok" } else { "Err" })
            }
        }
    }
}

/// The segment of an address, if it lies in one.
fn named(world: World, pointer: Address) -> String {
    segment::of(world, pointer).map_or(String::new(), |segment| format!(" ({})", segment::name(segment)))
}

#[cfg(test)]
mod tests {
    use super::*;

    /// What is expected of a read is what its fields' names say: a pointer is a value, anything else a number.
    #[test]
    fn a_fact_for_each_field() {
        let buffer = Buffer { pointer: Address(0), length: 0 };
        let contents = [
            Content::Buffer(buffer),
            Content::Event(Event { kind: buffer, data: buffer }),
            Content::Location(Location { file: buffer, line: 0, column: 0 }),
            Content::CallRecord(CallRecord { context_id: buffer, function: buffer, params: buffer }),
            Content::Returned { discriminant: 0, buffer },
        ];
        for content in contents {
            let values = fields(content).iter().flat_map(Field::facts).map(|fact| matches!(fact, Fact::Value(_))).collect::<Vec<_>>();
            let pointers = content.layout().fields().split(' ').map(|name| name.ends_with("POINTER"));
            assert_eq!(values, pointers.collect::<Vec<_>>(), "{content:?}");
        }
    }
}
