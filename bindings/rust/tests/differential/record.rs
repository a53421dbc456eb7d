//! Source document 002's records as values, and their bytes in program memory by its layouts.

use hekthumar::sys::{Buffer, CallRecord, Event, Location, Returned};

use crate::bytes::number;

#[derive(Clone, Copy, Debug, PartialEq, Eq)]
pub enum Shape {
    Buffer,
    Event,
    Location,
    CallRecord,
    Returned,
}

/// Where a field lies in a record, and how many bytes it has.
pub type Field = (usize, usize);

impl Shape {
    pub const ALL: [Shape; 5] = [Shape::Buffer, Shape::Event, Shape::Location, Shape::CallRecord, Shape::Returned];

    /// "16 bytes ..., events (32 bytes), locations (24), call records (48) and returned values (24 ...)"
    pub fn length(self) -> usize {
        match self {
            Shape::Buffer => 16,
            Shape::Event => 32,
            Shape::Location => 24,
            Shape::CallRecord => 48,
            Shape::Returned => 24,
        }
    }

    /// 002's "Layout in memory", in the order of its lines.
    pub fn layout(self) -> &'static [Field] {
        match self {
            // "Size: 16 bytes (8 for pointer + 8 for length)"
            Shape::Buffer => &[(0, 8), (8, 8)],
            // kind.ptr, kind.len, data.ptr, data.len
            Shape::Event => &[(0, 8), (8, 8), (16, 8), (24, 8)],
            // file.ptr, file.len, line (u32), column (u32)
            Shape::Location => &[(0, 8), (8, 8), (16, 4), (20, 4)],
            // context_id.ptr, context_id.len, function.ptr, function.len, params.ptr, params.len
            Shape::CallRecord => &[(0, 8), (8, 8), (16, 8), (24, 8), (32, 8), (40, 8)],
            // discriminant (u64), buffer.ptr, buffer.len
            Shape::Returned => &[(0, 8), (8, 8), (16, 8)],
        }
    }

    /// Which of the fields are pointers; the length of each comes next.
    pub fn pointers(self) -> &'static [usize] {
        match self {
            Shape::Buffer | Shape::Location => &[0],
            Shape::Event => &[0, 2],
            Shape::CallRecord => &[0, 2, 4],
            Shape::Returned => &[1],
        }
    }
}

#[derive(Clone, Copy, Debug, PartialEq, Eq)]
pub enum Record {
    Buffer(Buffer),
    Event(Event),
    Location(Location),
    CallRecord(CallRecord),
    Returned(Returned),
}

impl Record {
    pub fn shape(&self) -> Shape {
        match self {
            Record::Buffer(_) => Shape::Buffer,
            Record::Event(_) => Shape::Event,
            Record::Location(_) => Shape::Location,
            Record::CallRecord(_) => Shape::CallRecord,
            Record::Returned(_) => Shape::Returned,
        }
    }

    /// In the order of the layout.
    pub fn fields(&self) -> Vec<u64> {
        let buffers = |buffers: &[Buffer]| buffers.iter().flat_map(|buffer| [buffer.pointer, buffer.length]).collect::<Vec<u64>>();
        match self {
            Record::Buffer(buffer) => buffers(&[*buffer]),
            Record::Event(event) => buffers(&[event.kind, event.data]),
            Record::Location(place) => [buffers(&[place.file]), vec![place.line.into(), place.column.into()]].concat(),
            Record::CallRecord(call) => buffers(&[call.context_id, call.function, call.params]),
            Record::Returned(value) => [vec![value.discriminant], buffers(&[value.buffer])].concat(),
        }
    }

    /// Of fields in the order of the layout.
    pub fn of(shape: Shape, fields: &[u64]) -> Record {
        let buffer = |first: usize| Buffer { pointer: fields[first], length: fields[first + 1] };
        match shape {
            Shape::Buffer => Record::Buffer(buffer(0)),
            Shape::Event => Record::Event(Event { kind: buffer(0), data: buffer(2) }),
            Shape::Location => Record::Location(Location { file: buffer(0), line: fields[2] as u32, column: fields[3] as u32 }),
            Shape::CallRecord => Record::CallRecord(CallRecord { context_id: buffer(0), function: buffer(2), params: buffer(4) }),
            Shape::Returned => Record::Returned(Returned { discriminant: fields[0], buffer: buffer(1) }),
        }
    }

    pub fn zeros(shape: Shape) -> Record {
        Record::of(shape, &vec![0; shape.layout().len()])
    }

    /// As memory holds it: "Little-endian".
    pub fn bytes(&self) -> Vec<u8> {
        self.bytes_by(self.shape().layout())
    }

    /// With each field where another layout has it.
    pub fn bytes_by(&self, layout: &[Field]) -> Vec<u8> {
        let mut bytes = vec![0; self.shape().length()];
        for (field, &(at, width)) in self.fields().into_iter().zip(layout) {
            bytes[at..at + width].copy_from_slice(&field.to_le_bytes()[..width]);
        }
        bytes
    }

    /// Of bytes that have each field where this layout has it.
    pub fn from_bytes_by(shape: Shape, layout: &[Field], bytes: &[u8]) -> Record {
        let fields: Vec<u64> = layout.iter().map(|&(at, width)| number(&bytes[at..at + width])).collect();
        Record::of(shape, &fields)
    }
}
