//! The records by which programs pass data, as a script names them and their fields.

use super::words::{Mistake, Words};
use hekthumar::layout::{BUFFER, CALL_RECORD, EVENT, LOCATION, RETURNED};
use hekthumar::{Address, Buffer, CallRecord, Event, Location};
use std::str::SplitWhitespace;

/// Which record.
#[derive(Clone, Copy, Debug, PartialEq, Eq)]
pub enum Layout {
    Buffer,
    Event,
    Location,
    CallRecord,
    Returned,
}

/// A record with what it holds. A returned value may have any discriminant, so that a script can have it refused.
#[derive(Clone, Copy, Debug, PartialEq, Eq)]
pub enum Content {
    Buffer(Buffer),
    Event(Event),
    Location(Location),
    CallRecord(CallRecord),
    Returned { discriminant: u64, buffer: Buffer },
}

impl Layout {
    pub const ALL: [Layout; 5] = [Layout::Buffer, Layout::Event, Layout::Location, Layout::CallRecord, Layout::Returned];

    /// Its name, how many bytes of memory it fills, and the words for its fields in order.
    fn row(self) -> (&'static str, usize, &'static str) {
        match self {
            Layout::Buffer => ("buffer", BUFFER, "POINTER LENGTH"),
            Layout::Event => ("event", EVENT, "KIND-POINTER KIND-LENGTH DATA-POINTER DATA-LENGTH"),
            Layout::Location => ("location", LOCATION, "FILE-POINTER FILE-LENGTH LINE COLUMN"),
            Layout::CallRecord => {
                ("call_record", CALL_RECORD, "CONTEXT-POINTER CONTEXT-LENGTH FUNCTION-POINTER FUNCTION-LENGTH PARAMS-POINTER PARAMS-LENGTH")
            }
            Layout::Returned => ("returned", RETURNED, "DISCRIMINANT POINTER LENGTH"),
        }
    }

    pub fn name(self) -> &'static str {
        self.row().0
    }

    pub fn bytes(self) -> usize {
        self.row().1
    }

    pub fn fields(self) -> &'static str {
        self.row().2
    }

    /// The record with this name.
    pub fn named(name: &[u8]) -> Option<Layout> {
        Layout::ALL.into_iter().find(|record| record.name().as_bytes() == name)
    }

    /// The record that the next word names.
    pub fn read(words: &mut Words) -> Result<Layout, Mistake> {
        words.choice("RECORD", &Layout::ALL.map(Layout::name)).map(|record| Layout::ALL[record])
    }

    /// Its fields, from the next words.
    pub fn content(self, words: &mut Words) -> Result<Content, Mistake> {
        let mut fields = Fields { names: self.fields().split_whitespace(), words };
        Ok(match self {
            Layout::Buffer => Content::Buffer(fields.buffer()?),
            Layout::Event => Content::Event(Event { kind: fields.buffer()?, data: fields.buffer()? }),
            Layout::Location => Content::Location(Location { file: fields.buffer()?, line: fields.half()?, column: fields.half()? }),
            Layout::CallRecord => {
                let [context_id, function, params] = [fields.buffer()?, fields.buffer()?, fields.buffer()?];
                Content::CallRecord(CallRecord { context_id, function, params })
            }
            Layout::Returned => Content::Returned { discriminant: fields.number()?, buffer: fields.buffer()? },
        })
    }
}

impl Content {
    pub fn layout(&self) -> Layout {
        match self {
            Content::Buffer(_) => Layout::Buffer,
            Content::Event(_) => Layout::Event,
            Content::Location(_) => Layout::Location,
            Content::CallRecord(_) => Layout::CallRecord,
            Content::Returned { .. } => Layout::Returned,
        }
    }
}

/// Words to be read as fields, and the names of those fields.
struct Fields<'w, 'a> {
    names: SplitWhitespace<'static>,
    words: &'w mut Words<'a>,
}

impl Fields<'_, '_> {
    fn name(&mut self) -> &'static str {
        self.names.next().unwrap_or("FIELD")
    }

    fn number(&mut self) -> Result<u64, Mistake> {
        let name = self.name();
        self.words.number(name)
    }

    /// A number of 32 bits.
    fn half(&mut self) -> Result<u32, Mistake> {
        let name = self.name();
        self.words.at_most(name, u32::MAX.into()).map(|number| number as u32)
    }

    fn buffer(&mut self) -> Result<Buffer, Mistake> {
        Ok(Buffer { pointer: Address(self.number()?), length: self.number()? })
    }
}

#[cfg(test)]
mod tests {
    use super::super::{read, Statement};
    use super::*;

    /// The fields are the words after the address, each under its own name.
    #[test]
    fn fields_in_order() {
        let buffer = |pointer, length| Buffer { pointer: Address(pointer), length };
        let [context_id, function, params] = [buffer(1, 2), buffer(3, 4), buffer(5, 6)];
        let written = [
            ("buffer 9 1 2", Content::Buffer(buffer(1, 2))),
            ("event 9 1 2 3 4", Content::Event(Event { kind: buffer(1, 2), data: buffer(3, 4) })),
            ("location 9 1 2 3 4", Content::Location(Location { file: buffer(1, 2), line: 3, column: 4 })),
            ("call_record 9 1 2 3 4 5 6", Content::CallRecord(CallRecord { context_id, function, params })),
            ("returned 9 7 1 2", Content::Returned { discriminant: 7, buffer: buffer(1, 2) }),
        ];
        for ((words, content), record) in written.into_iter().zip(Layout::ALL) {
            let lines = read(format!("write {words}\nread {} 9", record.name()).as_bytes()).expect("both lines can be read");
            assert_eq!(lines[0].statement, Statement::Write { address: Address(9), content });
            assert_eq!(lines[1].statement, Statement::Read { record, address: Address(9) });
            assert_eq!((content.layout(), words.split(' ').count() - 2), (record, record.fields().split(' ').count()));
        }
    }
}
