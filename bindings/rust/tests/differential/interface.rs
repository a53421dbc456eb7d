//! The calls of the C interface as values: what is lent, what is asked, what is answered.

use std::fmt;

use hekthumar::sys::{Fields, Joined, Outcome, Place, ReadAnswer, Value, View};

use crate::record::{Record, Shape};

/// The three lent buffers.
#[derive(Clone, PartialEq, Eq)]
pub struct World {
    pub snapshot: Vec<u8>,
    pub control: Vec<u8>,
    pub pool: Vec<u8>,
}

/// A buffer lent with a single call.
#[derive(Clone, PartialEq, Eq)]
pub struct Bytes(pub Vec<u8>);

impl fmt::Debug for Bytes {
    fn fmt(&self, formatter: &mut fmt::Formatter) -> fmt::Result {
        let shown = self.0.len().min(24);
        let rest = if shown < self.0.len() { " .." } else { "" };
        write!(formatter, "{} bytes {:02x?}{rest}", self.0.len(), &self.0[..shown])
    }
}

#[derive(Clone, Debug, PartialEq, Eq)]
pub enum Call {
    Join { segment: u8, index: u16, offset: u32 },
    Split { address: u64 },
    Begin { program: u16, edition: u32 },
    BeginPages { program: u16, edition: u32, pages: usize },
    Translate { kind: u8, address: u64, length: usize },
    Load { address: u64, size: usize },
    Fetch { address: u64, size: usize },
    Store { address: u64, size: usize, value: u64 },
    LoadSpan { address: u64, out: Bytes },
    StoreSpan { address: u64, bytes: Bytes },
    Invoke { program: u16, registers: Bytes },
    Return { registers: Bytes },
    Resize { region: u8, pages: usize },
    ChangeList { out: Bytes },
    Apply { list: Bytes, account: u16, data: Bytes },
    PageView { account: u16, page: u16 },
    ReadRecord { shape: Shape, address: u64 },
    WriteRecord { address: u64, record: Record },
}

pub const KINDS: usize = 26;
pub const NAMES: [&str; KINDS] = [
    "join",
    "split",
    "begin",
    "begin_pages",
    "translate",
    "load",
    "fetch",
    "store",
    "load_span",
    "store_span",
    "call",
    "return",
    "resize",
    "change_list",
    "apply",
    "page_view",
    "read_buffer",
    "read_event",
    "read_location",
    "read_call_record",
    "read_returned",
    "write_buffer",
    "write_event",
    "write_location",
    "write_call_record",
    "write_returned",
];

/// Where the reads start in `NAMES`, and the writes; each in the order of the shapes.
const READS: usize = 16;
const WRITES: usize = READS + Shape::ALL.len();

/// Whether a call of this name reads or writes a record, and of which shape.
pub fn record_call(name: &str) -> Option<(bool, Shape)> {
    let kind = NAMES.iter().position(|other| *other == name)?;
    let shape = *Shape::ALL.get(kind.checked_sub(READS)? % Shape::ALL.len())?;
    Some((kind < WRITES, shape))
}

impl Call {
    /// The call's place in `NAMES`.
    pub fn kind(&self) -> usize {
        match self {
            Call::Join { .. } => 0,
            Call::Split { .. } => 1,
            Call::Begin { .. } => 2,
            Call::BeginPages { .. } => 3,
            Call::Translate { .. } => 4,
            Call::Load { .. } => 5,
            Call::Fetch { .. } => 6,
            Call::Store { .. } => 7,
            Call::LoadSpan { .. } => 8,
            Call::StoreSpan { .. } => 9,
            Call::Invoke { .. } => 10,
            Call::Return { .. } => 11,
            Call::Resize { .. } => 12,
            Call::ChangeList { .. } => 13,
            Call::Apply { .. } => 14,
            Call::PageView { .. } => 15,
            Call::ReadRecord { shape, .. } => READS + *shape as usize,
            Call::WriteRecord { record, .. } => WRITES + record.shape() as usize,
        }
    }

    /// The buffers lent with this call alone, by name; also those that are read only.
    pub fn lent(&self) -> Vec<(&'static str, &[u8])> {
        match self {
            Call::LoadSpan { out, .. } | Call::ChangeList { out } => vec![("out", &out.0)],
            Call::StoreSpan { bytes, .. } => vec![("bytes", &bytes.0)],
            Call::Invoke { registers, .. } | Call::Return { registers } => vec![("registers", &registers.0)],
            Call::Apply { list, data, .. } => vec![("list", &list.0), ("data", &data.0)],
            _ => vec![],
        }
    }

    /// The address in hexadecimal, its three fields apart.
    pub fn describe(&self) -> String {
        let address = match self {
            Call::Split { address }
            | Call::Translate { address, .. }
            | Call::Load { address, .. }
            | Call::Fetch { address, .. }
            | Call::Store { address, .. }
            | Call::LoadSpan { address, .. }
            | Call::StoreSpan { address, .. }
            | Call::ReadRecord { address, .. }
            | Call::WriteRecord { address, .. } => *address,
            _ => return format!("{self:?}"),
        };
        let (upper, segment, index, offset) = (address >> 48, address >> 40 & 0xFF, address >> 24 & 0xFFFF, address & 0xFF_FFFF);
        format!("{self:?}, address {address:#014x}: upper {upper:#x}, type {segment}, index {index}, offset {offset:#x}")
    }
}

/// A whole answer. The numbers of a refusal and of success are in each.
#[derive(Clone, Copy, Debug, PartialEq, Eq)]
pub enum Answer {
    Number(u8),
    Joined(Joined),
    Fields(Fields),
    Value(Value),
    Outcome(Outcome),
    Place(Place),
    View(View),
    Read(ReadAnswer<Record>),
}

impl Answer {
    pub fn number(&self) -> u8 {
        match self {
            Answer::Number(number) => *number,
            Answer::Joined(joined) => joined.number,
            Answer::Fields(fields) => fields.number,
            Answer::Value(value) => value.number,
            Answer::Outcome(outcome) => outcome.number,
            Answer::Place(place) => place.number,
            Answer::View(view) => view.number,
            Answer::Read(read) => read.number,
        }
    }

    /// The distance that an access tells, and translation for it; none where the answer has no place for one.
    pub fn distance(&self) -> Option<u64> {
        match self {
            Answer::Value(value) => Some(value.distance.into()),
            Answer::Outcome(outcome) => Some(outcome.distance.into()),
            Answer::Place(place) => (place.place == 0).then_some(place.at),
            Answer::Read(read) => Some(read.distance.into()),
            _ => None,
        }
    }
}
