//! Scripts: one statement to a line, read whole before anything is carried out.

pub mod forms;
mod parse;
mod records;
mod words;

pub use records::{Content, Layout};

use crate::answer::Fact;
use hekthumar::{Address, Edition, Kind, Region};
use std::fmt;
use std::path::PathBuf;

/// A script, or what is wrong with each of its lines.
pub fn read(text: &[u8]) -> Result<Vec<Line>, Vec<Complaint>> {
    parse::script(text)
}

/// A line that holds a statement.
#[derive(Debug)]
pub struct Line {
    /// Counted from 1.
    pub number: usize,
    /// The line as it stands in the script.
    pub text: Vec<u8>,
    /// The column of the statement, counted from 1.
    pub column: usize,
    pub statement: Statement,
    pub expected: Option<Expected>,
}

/// What a statement is expected to be answered with.
#[derive(Debug)]
pub struct Expected {
    /// The column of the sign `=>`.
    pub column: usize,
    pub facts: Vec<Fact>,
}

/// What is wrong with a line, and how its statement is written, if it names one.
#[derive(Debug)]
pub struct Complaint {
    pub line: usize,
    pub column: usize,
    pub mistake: String,
    pub usage: Option<String>,
}

/// The place first, for whoever jumps to it; then the mistake, and the usage after it.
impl fmt::Display for Complaint {
    fn fmt(&self, f: &mut fmt::Formatter<'_>) -> fmt::Result {
        let Complaint { line, column, mistake, usage } = self;
        write!(f, "{line}:{column}: {mistake}")?;
        usage.iter().try_for_each(|usage| write!(f, "\n  usage: {usage}"))
    }
}

/// One of the lent buffers.
#[derive(Clone, Copy, Debug, PartialEq, Eq)]
pub enum Buffer {
    Snapshot,
    Control,
    Pool,
}

/// A statement.
#[derive(Debug, PartialEq, Eq)]
pub enum Statement {
    Frames(usize),
    Resume { control: PathBuf, pool: PathBuf },
    Begin { program: u16, pages: Option<usize>, edition: Edition },
    Load { address: Address, size: usize },
    Fetch { address: Address, size: usize },
    Store { address: Address, size: usize, value: u64 },
    LoadSpan { address: Address, length: usize },
    StoreSpan { address: Address, bytes: Vec<u8> },
    Read { record: Layout, address: Address },
    Write { address: Address, content: Content },
    Translate { kind: Kind, address: Address, length: usize },
    Call { program: u16, register: u64 },
    Return,
    Resize { region: Region, pages: usize },
    View { account: u16, page: u16 },
    List,
    Map,
    Poke { buffer: Buffer, at: usize, bytes: Vec<u8> },
    SaveControl(PathBuf),
    SavePool(PathBuf),
    SaveList(PathBuf),
}
