//! The lent buffers of a script, and its statements carried out on them.

mod accesses;
mod buffers;
mod changes;
mod invocations;
mod records;

pub use buffers::{CONTROL, POOL};
pub use changes::{pages, pages_of};
pub use invocations::register_lines;

use crate::answer::Answer;
use crate::failure::Failure;
use crate::script::Statement;
use crate::world::World;
use buffers::save;
use hekthumar::{control_len, pool_len, Memory, Refusal};

/// Frames of the pool where a script does not say how many.
const FRAMES: usize = 16;

/// The lent buffers.
pub struct Session {
    snapshot: Vec<u8>,
    control: Vec<u8>,
    pool: Vec<u8>,
}

impl Session {
    /// Over a snapshot, with the other buffers zeros.
    pub fn new(snapshot: Vec<u8>) -> Session {
        Session { snapshot, control: vec![0; control_len(FRAMES)], pool: vec![0; pool_len(FRAMES)] }
    }

    /// The buffers, to be read.
    pub fn world(&self) -> World<'_> {
        World { snapshot: &self.snapshot, control: &self.control, pool: &self.pool }
    }

    /// Carries out a statement. A failure ends the script.
    pub fn carry_out(&mut self, statement: &Statement) -> Result<Answer, Failure> {
        Ok(match *statement {
            Statement::Frames(frames) => self.lend(frames),
            Statement::Resume { ref control, ref pool } => self.resume(control, pool)?,
            Statement::Begin { program, pages, edition } => self.begin(program, pages, edition),
            Statement::Load { address, size } => self.load(address, size),
            Statement::Fetch { address, size } => self.fetch(address, size),
            Statement::Store { address, size, value } => self.store(address, size, value),
            Statement::LoadSpan { address, length } => self.load_span(address, length),
            Statement::StoreSpan { address, ref bytes } => self.store_span(address, bytes),
            Statement::Read { record, address } => self.read(record, address),
            Statement::Write { address, content } => self.write(address, content),
            Statement::Translate { kind, address, length } => self.translate(kind, address, length),
            Statement::Call { program, register } => self.call(program, register),
            Statement::Return => self.return_from(),
            Statement::Resize { region, pages } => self.resize(region, pages),
            Statement::View { account, page } => self.view(account, page),
            Statement::List => self.list(),
            Statement::Map => self.map(),
            Statement::Poke { buffer, at, ref bytes } => self.poke(buffer, at, bytes)?,
            Statement::SaveControl(ref path) => self.save_control(path)?,
            Statement::SavePool(ref path) => save(path, &self.pool)?,
            Statement::SaveList(ref path) => self.save_list(path)?,
        })
    }

    fn memory(&mut self) -> Memory<'_> {
        Memory::new(&self.snapshot, &mut self.control, &mut self.pool)
    }

    /// The answer of a call that gives nothing but its number.
    fn plain(&self, answer: Result<(), Refusal>, why: impl FnOnce(World, Refusal) -> Option<String>) -> Answer {
        match answer {
            Ok(()) => Answer::done("", []),
            Err(refusal) => Answer::refused(refusal, why(self.world(), refusal)),
        }
    }
}
