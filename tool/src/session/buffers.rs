//! The buffers themselves: lent, shown, damaged, kept in files.

use super::Session;
use crate::answer::{Answer, Fact};
use crate::failure::Failure;
use crate::files::{self, Limit};
use crate::rules::former_control::made_before_editions;
use crate::script::Buffer;
use crate::text::{count, name};
use crate::{pool_map, verdict};
use hekthumar::layout::MAX_FRAMES;
use hekthumar::{control_len, pool_len};
use std::path::Path;

/// What a control block and a pool are read as.
pub const CONTROL: Limit = Limit { what: "a control block", most: control_len(MAX_FRAMES) };
pub const POOL: Limit = Limit { what: "a pool", most: pool_len(MAX_FRAMES) };

/// What to do about a control block made before editions.
const FORMER: &str = "this control block was made before editions and cannot be carried over: leave this resume out, and begin anew";

impl Session {
    /// Other buffers of zeros.
    pub fn lend(&mut self, frames: usize) -> Answer {
        (self.control, self.pool) = (vec![0; control_len(frames)], vec![0; pool_len(frames)]);
        Answer::note(format!("  a pool of {}", count(frames as u64, "frame")))
    }

    /// The buffers of files.
    pub(super) fn resume(&mut self, control: &Path, pool: &Path) -> Result<Answer, Failure> {
        (self.control, self.pool) = (files::read(control, CONTROL)?, files::read(pool, POOL)?);
        let warning = made_before_editions(&self.control).then_some(FORMER);
        let lent = Answer::note(format!("  a control block of {} bytes and a pool of {}", self.control.len(), self.pool.len()));
        Ok(Answer { warning, ..lent })
    }

    pub fn map(&self) -> Answer {
        Answer { lines: pool_map::lines(&self.control), facts: vec![Fact::Word(pool_map::marks(&self.control))], ..Answer::default() }
    }

    pub(super) fn poke(&mut self, buffer: Buffer, at: usize, bytes: &[u8]) -> Result<Answer, Failure> {
        let (what, buffer) = match buffer {
            Buffer::Snapshot => ("snapshot", &mut self.snapshot),
            Buffer::Control => ("control block", &mut self.control),
            Buffer::Pool => ("pool", &mut self.pool),
        };
        let length = buffer.len();
        let Some(there) = at.checked_add(bytes.len()).and_then(|end| buffer.get_mut(at..end)) else {
            return Err(Failure::bad(format!(
                "cannot poke {} at offset {at} of the {what}, which has {length}",
                count(bytes.len() as u64, "byte")
            )));
        };
        there.copy_from_slice(bytes);
        Ok(Answer::note(format!("  {} written at offset {at} of the {what}", count(bytes.len() as u64, "byte"))))
    }

    pub(super) fn save_control(&mut self, path: &Path) -> Result<Answer, Failure> {
        let warning = "this control block is not valid: every call on it but begin is refused with 1";
        // Over a snapshot that is not valid no call tells whether the control block is.
        let judged = verdict::snapshot_valid(&self.snapshot);
        let warning = (judged && !verdict::buffers_valid(self.world())).then_some(warning);
        save(path, &self.control).map(|saved| Answer { warning, ..saved })
    }
}

/// Writes bytes to a file, and says so.
pub(super) fn save(path: &Path, bytes: &[u8]) -> Result<Answer, Failure> {
    files::write(path, bytes)?;
    Ok(Answer::note(format!("  wrote {} to {}", count(bytes.len() as u64, "byte"), name(path))))
}
