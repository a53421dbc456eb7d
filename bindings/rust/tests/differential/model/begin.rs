//! The two begins: what they ask, in which order, and what they write.

use super::bug::Bug;
use super::control::FrameEntry;
use super::invocation::from_base;
use super::snapshot::Header;
use super::why::Why;
use super::Vm;
use crate::bytes::*;

/// What a begin asks: whether the buffers are valid, edition and number of pages are each one of the two, the program exists, the pool has a
/// frame.
#[derive(Clone, Copy)]
enum Step {
    Buffers,
    Edition,
    Pages,
    Program,
    Frame,
}

impl Vm<'_> {
    /// "Every mill's first call is to grow the stack to one page. Begin shall do it": the second begin with one page.
    pub fn begin(&mut self, program: u16, edition: u32) -> Result<(), Why> {
        self.begin_pages(program, edition, if self.has(Bug::PlainBeginTakesNoPage) { 0 } else { 1 })
    }

    /// "a second begin that takes the number of pages, 0 or 1"; "Both begins take the edition"
    pub fn begin_pages(&mut self, program: u16, edition: u32, pages: usize) -> Result<(), Why> {
        let pages = self.mistaken_pages(pages).unwrap_or(pages);
        let edition = self.mistaken_edition(edition).unwrap_or(edition);
        if let Some(&why) = self.begin_refusals(program, edition, pages).first() {
            self.spoil_refused_begin(why);
            return Err(why);
        }
        self.write_control(program, edition);
        if pages == 1 {
            self.take_first_stack_page();
        }
        Ok(())
    }

    /// All that a begin is refused for, in the order in which it asks; the first is what it tells.
    pub fn begin_refusals(&self, program: u16, edition: u32, pages: usize) -> Vec<Why> {
        use Step::*;
        // "1 ..., 4 (not below A), 1 (entry unfit), 4 (does not exist)"; any other number of pages, and any other edition, "is 2, right
        // after the first 1"; "With F=0 it answers 8, checked last."
        let order = match self.bug {
            Some(Bug::PagesBeforeBuffers) => [Pages, Buffers, Edition, Program, Frame],
            Some(Bug::PagesAfterProgram) => [Buffers, Edition, Program, Pages, Frame],
            Some(Bug::EditionBeforeBuffers) => [Edition, Buffers, Pages, Program, Frame],
            Some(Bug::EditionAfterProgram) => [Buffers, Pages, Program, Edition, Frame],
            Some(Bug::EditionAfterFrame) => [Buffers, Pages, Program, Frame, Edition],
            Some(Bug::NoFrameBeforeProgram) => [Buffers, Edition, Pages, Frame, Program],
            Some(Bug::NoFrameBeforePages) => [Buffers, Edition, Frame, Pages, Program],
            _ => [Buffers, Edition, Pages, Program, Frame],
        };
        order.into_iter().filter_map(|step| self.check_begin(step, program, edition, pages).err()).collect()
    }

    fn check_begin(&self, step: Step, program: u16, edition: u32, pages: usize) -> Result<(), Why> {
        match step {
            Step::Buffers => self.check_buffers(),
            Step::Edition => EDITIONS.contains(&edition).then_some(()).ok_or(Why::Edition),
            Step::Pages => (pages <= 1).then_some(()).ok_or(Why::StackPages),
            // A snapshot without a valid header has no accounts that could be asked.
            Step::Program => Header::read(&self.world.snapshot).map_or(Ok(()), |header| self.check_program(&header, program)),
            Step::Frame => {
                let needed = if self.has(Bug::NoPagesNeedsFrame) { 1 } else { pages };
                self.frames_by_length().is_none_or(|frames| frames >= needed).then_some(()).ok_or(Why::NoFreeFrame)
            }
        }
    }

    /// "1 (ground; ledger length ... for some F in range; pool 4,096F)"
    fn check_buffers(&self) -> Result<(), Why> {
        Header::read(&self.world.snapshot).ok_or(Why::Snapshot)?;
        let frames = self.frames_by_length().ok_or(Why::Control)?;
        if self.world.pool.len() != PAGE * frames {
            return Err(Why::Pool);
        }
        if self.has(Bug::BeginAsksControlHeader) && self.frames() != frames {
            return Err(Why::Control);
        }
        Ok(())
    }

    /// "4 (not below A), 1 (entry unfit), 4 (does not exist)"
    pub fn check_program(&self, header: &Header, program: u16) -> Result<(), Why> {
        if usize::from(program) >= header.accounts {
            return Err(Why::NoAccount);
        }
        let exists = self.entry(header, program)?.exists || self.has(Bug::BeginOfAbsentProgram);
        exists.then_some(()).ok_or(Why::AbsentProgram)
    }

    /// A begin reads no byte of the control block: F is that of its length.
    fn frames_by_length(&self) -> Option<usize> {
        (0..=MAX_FRAMES).find(|frames| self.world.control.len() == TABLE_AT + FRAME_ENTRY * frames)
    }

    /// "It writes the whole ledger: header with D=1, frame 1 with that program and no pages, zeros elsewhere. Pool stays."
    fn write_control(&mut self, program: u16, edition: u32) {
        let frames = self.frames_by_length().expect("a begin was accepted");
        let cleared = if self.has(Bug::BeginKeepsFrameTable) { TABLE_AT } else { self.world.control.len() };
        self.world.control[..cleared].fill(0);
        let edition = if self.has(Bug::BeginWritesNewer) { NEWER } else { edition };
        put_words(&mut self.world.control, &control_words(frames, 1, edition));
        let record_at = self.record_at(1);
        put_u16(&mut self.world.control, record_at, program);
        if self.has(Bug::NoPagesZeroesFrame) && frames > 0 {
            self.world.pool[..PAGE].fill(0);
        }
    }

    /// "taking frame 0 of the pool, zeroed, tag 0"
    fn take_first_stack_page(&mut self) {
        let frame = if self.has(Bug::BeginTakesLastFrame) { self.frames() - 1 } else { 0 };
        let page = match self.bug {
            Some(Bug::BeginPageBelowTop) => from_base(STACK, 1),
            Some(Bug::BeginPageFromBottom) => 0,
            _ => from_base(STACK, 0),
        };
        let usage = if self.has(Bug::BeginPageIsHeap) { HEAP } else { STACK };
        let tag = if self.has(Bug::BeginPageTagOne) { 1 } else { 0 };
        self.set_frame_entry(frame, FrameEntry { usage, tag, account: 0, page: page as u16, depth: 0 });
        let zeroed = match self.bug {
            Some(Bug::BeginPageNotZeroed) => 0,
            Some(Bug::BeginZeroesPastFrame) => PAGE + 1,
            _ => PAGE,
        };
        self.world.pool.iter_mut().skip(PAGE * frame).take(zeroed).for_each(|byte| *byte = 0);
        if !self.has(Bug::BeginLeavesStackSize) {
            let at = self.region_size_at(STACK);
            put_u16(&mut self.world.control, at, 1);
        }
    }

    /// What a planted mistake makes of the number of pages asked for; none if it leaves the number alone.
    fn mistaken_pages(&self, pages: usize) -> Option<usize> {
        let mistaken = match (self.bug?, pages) {
            (Bug::TwoPagesTakenAsOne, 2) | (Bug::NoPagesTakesPage, 0) => 1,
            (Bug::BeginWithoutFrames, 1) if self.frames_by_length() == Some(0) => 0,
            (Bug::PagesAsByte, _) => pages & 0xFF,
            (Bug::PagesAs32Bits, _) => pages & 0xFFFF_FFFF,
            _ => return None,
        };
        Some(mistaken)
    }

    /// "Every number but 0 changes nothing": what a planted mistake changes all the same.
    fn spoil_refused_begin(&mut self, why: Why) {
        if self.has(Bug::RefusedBeginClearsControl) && why == Why::NoFreeFrame {
            self.world.control.fill(0);
        }
        if self.has(Bug::RefusedBeginZeroesFrame) {
            self.world.pool.iter_mut().take(PAGE).for_each(|byte| *byte = 0);
        }
    }
}
