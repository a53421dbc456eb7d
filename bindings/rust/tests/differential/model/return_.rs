//! Return: what it asks, which frames it frees, and what it leaves to the caller.

use super::bug::Bug;
use super::control::FrameEntry;
use super::invocation::from_base;
use super::snapshot::Header;
use super::why::Why;
use super::Vm;
use crate::bytes::*;

/// Where a record holds the program and the two sizes, and its two zero bytes.
const PROGRAM_AT: usize = 0;
const STACK_SIZE_AT: usize = 2;
const HEAP_SIZE_AT: usize = 4;
const PADDING_AT: usize = 6;

impl Vm<'_> {
    /// D is its value before it is lowered.
    pub fn return_(&mut self, registers: &mut [u8]) -> Result<(), Why> {
        // "1, 2, 9"
        let header = self.valid()?;
        if registers.len() != REGISTERS {
            return Err(Why::Length);
        }
        let live = self.live();
        if live == 1 {
            return Err(Why::Depth);
        }
        if self.has(Bug::ReturnAsksCallersRecord) && !self.is_callers_record_valid(&header) {
            return Err(Why::Record);
        }
        // "It hands back frame D's registers"
        let source = self.record_at(if self.has(Bug::ReturnGivesCallersRegisters) { live - 1 } else { live });
        registers.copy_from_slice(&self.world.control[source + 8..source + RECORD]);
        self.free_stack();
        self.hand_over(&header);
        // "zeroes shadow frame D and lowers D"
        let at = self.record_at(live);
        if !self.has(Bug::ReturnKeepsRecord) {
            self.world.control[at..at + RECORD].fill(0);
        }
        put_u32(&mut self.world.control, 4, live as u32 - 1);
        self.forget_edition(Bug::ReturnForgetsEdition);
        Ok(())
    }

    /// "return frees stack frames only"; pool bytes stay.
    fn free_stack(&mut self) {
        for frame in 0..self.frames() {
            let FrameEntry { usage, tag, .. } = self.frame_entry(frame);
            let leaves = self.leaves(frame);
            if leaves {
                self.free_frame(frame);
            }
            if leaves && self.has(Bug::ReturnClearsPool) {
                self.world.pool[PAGE * frame..PAGE * (frame + 1)].fill(0);
            }
            if usage == HEAP && self.has(Bug::ReturnLowersHeapTags) {
                self.world.control[TABLE_AT + FRAME_ENTRY * frame + 1] = tag.min(self.depth() as u8 - 1);
            }
        }
    }

    /// A frame goes by its tag, "at or above D-1", also outside the sizes.
    fn leaves(&self, frame: usize) -> bool {
        let entry = self.frame_entry(frame);
        let tag = usize::from(entry.tag);
        let within = from_base(entry.usage, usize::from(entry.page)) < self.region_size(entry.usage);
        match (entry.usage, self.bug) {
            (STACK, Some(Bug::ReturnKeepsStack)) => false,
            (STACK, Some(Bug::ReturnFreesWholeStack)) => true,
            (STACK, Some(Bug::ReturnFreesDeeperOnly)) => tag >= self.live(),
            (STACK, Some(Bug::ReturnFreesWithinSizes)) => tag >= self.live() - 1 && within,
            (HEAP, Some(Bug::ReturnFreesHeap | Bug::HeapFreedSizeHandedOver)) => tag >= self.live() - 1,
            (HEAP, Some(Bug::ReturnFreesHeapPastSize)) => !within,
            (STACK, _) => tag >= self.live() - 1,
            _ => false,
        }
    }

    /// "The caller's heap size becomes the returning frame's." Nothing else of the caller's record changes, and no other record does.
    fn hand_over(&mut self, header: &Header) {
        let live = self.live();
        let size = self.mistaken_heap_size(header).unwrap_or(self.region_size(HEAP));
        let receivers = match self.bug {
            Some(Bug::HeapSizeNotHandedOver | Bug::ReturnFreesHeap) => 0..0,
            Some(Bug::HeapSizeToCallersCaller) => live - 2..live - 1,
            Some(Bug::HeapSizeToFirstRecord) => 1..2,
            Some(Bug::HeapSizeToEveryRecord) => 1..live,
            _ => live - 1..live,
        };
        for record in receivers {
            let at = self.record_at(record) + HEAP_SIZE_AT;
            put_u16(&mut self.world.control, at, size as u16);
        }
        let also = match self.bug {
            Some(Bug::StackSizeHandedOver) => STACK_SIZE_AT,
            Some(Bug::PaddingHandedOver) => PADDING_AT,
            Some(Bug::ProgramHandedOver) => PROGRAM_AT,
            _ => return,
        };
        let (from, to) = (self.record_at(live) + also, self.record_at(live - 1) + also);
        self.world.control.copy_within(from..from + 2, to);
    }

    /// What a planted mistake makes of the heap size that is handed over; none if it leaves the size alone.
    fn mistaken_heap_size(&self, header: &Header) -> Option<usize> {
        let (size, callers) = (self.region_size(HEAP), self.callers(HEAP_SIZE_AT));
        let mistaken = match self.bug? {
            Bug::HeapSizeNeverFalls => size.max(callers),
            Bug::HeapSizeNeverRises => size.min(callers),
            Bug::HeapSizeAsByte => size & 0xFF,
            Bug::HeapSizeRecounted => (0..self.frames()).filter(|&frame| self.frame_entry(frame).usage == HEAP).count(),
            Bug::InvalidCallerGetsNoSize if !self.is_callers_record_valid(header) => callers,
            _ => return None,
        };
        Some(mistaken)
    }

    /// A field of the caller's record. A return asks none of them.
    fn callers(&self, field: usize) -> usize {
        usize::from(u16_at(&self.world.control, self.record_at(self.live() - 1) + field))
    }

    fn is_callers_record_valid(&self, header: &Header) -> bool {
        let few_pages = [STACK_SIZE_AT, HEAP_SIZE_AT].into_iter().all(|size| self.callers(size) <= MAX_PAGES);
        self.callers(PROGRAM_AT) < header.accounts && few_pages
    }
}
