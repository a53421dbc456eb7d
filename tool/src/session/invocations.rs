//! Begin, call, return, and the sizes of stack and heap.

use super::Session;
use crate::answer::{Answer, Fact};
use crate::reason::invocation;
use hekthumar::{Edition, Region};

impl Session {
    /// The begin with a stack page, or the one that takes the number of them.
    pub fn begin(&mut self, program: u16, pages: Option<usize>, edition: Edition) -> Answer {
        let answer = match pages {
            None => self.memory().begin(program, edition),
            Some(pages) => self.memory().begin_with_pages(program, edition, pages),
        };
        self.plain(answer, |world, refusal| invocation::begin(world, program, pages.unwrap_or(1), refusal))
    }

    pub(super) fn call(&mut self, program: u16, register: u64) -> Answer {
        let mut registers = [0; 256];
        registers[..8].copy_from_slice(&register.to_le_bytes());
        let answer = self.memory().call(program, &registers);
        self.plain(answer, |world, refusal| invocation::call(world, program, refusal))
    }

    pub(super) fn return_from(&mut self) -> Answer {
        let mut bytes = [0; 256];
        match self.memory().return_from(&mut bytes) {
            Ok(()) => {
                let registers: Vec<u64> = bytes.as_chunks().0.iter().map(|bytes| u64::from_le_bytes(*bytes)).collect();
                Answer::done("", registers.iter().map(|&value| Fact::Value(value))).and(register_lines(&registers))
            }
            Err(refusal) => Answer::refused(refusal, invocation::return_from(self.world(), refusal)),
        }
    }

    pub(super) fn resize(&mut self, region: Region, pages: usize) -> Answer {
        let answer = self.memory().resize(region, pages);
        self.plain(answer, |world, refusal| invocation::resize(world, region, pages, refusal))
    }
}

/// A line for each register that is not zero.
pub fn register_lines(registers: &[u64]) -> impl Iterator<Item = String> + '_ {
    let used = registers.iter().enumerate().filter(|(_, value)| **value != 0);
    used.map(|(register, value)| format!("    register {register} = {value:#x}"))
}
