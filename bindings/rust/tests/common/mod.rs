//! The buffers of a host.

use hekthumar::*;
use std::fmt::Debug;

#[derive(Clone, Debug, PartialEq)]
pub struct Host {
    pub snapshot: Vec<u8>,
    pub control: Vec<u8>,
    pub pool: Vec<u8>,
}

impl Host {
    /// Every byte of control block and pool is `byte`.
    pub fn filled(builder: SnapshotBuilder, frames: usize, byte: u8) -> Host {
        let snapshot = builder.build().expect("it keeps every limit");
        Host { snapshot, control: vec![byte; control_len(frames)], pool: vec![byte; pool_len(frames)] }
    }

    /// Two programs, and behind them an account of the second one's, which it may write.
    #[allow(dead_code)] // used by the tests that are about calls
    pub fn of_two_programs(data: impl Into<Vec<u8>>, frames: usize) -> Host {
        let mut builder = SnapshotBuilder::new();
        builder.account(Account::program([0x13, 0, 0, 0]));
        builder.account(Account::program([0x93, 0, 0, 0]));
        builder.account(Account::data(1, data).writable());
        Host::filled(builder, frames, 0xCC)
    }

    pub fn memory(&mut self) -> Memory<'_> {
        Memory::new(&self.snapshot, &mut self.control, &mut self.pool)
    }

    /// A call that changes no byte where it is refused.
    #[allow(dead_code)] // used by the tests that are about refusals
    pub fn unless_refused<T: Debug>(&mut self, call: impl FnOnce(&mut Memory) -> Result<T, Refusal>) -> Result<T, Refusal> {
        let before = self.clone();
        let answer = call(&mut self.memory());
        assert!(answer.is_ok() || *self == before, "{answer:?}");
        answer
    }
}
