//! Accesses and translation.

use super::Session;
use crate::answer::{Answer, Fact};
use crate::reason::access::{self, Access};
use crate::text::hex_lines;
use hekthumar::layout::PAGE;
use hekthumar::{Address, Kind, Place, Refusal};

impl Session {
    pub(super) fn load(&mut self, address: Address, size: usize) -> Answer {
        let value = self.memory().load(address, size);
        self.value(Access { kind: Kind::Load, address, length: size }, value)
    }

    pub(super) fn fetch(&mut self, address: Address, size: usize) -> Answer {
        let value = self.memory().fetch(address, size);
        self.value(Access { kind: Kind::Fetch, address, length: size }, value)
    }

    /// The answer of a load or a fetch.
    pub(super) fn value(&self, asked: Access, value: Result<u64, Refusal>) -> Answer {
        match value {
            Ok(value) => Answer::done(&format!(", value {value:#0width$x}", width = 2 + 2 * asked.length), [Fact::Value(value)]),
            Err(refusal) => self.refused(asked, refusal),
        }
    }

    pub fn store(&mut self, address: Address, size: usize, value: u64) -> Answer {
        match self.memory().store(address, size, value) {
            Ok(()) => Answer::done("", []),
            Err(refusal) => self.refused(Access { kind: Kind::Store, address, length: size }, refusal),
        }
    }

    pub(super) fn load_span(&mut self, address: Address, length: usize) -> Answer {
        // A longer buffer is refused for its length as one byte too many is.
        let mut out = vec![0; length.min(PAGE + 1)];
        match self.memory().load_span(address, &mut out) {
            Ok(()) => Answer::done("", [Fact::Bytes(out.clone())]).and(hex_lines(&out)),
            Err(refusal) => self.refused(Access { kind: Kind::LoadSpan, address, length }, refusal),
        }
    }

    pub fn store_span(&mut self, address: Address, bytes: &[u8]) -> Answer {
        match self.memory().store_span(address, bytes) {
            Ok(()) => Answer::done("", []),
            Err(refusal) => self.refused(Access { kind: Kind::StoreSpan, address, length: bytes.len() }, refusal),
        }
    }

    pub(super) fn translate(&mut self, kind: Kind, address: Address, length: usize) -> Answer {
        match self.memory().translate(kind, address, length) {
            Ok(place) => placed(place),
            Err(refusal) => self.refused(Access { kind, address, length }, refusal),
        }
    }

    /// The answer of an access that was refused: the distance follows the number that has one.
    pub(super) fn refused(&self, asked: Access, refusal: Refusal) -> Answer {
        let mut answer = Answer::refused(refusal, access::why(self.world(), asked, refusal));
        if let Refusal::Absent { distance } = refusal {
            answer.facts.push(Fact::Number(distance.into()));
        }
        answer
    }
}

/// Where an access would go.
fn placed(place: Place) -> Answer {
    let facts = |place: &str, at: usize| vec![Fact::word(place), Fact::Number(at as u64)];
    match place {
        Place::Snapshot { at } => Answer::done(&format!(": snapshot, offset {at}"), facts("snapshot", at)),
        Place::Control { at } => Answer::done(&format!(": control block, offset {at}"), facts("control", at)),
        Place::Zeros => Answer::done(": nowhere: every byte is 0", [Fact::word("zeros")]),
        Place::Pool { at } => Answer::done(&format!(": pool, offset {at}"), facts("pool", at)),
        Place::Take { at, frame, account, page } => {
            let rest = format!(": pool, offset {at}, once frame {frame} is taken for account {account}, page {page}");
            let copy = [frame, account, page].map(|number| Fact::Number(number.into()));
            Answer::done(&rest, facts("take", at).into_iter().chain(copy))
        }
    }
}
