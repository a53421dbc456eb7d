//! The change list and the view of a page.

use super::buffers::save;
use super::Session;
use crate::answer::{Answer, Fact};
use crate::failure::Failure;
use crate::reason::changes;
use crate::text::hex_lines;
use hekthumar::{change_list_len, Change, ChangeList, PagePlace, Refusal};
use std::path::Path;

impl Session {
    pub(super) fn view(&mut self, account: u16, page: u16) -> Answer {
        let answer = match self.memory().page_place(account, page) {
            Ok(place) => place,
            Err(refusal) => return Answer::refused(refusal, changes::view(self.world(), account, page, refusal)),
        };
        let (holder, buffer, part) = match answer {
            PagePlace::Snapshot(part) => ("snapshot", &self.snapshot, part),
            PagePlace::Pool(part) => ("pool", &self.pool, part),
        };
        let facts = [Fact::word(holder), Fact::Number(part.start as u64), Fact::Number(part.len() as u64)];
        let rest = format!(": {holder}, start {}, length {}", part.start, part.len());
        Answer::done(&rest, facts).and(hex_lines(&buffer[part.start..part.end.min(part.start + 16)]))
    }

    /// The change list as bytes, whole.
    pub fn change_list(&mut self) -> Result<Vec<u8>, Refusal> {
        let mut list = vec![0; change_list_len(self.world().frames())];
        let length = self.memory().change_list(&mut list)?.as_bytes().len();
        list.truncate(length);
        Ok(list)
    }

    /// The change list, and the answer that shows its entries.
    pub(super) fn list(&mut self) -> Answer {
        match self.change_list() {
            Ok(list) => {
                let depths: Vec<u64> = changes_in(&list).map(|change| change.depth.into()).collect();
                let numbers = [depths.len() as u64].into_iter().chain(depths);
                Answer::done("", numbers.map(Fact::Number)).and(pages(&list))
            }
            Err(refusal) => Answer::refused(refusal, changes::list(self.world(), refusal)),
        }
    }

    pub(super) fn save_list(&mut self, path: &Path) -> Result<Answer, Failure> {
        match self.change_list() {
            Ok(list) => save(path, &list).map(|saved| Answer::done("", []).and(saved.lines)),
            Err(refusal) => Ok(Answer::refused(refusal, changes::list(self.world(), refusal))),
        }
    }
}

/// The pages of a change list; none where it is malformed.
fn changes_in(list: &[u8]) -> impl Iterator<Item = Change<'_>> {
    ChangeList::parse(list).into_iter().flat_map(|list| list.entries())
}

/// A line for each page of a change list.
pub fn pages(list: &[u8]) -> Vec<String> {
    changes_in(list).map(line).collect()
}

/// A line for each page of an account in a change list.
pub fn pages_of(list: &[u8], account: u16) -> Vec<String> {
    changes_in(list).filter(|change| change.account == account).map(line).collect()
}

/// A page, how much of it is live, and how deep it was first stored to.
fn line(change: Change) -> String {
    let Change { account, page, live, depth } = change;
    format!("  account {account}, page {page}, live bytes {}, depth {depth}", live.len())
}
