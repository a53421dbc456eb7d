//! The rules of a change list.

use super::{former_list, Broken, Findings};
use crate::text::count;
use crate::verdict::list_entries;
use hekthumar::change_list_len;
use hekthumar::inspect::{ListEntry, ListHeader};
use hekthumar::layout::*;

/// An account's number and the length of its data.
#[derive(Clone, Copy)]
pub struct Target {
    pub account: u16,
    pub length: usize,
}

/// The rules that a change list breaks; with a target also those of applying it there.
pub fn broken(list: &[u8], target: Option<Target>) -> Vec<Broken> {
    if let Some(former) = former_list::broken(list) {
        return vec![former];
    }
    let mut findings = Findings::default();
    let Some(header) = ListHeader::read(list) else {
        findings.broken(list.len(), format!("a change list has a header of {LIST_HEADER} bytes; found {}", list.len()));
        return findings.0;
    };
    let pages = header.pages as usize;
    findings.equal(4, "the entries' offset", LIST_HEADER as u64, header.entries_at);
    let offset = format!("the pages' offset, {LIST_HEADER} + {LIST_ENTRY} * pages,");
    findings.equal(8, &offset, (LIST_HEADER + LIST_ENTRY * pages) as u64, header.pages_at);
    let total = format!("the total, {LIST_HEADER} + {} * pages,", LIST_ENTRY + PAGE);
    findings.equal(12, &total, change_list_len(pages) as u64, header.total);
    findings.at_most(12, "in a file of this length the total", list.len(), header.total);
    // With a wrong header nobody knows how many entries there are.
    if findings.0.is_empty() {
        entries(&mut findings, list, target);
    }
    findings.0
}

/// The rules of the entries, in order. A depth may be any number.
fn entries(findings: &mut Findings, list: &[u8], target: Option<Target>) {
    let mut before = None;
    for (number, entry) in list_entries(list).enumerate() {
        let at = ListEntry::at(number);
        let key = (entry.account, entry.page);
        if before.is_some_and(|before| before >= key) {
            findings.broken(at, format!("entries have to ascend by account and page; found account {}, page {}", key.0, key.1));
        }
        before = Some(key);
        findings.at_least(at + 4, "the number of live bytes", 1, entry.live);
        findings.at_most(at + 4, "the number of live bytes", PAGE, entry.live);
        if let Some(target) = target.filter(|target| target.account == entry.account) {
            let data = format!("with data of {}", count(target.length as u64, "byte"));
            match live_bytes(target.length, entry.page) {
                0 => findings.broken(at + 2, format!("{data} there is no page {}", entry.page)),
                live => findings.equal(at + 4, &format!("{data} the number of live bytes of page {}", entry.page), live as u64, entry.live),
            }
        }
        findings.equal(at + 10, "the entry's last u16, behind its depth,", 0, entry.zero);
    }
}

/// How many bytes of a page there are in data of this length.
pub fn live_bytes(length: usize, page: u16) -> usize {
    length.saturating_sub(PAGE * usize::from(page)).min(PAGE)
}
