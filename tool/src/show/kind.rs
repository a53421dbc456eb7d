//! What a file is.

use crate::rules::former_control::made_before_editions;
use crate::rules::former_list::made_before_depths;
use hekthumar::inspect::{ControlHeader, ListHeader, SnapshotHeader};
use hekthumar::layout::*;
use hekthumar::{change_list_len, control_len};
use std::ffi::{OsStr, OsString};
use std::os::unix::ffi::OsStrExt;
use std::path::Path;

/// The kinds of files.
#[derive(Clone, Copy, Debug, PartialEq, Eq)]
pub enum Kind {
    Snapshot,
    Control,
    Pool,
    List,
}

impl Kind {
    const ALL: [Kind; 4] = [Kind::Snapshot, Kind::Control, Kind::Pool, Kind::List];

    /// What a file of this kind is called.
    pub fn name(self) -> &'static str {
        match self {
            Kind::Snapshot => "a snapshot",
            Kind::Control => "a control block",
            Kind::Pool => "a pool",
            Kind::List => "a change list",
        }
    }

    /// The word before a file's path that says what it is.
    fn prefix(self) -> &'static str {
        match self {
            Kind::Snapshot => "snapshot=",
            Kind::Control => "control=",
            Kind::Pool => "pool=",
            Kind::List => "list=",
        }
    }
}

/// The kind that a word says, and the path in it.
pub fn said(word: &OsString) -> (Option<Kind>, &Path) {
    let path =
        |kind: Kind| word.as_bytes().strip_prefix(kind.prefix().as_bytes()).map(|path| (Some(kind), Path::new(OsStr::from_bytes(path))));
    Kind::ALL.into_iter().find_map(path).unwrap_or((None, Path::new(word)))
}

/// The kind that most of the marks of a header speak for. Without a mark, a file of whole pages is a pool.
pub fn guess(bytes: &[u8]) -> Option<Kind> {
    let marks = [(Kind::Snapshot, snapshot_marks(bytes)), (Kind::Control, control_marks(bytes)), (Kind::List, list_marks(bytes))];
    let most = marks.iter().map(|(_, marks)| *marks).max().unwrap_or(0);
    let mut kinds = marks.iter().filter(|(_, marks)| *marks == most).map(|(kind, _)| *kind);
    match (most, kinds.next(), kinds.next()) {
        (0, ..) => (!bytes.is_empty() && bytes.len().is_multiple_of(PAGE)).then_some(Kind::Pool),
        (_, kind, None) => kind,
        _ => None,
    }
}

/// Why a file's kind is not known.
pub fn unknown(bytes: &[u8]) -> String {
    if bytes.is_empty() {
        return "this is empty".to_string();
    }
    let prefixes = Kind::ALL.map(|kind| format!("{}FILE", kind.prefix())).join(", ");
    format!("nothing in this tells a snapshot, a control block, a pool or a change list; {prefixes} would say it")
}

fn word(bytes: &[u8], number: usize) -> Option<u32> {
    bytes.get(4 * number..)?.first_chunk().map(|word| u32::from_le_bytes(*word))
}

fn snapshot_marks(bytes: &[u8]) -> usize {
    let table = word(bytes, 3) == Some(SNAPSHOT_HEADER as u32);
    let Some(header) = SnapshotHeader::read(bytes) else {
        return usize::from(table);
    };
    let contexts = u64::from(header.contexts_at) == (SNAPSHOT_HEADER as u64 + ACCOUNT_ENTRY as u64 * u64::from(header.accounts));
    let total = header.total as usize == bytes.len();
    [table, table && contexts, table && total].into_iter().filter(|mark| *mark).count()
}

fn control_marks(bytes: &[u8]) -> usize {
    if made_before_editions(bytes) {
        return 3;
    }
    let shadow = word(bytes, 2) == Some(CONTROL_HEADER as u32);
    let table = word(bytes, 3) == Some(FRAME_TABLE as u32);
    let length = ControlHeader::read(bytes).is_some_and(|header| control_len(header.frames as usize) == bytes.len());
    [shadow && table, shadow || table, length].into_iter().filter(|mark| *mark).count()
}

fn list_marks(bytes: &[u8]) -> usize {
    if made_before_depths(bytes) {
        return 3;
    }
    let entries = word(bytes, 1) == Some(LIST_HEADER as u32);
    let pages = word(bytes, 0).zip(word(bytes, 2)).is_some_and(|(n, at)| LIST_HEADER + LIST_ENTRY * n as usize == at as usize);
    let total = ListHeader::read(bytes).is_some_and(|header| change_list_len(header.pages as usize) == header.total as usize);
    [entries, pages, total].into_iter().filter(|mark| *mark).count()
}
