//! A map of the pool, a character to a frame, how far its two ends are used, and a line for each frame in use.

use crate::pool_ends;
use crate::rules::former_control::made_before_editions;
use crate::world::COPY;
use hekthumar::inspect::{frame_entries, FrameEntry};
use hekthumar::Region;

const STACK: u8 = Region::Stack as u8;
const HEAP: u8 = Region::Heap as u8;

/// The legend, the map with 64 frames to a row, its ends, and what lies in each frame that is not free.
pub fn lines(control: &[u8]) -> Vec<String> {
    let marks = marks(control);
    let rows = marks.as_bytes().chunks(64).enumerate();
    let mut lines = vec!["pool (. free, A copy of an account's page, S stack, H heap, ? other use)".to_string()];
    lines.extend(rows.map(|(row, marks)| format!("  {:4} {}", 64 * row, String::from_utf8_lossy(marks))));
    lines.extend(pool_ends::line(&entries(control).map(|entry| entry.usage).collect::<Vec<u8>>()));
    let used = entries(control).enumerate().filter(|(_, entry)| entry.usage != 0);
    lines.extend(used.map(|(frame, entry)| format!("  frame {frame}: {}", holds(entry))));
    lines
}

/// A character for each frame.
pub fn marks(control: &[u8]) -> String {
    entries(control).map(|entry| mark(entry.usage)).collect()
}

/// The entries of the frames. Those of a control block made before editions lie elsewhere, and are left out.
fn entries(control: &[u8]) -> impl Iterator<Item = FrameEntry> + '_ {
    frame_entries(if made_before_editions(control) { &[] } else { control })
}

fn mark(usage: u8) -> char {
    match usage {
        0 => '.',
        COPY => 'A',
        STACK => 'S',
        HEAP => 'H',
        _ => '?',
    }
}

/// What a frame holds. Only a copy's entry has a depth.
fn holds(entry: FrameEntry) -> String {
    let FrameEntry { usage, tag, account, page, depth } = entry;
    match usage {
        COPY => format!("account {account}, page {page}, tag {tag}, depth {depth}"),
        STACK => format!("stack, page {page}, tag {tag}"),
        HEAP => format!("heap, page {page}, tag {tag}"),
        _ => format!("use {usage}, page {page}, tag {tag}"),
    }
}
