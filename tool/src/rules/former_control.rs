//! Control blocks made before editions: their header has four words, and what follows it lies 8 bytes further down.

use super::Broken;
use crate::text::count;
use hekthumar::control_len;
use hekthumar::inspect::ControlHeader;
use hekthumar::layout::{FRAME_ENTRY, MAX_FRAMES};

/// Where the shadow records and the frame table of such a block start.
const SHADOW_AT: usize = 16;
const TABLE_AT: usize = 4_504;

/// Whether a control block was made before editions, by its header and its length.
pub fn made_before_editions(control: &[u8]) -> bool {
    ControlHeader::read(control).is_some_and(|header| {
        let frames = header.frames as usize;
        let offsets = (header.shadow_at as usize, header.table_at as usize) == (SHADOW_AT, TABLE_AT);
        offsets && frames <= MAX_FRAMES && control.len() == TABLE_AT + FRAME_ENTRY * frames
    })
}

/// The rule that such a block breaks, and what to do about it.
pub fn broken(control: &[u8]) -> Option<Broken> {
    let frames = ControlHeader::read(control).filter(|_| made_before_editions(control))?.frames as usize;
    let (length, frames) = (control_len(frames), count(frames as u64, "frame"));
    let layout = format!("made before editions: its shadow records start at {SHADOW_AT}, its frame table at {TABLE_AT}");
    let rule = format!("{layout}; it cannot be carried over: begin anew, in a control block of {length} bytes for {frames}");
    Some(Broken { at: 8, rule })
}

#[cfg(test)]
mod tests {
    use super::*;

    /// A block of so many frames and so many bytes more or less than it has to have.
    fn block(frames: usize, words: [usize; 2], more: isize) -> Vec<u8> {
        let header = [frames, 1, words[0], words[1]];
        let mut block: Vec<u8> = header.iter().flat_map(|word| (*word as u32).to_le_bytes()).collect();
        block.resize((TABLE_AT + FRAME_ENTRY * frames).saturating_add_signed(more), 0);
        block
    }

    #[test]
    fn header_and_length_tell_it() {
        for frames in [0, 1, 16, MAX_FRAMES] {
            let former = block(frames, [SHADOW_AT, TABLE_AT], 0);
            assert!(made_before_editions(&former) && broken(&former).is_some(), "{frames}");
        }
        let others = [
            block(16, [SHADOW_AT, TABLE_AT], 8),
            block(16, [SHADOW_AT, TABLE_AT], -1),
            block(16, [SHADOW_AT + 8, TABLE_AT], 0),
            block(16, [SHADOW_AT, TABLE_AT + 8], 0),
            block(16, [SHADOW_AT + 8, TABLE_AT + 8], 8),
            block(MAX_FRAMES + 1, [SHADOW_AT, TABLE_AT], 0),
            Vec::new(),
        ];
        assert!(others.iter().all(|other| !made_before_editions(other) && broken(other).is_none()));
    }
}
