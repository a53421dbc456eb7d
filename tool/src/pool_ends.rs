//! How far a pool is used from its two ends, and where most of it is free at a stretch: what an operator looks for who wants to lend less of it.

use crate::world::COPY;
use hekthumar::Region;
use std::ops::Range;

const FREE: u8 = 0;
const REGIONS: [u8; 2] = [Region::Stack as u8, Region::Heap as u8];

/// A line on frames with these uses; nothing where there are no frames.
pub fn line(uses: &[u8]) -> Option<String> {
    let copies = uses.iter().rev().take_while(|usage| **usage == COPY).count();
    let regions = uses.iter().take_while(|usage| REGIONS.contains(usage)).count();
    let free = described(longest_free(uses));
    (!uses.is_empty()).then(|| format!("  copies at the top {copies}, stack and heap at the bottom {regions}, {free}"))
}

fn described(free: Range<usize>) -> String {
    match free.len() {
        0 => "no frame is free".to_string(),
        1 => format!("longest free run 1 (frame {})", free.start),
        length => format!("longest free run {length} (frames {} to {})", free.start, free.end - 1),
    }
}

/// The longest run of free frames, the first one of several; an empty one where no frame is free.
fn longest_free(uses: &[u8]) -> Range<usize> {
    let (mut longest, mut start) = (0..0, 0);
    for run in uses.chunk_by(|one, next| (*one == FREE) == (*next == FREE)) {
        let frames = start..start + run.len();
        start = frames.end;
        if run[0] == FREE && frames.len() > longest.len() {
            longest = frames;
        }
    }
    longest
}

#[cfg(test)]
mod tests {
    use super::*;

    /// The line on frames with these marks of the map.
    fn on(marks: &str) -> Option<String> {
        let usage = |mark| ".ASH".find(mark).map_or(9, |usage| usage as u8);
        line(&marks.chars().map(usage).collect::<Vec<u8>>())
    }

    fn says(marks: &str, copies: usize, regions: usize, free: &str) {
        let text = format!("  copies at the top {copies}, stack and heap at the bottom {regions}, {free}");
        assert_eq!(on(marks), Some(text), "{marks}");
    }

    #[test]
    fn no_frames() {
        assert_eq!(on(""), None);
    }

    #[test]
    fn all_free() {
        says(".", 0, 0, "longest free run 1 (frame 0)");
        says("................", 0, 0, "longest free run 16 (frames 0 to 15)");
        assert!(line(&[FREE; 1_024]).is_some_and(|line| line.ends_with("longest free run 1024 (frames 0 to 1023)")));
    }

    #[test]
    fn all_used() {
        says("S", 0, 1, "no frame is free");
        says("A", 1, 0, "no frame is free");
        says("SHSA", 1, 3, "no frame is free");
        says("AAAA", 4, 0, "no frame is free");
        says("HHSS", 0, 4, "no frame is free");
        says("?", 0, 0, "no frame is free");
    }

    #[test]
    fn from_both_ends() {
        says("SHS...........AA", 2, 3, "longest free run 11 (frames 3 to 13)");
        says("S....A", 1, 1, "longest free run 4 (frames 1 to 4)");
        says("SH.A", 1, 2, "longest free run 1 (frame 2)");
        says("S...", 0, 1, "longest free run 3 (frames 1 to 3)");
        says("...A", 1, 0, "longest free run 3 (frames 0 to 2)");
    }

    /// A run ends where a frame is free or is used otherwise.
    #[test]
    fn fragmented() {
        says("S.H..AHA", 1, 1, "longest free run 2 (frames 3 to 4)");
        says("A.S...H.", 0, 0, "longest free run 3 (frames 3 to 5)");
        says("SAHA.A.AAA", 3, 1, "longest free run 1 (frame 4)");
        says("SH?...?..AA?", 0, 2, "longest free run 3 (frames 3 to 5)");
        says(".S...A..", 0, 0, "longest free run 3 (frames 2 to 4)");
    }

    #[test]
    fn the_first_of_equal_runs() {
        says("..S..A..", 0, 0, "longest free run 2 (frames 0 to 1)");
        says("S.A.S.A", 1, 1, "longest free run 1 (frame 1)");
        says("S.A..S..A", 1, 1, "longest free run 2 (frames 3 to 4)");
    }
}
