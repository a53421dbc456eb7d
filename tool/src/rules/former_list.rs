//! Change lists made before depths were listed: their entries have 8 bytes, and the pages follow closer.

use super::Broken;
use hekthumar::inspect::ListHeader;
use hekthumar::layout::{LIST_HEADER, PAGE};

/// Bytes of a page's entry in such a list: account, page and live bytes.
const ENTRY: usize = 8;

/// Whether a change list was made before depths were listed, by its header and its length. One without a page is the same in both layouts.
pub fn made_before_depths(list: &[u8]) -> bool {
    ListHeader::read(list).is_some_and(|header| {
        let pages = header.pages as usize;
        let words = [header.entries_at, header.pages_at, header.total].map(|word| word as usize);
        pages > 0 && words == words_of(pages) && list.len() >= words[2]
    })
}

/// The words after the count in the header of such a list.
fn words_of(pages: usize) -> [usize; 3] {
    [LIST_HEADER, LIST_HEADER + ENTRY * pages, LIST_HEADER + (ENTRY + PAGE) * pages]
}

/// The rule that such a list breaks, and what to do about it.
pub fn broken(list: &[u8]) -> Option<Broken> {
    let layout = format!("made before depths were listed: its entries have {ENTRY} bytes");
    let remedy = "list again from the control block and the pool with this library, or apply it with the library that made it";
    made_before_depths(list).then(|| Broken { at: 8, rule: format!("{layout}; {remedy}") })
}

#[cfg(test)]
mod tests {
    use super::*;
    use crate::rules::list;
    use crate::verdict::list_valid;
    use hekthumar::change_list_len;
    use hekthumar::layout::LIST_ENTRY;

    /// Whole pages of account 1 behind a header with these words, so many bytes more or less than the last of them says.
    fn made(pages: usize, words: [usize; 3], more: isize) -> Vec<u8> {
        let mut list: Vec<u8> = [pages].iter().chain(&words).flat_map(|word| (*word as u32).to_le_bytes()).collect();
        list.extend((0..pages).flat_map(|page| [1, 0, page as u8, (page >> 8) as u8, 0, 16, 0, 0]));
        list.resize(words[2].saturating_add_signed(more), 0);
        list
    }

    #[test]
    fn header_and_length_tell_it() {
        for (pages, more) in [(1, 0), (1, 5), (2, 0), (3, 4_096), (1_024, 0)] {
            let former = made(pages, words_of(pages), more);
            assert!(made_before_depths(&former) && !list_valid(&former), "{pages} {more}");
            assert_eq!(Vec::from_iter(broken(&former)), list::broken(&former, None));
        }
        let [entries_at, pages_at, total] = words_of(2);
        let others = [
            made(2, words_of(2), -1),
            made(3, words_of(2), 0),
            made(2, [entries_at + 8, pages_at, total], 0),
            made(2, [entries_at, pages_at + 8, total], 0),
            made(2, [entries_at, pages_at, total + 8], 0),
            made(2, [LIST_HEADER, LIST_HEADER + LIST_ENTRY * 2, change_list_len(2)], 0),
            Vec::new(),
        ];
        assert!(others.iter().all(|other| !made_before_depths(other) && broken(other).is_none()));
    }

    #[test]
    fn a_list_without_a_page_is_the_same_in_both_layouts() {
        let empty = made(0, words_of(0), 0);
        assert_eq!(empty, made(0, [LIST_HEADER, LIST_HEADER, change_list_len(0)], 0));
        assert!(!made_before_depths(&empty) && list_valid(&empty) && list::broken(&empty, None).is_empty());
    }
}
