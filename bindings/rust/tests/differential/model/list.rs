//! The change list, and the page view.

use super::bug::Bug;
use super::control::FrameEntry;
use super::snapshot::Header;
use super::why::Why;
use super::Vm;
use crate::bytes::*;

/// A page of the list: who it is, where its bytes are, how many count, how deep it was first touched.
struct Changed {
    account: u16,
    page: u16,
    frame: usize,
    live: usize,
    depth: u16,
}

/// A part of the snapshot or of the pool.
pub enum Part {
    Snapshot { start: usize, length: usize },
    Pool { start: usize, length: usize },
}

impl Vm<'_> {
    pub fn change_list(&self, out: &mut [u8]) -> Result<(), Why> {
        let header = self.valid()?;
        let mut changed = self.changed_pages(&header)?;
        // "entries in ascending (account, page)"
        if !self.has(Bug::ListUnsorted) {
            changed.sort_by_key(|page| (page.account, page.page));
        }
        let count = changed.len();
        let entry = if self.has(Bug::ListOfBaseLayout) { BASE_LIST_ENTRY } else { LIST_ENTRY };
        // "count n, 16, 16+8n, total 16+4,104n", with the numbers of entries of 12 bytes
        let [header, pages_at, total] = list_words_by(entry, count as u64).map(|word| word as usize);
        if out.len() < total {
            return Err(Why::ShortOutput);
        }
        put_words(out, &[count, header, pages_at, total].map(|word| word as u32));
        for (place, page) in changed.iter().enumerate() {
            out[header + entry * place..][..entry].copy_from_slice(&self.list_entry(page)[..entry]);
            // "each the frame's live bytes and then zeros"
            let shown = if self.has(Bug::ListPadsWithFrameBytes) { PAGE } else { page.live };
            let target = &mut out[pages_at + PAGE * place..][..PAGE];
            target.fill(0);
            target[..shown].copy_from_slice(&self.world.pool[PAGE * page.frame..][..shown]);
        }
        // "Bytes past the total stay."
        if self.has(Bug::ListClearsRestOfOutput) {
            out[total..].fill(0);
        }
        Ok(())
    }

    /// "u16, u16, u32 live bytes", "then that u16, then a zero u16"
    fn list_entry(&self, page: &Changed) -> [u8; LIST_ENTRY] {
        let mut entry = [0; LIST_ENTRY];
        put_u16(&mut entry, 0, page.account);
        put_u16(&mut entry, 2, page.page);
        put_u32(&mut entry, 4, page.live as u32);
        let [depth, zero] = self.listed_depth(page.frame);
        put_u16(&mut entry, 8, depth);
        put_u16(&mut entry, 10, zero);
        entry
    }

    /// "1 if a copy claims an account not below A, an unfit one, a page with no live bytes, or a page claimed before"
    fn changed_pages(&self, header: &Header) -> Result<Vec<Changed>, Why> {
        let mut changed: Vec<Changed> = vec![];
        for frame in 0..self.frames() {
            let claimed = self.frame_entry(frame);
            if claimed.usage != COPY {
                continue;
            }
            let FrameEntry { account, page, depth, .. } = claimed;
            if usize::from(account) >= header.accounts {
                return Err(Why::CopyOfNoAccount);
            }
            let entry = self.entry(header, account).map_err(|_| Why::CopyOfInvalidEntry)?;
            let live = live_bytes(entry.length, page);
            let mistaken = match self.bug {
                Some(Bug::ListAsksLeaveToWrite) => !entry.writable,
                Some(Bug::ListAsksDepth) => usize::from(depth) >= MAX_LIVE,
                _ => false,
            };
            if live == 0 || mistaken {
                return Err(Why::CopyWithoutLiveBytes);
            }
            // Also where only the depths differ.
            let is_same = |earlier: &Changed| match self.bug {
                Some(Bug::ListAcceptsDoubleClaim) => false,
                Some(Bug::ListTellsClaimsByDepth) => (earlier.account, earlier.page, earlier.depth) == (account, page, depth),
                _ => (earlier.account, earlier.page) == (account, page),
            };
            if changed.iter().any(is_same) {
                return Err(Why::CopiedTwice);
            }
            changed.push(Changed { account, page, frame, live, depth });
        }
        Ok(changed)
    }

    pub fn page_view(&self, account: u16, page: u16) -> Result<Part, Why> {
        // "1 headers, 4 account, 1 entry, 3 no live bytes", which is 13 "in the same places of the order"
        let header = self.valid()?;
        if usize::from(account) >= header.accounts {
            return Err(Why::NoAccount);
        }
        let entry = self.entry(&header, account)?;
        let live = live_bytes(entry.length, page);
        if live == 0 {
            return Err(if self.has(Bug::ViewToldThree) { Why::UpperBits } else { Why::NoLiveBytes });
        }
        let length = if self.has(Bug::ViewPastLiveBytes) { PAGE } else { live };
        let frame = self.claim_of_copy(account, page).filter(|_| !self.has(Bug::ViewReadsOriginal));
        Ok(match frame {
            Some(frame) => Part::Pool { start: PAGE * frame, length },
            None => Part::Snapshot { start: entry.data_at + PAGE * usize::from(page), length },
        })
    }
}
