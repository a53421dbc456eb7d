//! The page view.

use crate::plain_headers::{account, vm, PAGE};
use crate::plain_search::copy_frame;
use hekthumar::sys::View;

const SNAPSHOT: u8 = 1;
const POOL: u8 = 2;

#[inline(always)]
fn find_view(s: &[u8], c: &[u8], p: &[u8], index: usize, page: usize) -> Result<View, u8> {
    let v = vm(s, c, p)?;
    if index >= v.accounts() {
        return Err(4);
    }
    let a = account(s, v.data_at(), index)?;
    if PAGE * page >= a.length {
        return Err(13);
    }
    let length = (a.length - PAGE * page).min(PAGE) as u64;
    Ok(match copy_frame(c, index, page) {
        Some(frame) => View { start: (PAGE * frame) as u64, length, holder: POOL, number: 0 },
        None => View { start: (a.data + PAGE * page) as u64, length, holder: SNAPSHOT, number: 0 },
    })
}

#[inline(never)]
pub fn page_view(s: &[u8], c: &[u8], p: &[u8], account: u16, page: u16) -> View {
    find_view(s, c, p, account as usize, page as usize).unwrap_or_else(|number| View { start: 0, length: 0, holder: 0, number })
}
