//! Headers, record D and account entries: what they must hold, and what they say.

use crate::plain_words::{u32_at, u64_at};

pub const PAGE: usize = 4096;
const EDITION: usize = 16;
const OLDER: u64 = 1;
const NEWER: u64 = 2;
pub const RECORDS: usize = 24;
pub const RECORD: usize = 264;
pub const TABLE: usize = RECORDS + 17 * RECORD;
pub const ENTRY: usize = 80;
pub const MAX_DATA: usize = 1 << 24;

/// What a valid account entry says. One that does not exist has no flags and no data.
#[derive(Clone, Copy)]
pub struct Account {
    pub flags: u16,
    pub owner: u16,
    pub length: usize,
    pub data: usize,
}

/// What valid headers and record D say. Each word is read where it is needed.
#[derive(Clone, Copy)]
pub struct Vm<'a> {
    snapshot: &'a [u8; 32],
    control: &'a [u8; TABLE],
}

impl<'a> Vm<'a> {
    #[inline(always)]
    pub fn of(s: &'a [u8], c: &'a [u8]) -> Option<Vm<'a>> {
        Some(Vm { snapshot: s.first_chunk()?, control: c.first_chunk()? })
    }

    #[inline(always)]
    fn word(&self, i: usize) -> usize {
        u32_at(self.snapshot, 4 * i) as usize
    }

    #[inline(always)]
    pub fn accounts(&self) -> usize {
        self.word(0)
    }

    #[inline(always)]
    pub fn contexts(&self) -> usize {
        self.word(1)
    }

    #[inline(always)]
    pub fn transaction(&self) -> usize {
        self.word(2)
    }

    #[inline(always)]
    pub fn contexts_at(&self) -> usize {
        self.word(4)
    }

    #[inline(always)]
    pub fn transaction_at(&self) -> usize {
        self.word(5)
    }

    #[inline(always)]
    pub fn data_at(&self) -> usize {
        self.word(6)
    }

    #[inline(always)]
    pub fn live(&self) -> usize {
        u32_at(self.control, 4) as usize
    }

    #[inline(always)]
    pub fn older(&self) -> bool {
        u64_at(self.control, EDITION) == OLDER
    }

    #[inline(always)]
    pub fn record_at(&self) -> usize {
        RECORDS + RECORD * self.live()
    }

    /// The first eight bytes of record D: the program, the pages of the stack, those of the heap, 0.
    #[inline(always)]
    pub fn record(&self) -> u64 {
        u64_at(self.control, self.record_at())
    }

    #[inline(always)]
    pub fn depth(&self) -> usize {
        self.live() - 1
    }

    #[inline(always)]
    pub fn program(&self) -> u16 {
        self.record() as u16
    }

    /// The pages of a region: 2 the stack, 3 the heap.
    #[inline(always)]
    pub fn pages(&self, region: u8) -> usize {
        (self.record() >> (16 * (region - 1))) as usize & 0xFFFF
    }
}

/// The sums are of 32 bits, as the words are: they do not overflow once the counts are in their ranges.
#[inline(always)]
pub fn snapshot_valid(s: &[u8]) -> bool {
    let Some(h) = s.first_chunk::<32>() else { return false };
    let word = |i: usize| u32_at(h, 4 * i);
    let (accounts, contexts, transaction) = (word(0), word(1), word(2));
    if accounts > 64 || contexts > 512 || transaction > 65_536 {
        return false;
    }
    let contexts_at = 32 + ENTRY as u32 * accounts;
    let transaction_at = contexts_at + 120 * contexts;
    let data_at = transaction_at + transaction;
    word(3) == 32
        && word(4) == contexts_at
        && word(5) == transaction_at
        && word(6) == data_at
        && word(7) == s.len() as u32
        && s.len() >= data_at as usize
        && s.len() <= 1 << 31
}

/// Both regions of record D have at most 4,096 pages; mostly fewer, which one test tells.
#[inline(always)]
fn pages_valid(v: &Vm) -> bool {
    v.record() & 0xF000_F000_0000 == 0 || v.pages(2) <= 4096 && v.pages(3) <= 4096
}

/// An edition, or in the header the edition and the word after it: as one number they are an edition only if that word is 0.
#[inline(always)]
pub fn edition_valid(edition: u64) -> bool {
    matches!(edition, OLDER | NEWER)
}

#[inline(always)]
fn valid(s: &[u8], c: &[u8], p: &[u8]) -> bool {
    let Some(head) = c.first_chunk::<TABLE>() else { return false };
    let (frames, live) = (u32_at(head, 0) as usize, u32_at(head, 4) as usize);
    if !snapshot_valid(s) || frames > 1024 || live.wrapping_sub(1) > 15 {
        return false;
    }
    if u64_at(head, 8) != (TABLE as u64) << 32 | RECORDS as u64 || c.len() != TABLE + 8 * frames || p.len() != PAGE * frames {
        return false;
    }
    let current = Vm::of(s, c).is_some_and(|v| (v.program() as usize) < v.accounts() && pages_valid(&v));
    // last: asked earlier, it costs every access a register
    current && edition_valid(u64_at(head, EDITION))
}

/// What the headers say, if they are valid.
#[inline(always)]
pub fn vm<'a>(s: &'a [u8], c: &'a [u8], p: &[u8]) -> Result<Vm<'a>, u8> {
    if valid(s, c, p) {
        Vm::of(s, c).ok_or(1)
    } else {
        Err(1)
    }
}

/// The entry of an account below the count. A fourth word that is not 0 puts the data's start above every total.
#[inline(always)]
pub fn account(s: &[u8], data_at: usize, i: usize) -> Result<Account, u8> {
    let e: &[u8; 16] = s[32 + ENTRY * i..].first_chunk().ok_or(1)?;
    let (first, start) = (u64_at(e, 0), u64_at(e, 8));
    let (flags, length) = (first as u16, (first >> 32) as usize);
    if flags > 3 {
        return Err(1);
    }
    if flags & 1 == 0 {
        return Ok(Account { flags: 0, owner: 0, length: 0, data: 0 });
    }
    let (room, after) = ((s.len() - data_at) as u64, start.wrapping_sub(data_at as u64));
    if length > MAX_DATA || after > room || length as u64 > room - after {
        return Err(1);
    }
    Ok(Account { flags, owner: (first >> 16) as u16, length, data: start as usize })
}

/// The number of a result.
#[inline(always)]
pub fn number(result: Result<(), u8>) -> u8 {
    result.err().unwrap_or(0)
}
