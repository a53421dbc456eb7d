//! Generation of the three lent buffers, and a look at them that bears damage.

use crate::bytes::*;
use crate::damage;
use crate::interface::World;
use crate::random::Random;

/// Which world a history starts from.
#[derive(Clone, Copy, Debug, PartialEq, Eq)]
pub enum Size {
    /// Few accounts, contexts and frames.
    Small,
    /// Frames enough for pages of several depths, and a program to call.
    Nested,
    /// As above, for calls that outnumber the returns.
    Deep,
    /// Sometimes 64 accounts, 512 contexts, a transaction of 65,536 bytes.
    Wide,
    /// One more than the header may say of accounts, contexts or transaction bytes, all else agreeing.
    TooWide,
    /// More frames than a search looks at one by one.
    SomeFrames,
    /// An account of 2^24 bytes.
    LongAccount,
    ManyFrames,
    TooManyFrames,
}

/// Lengths of data around the edges of pages. They leave every remainder by 8, so that a value can go past the end at each of its bytes.
pub const LENGTHS: [usize; 20] =
    [0, 1, 5, 7, 8, 100, 4088, 4090, 4094, 4095, 4096, 4097, 6000, 6003, 8191, 8192, 8193, 12_288, 16_384, 20_000];

/// An account that is to be laid out.
struct Plan {
    length: usize,
    /// From the start of the data.
    start: usize,
    zeros: bool,
}

pub fn generate(random: &Random, size: Size) -> World {
    let frames = match size {
        Size::ManyFrames => MAX_FRAMES,
        Size::TooManyFrames => MAX_FRAMES + 1,
        Size::Nested | Size::Deep => random.choose(&[8, 10, 12, 14]),
        Size::SomeFrames => random.choose(&[16, 17, 24, 31, 32, 33, 40, 63, 64]),
        _ => random.choose(&[0, 1, 2, 3, 4, 5, 6, 8, 10, 12]),
    };
    // "Ledger and pool may hold anything before its first begin"
    let control = random.bytes(TABLE_AT + FRAME_ENTRY * frames);
    let pool = random.bytes(PAGE * frames);
    let mut world = World { snapshot: snapshot(random, size), control, pool };
    // A valid control block lets calls before the first begin get far; where no begin is accepted, it makes them ask for the bound.
    if random.chance(30) || matches!(size, Size::TooWide | Size::TooManyFrames) {
        damage::hand_made_control(random, &mut world);
    }
    world
}

/// A, B and T.
fn counts(random: &Random, size: Size) -> [usize; 3] {
    let accounts = random.weighted(&[1, 6, 10, 12, 10, 8]);
    let contexts = random.choose(&[0, 1, 1, 2, 3]);
    let transaction = random.choose(&[0, 1, 8, 100, 4095, 4096, 4097, 9000]);
    match size {
        Size::Wide => [random.choose(&[accounts, 63, 64]), random.choose(&[511, 512]), random.choose(&[transaction, 65_536])],
        Size::TooWide => random.choose(&[[65, contexts, transaction], [accounts, 513, transaction], [accounts, contexts, 65_537]]),
        _ => [accounts.max(usize::from(size != Size::Small)), contexts, transaction],
    }
}

fn snapshot(random: &Random, size: Size) -> Vec<u8> {
    let [accounts, contexts, transaction] = counts(random, size);
    let transaction_at = SNAPSHOT_HEADER + ACCOUNT_ENTRY * accounts + CONTEXT * contexts;
    let data_at = transaction_at + transaction;
    let (plans, used) = data_plans(random, accounts, size);
    let slack = random.choose(&[0, 0, 1, 100]);
    let mut snapshot = random.bytes(data_at + used + slack);
    let total = snapshot.len();
    let contexts_at = SNAPSHOT_HEADER + ACCOUNT_ENTRY * accounts;
    let header = [accounts, contexts, transaction, SNAPSHOT_HEADER, contexts_at, transaction_at, data_at, total];
    for (word, value) in header.into_iter().enumerate() {
        put_u32(&mut snapshot, 4 * word, value as u32);
    }
    for (account, plan) in plans.iter().enumerate() {
        if plan.zeros {
            snapshot[data_at + plan.start..][..plan.length].fill(0);
        }
        write_entry(random, &mut snapshot, account, plan, data_at);
    }
    snapshot
}

/// Where each account's data lies, and how many bytes all of it takes. "Data of two accounts may overlap."
fn data_plans(random: &Random, accounts: usize, size: Size) -> (Vec<Plan>, usize) {
    let mut used = 0;
    let mut plans = vec![];
    for account in 0..accounts {
        let length = if size == Size::LongAccount && account == 0 { MAX_DATA } else { random.choose(&LENGTHS) };
        let start = if used > 0 && random.chance(30) { used - random.below(used.min(9000) + 1) } else { used };
        used = used.max(start + length);
        plans.push(Plan { length, start, zeros: random.chance(25) });
    }
    (plans, used)
}

fn write_entry(random: &Random, snapshot: &mut [u8], account: usize, plan: &Plan, data_at: usize) {
    let accounts = u32_at(snapshot, 0) as usize;
    let at = SNAPSHOT_HEADER + ACCOUNT_ENTRY * account;
    // A program that can store to its own 2^24 bytes.
    let long = plan.length == MAX_DATA;
    let flags = if long { 3 } else { random.choose(&[3, 3, 3, 3, 3, 3, 3, 1, 1, 0, 2]) };
    let owner = if long { account } else { random.choose(&[0, 0, 0, 1, 1, random.below(accounts), 0xFFFF]) };
    put_u16(snapshot, at, flags);
    if flags & 1 == 0 {
        // Nothing else of an entry that does not exist is tested: its bytes stay arbitrary.
        return;
    }
    put_u16(snapshot, at + 2, owner as u16);
    put_u32(snapshot, at + 4, plan.length as u32);
    put_u32(snapshot, at + 8, (data_at + plan.start) as u32);
    put_u32(snapshot, at + 12, 0);
    if !long && random.chance(6) {
        spoil_entry(random, snapshot, account);
    }
}

/// One field of an account's entry made wrong, or moved to the very edge of what is right.
pub fn spoil_entry(random: &Random, snapshot: &mut [u8], account: usize) {
    let at = SNAPSHOT_HEADER + ACCOUNT_ENTRY * account;
    if at + ACCOUNT_ENTRY > snapshot.len() {
        return;
    }
    let (data_at, total) = (u32_at(snapshot, 24), snapshot.len() as u32);
    let length = u32_at(snapshot, at + 4);
    match random.below(10) {
        0 => put_u16(snapshot, at, random.choose(&[4, 5, 7, 0x103, 0x8001, 0xFFFF])),
        1 => put_u32(snapshot, at + 12, random.choose(&[1, 0x8000_0000, 0x100])),
        2 => put_u32(snapshot, at + 4, random.choose(&[MAX_DATA as u32 + 1, u32::MAX, MAX_DATA as u32])),
        3 => put_u32(snapshot, at + 8, data_at.wrapping_sub(1)),
        4 => put_u32(snapshot, at + 8, total.wrapping_sub(length).wrapping_add(1)),
        5 => put_u32(snapshot, at + 8, total.wrapping_sub(length)),
        6 => put_u32(snapshot, at + 8, u32::MAX),
        7 => {
            put_u32(snapshot, at + 4, 0);
            put_u32(snapshot, at + 8, random.choose(&[data_at.wrapping_sub(1), data_at, total, total + 1, 0]));
        }
        8 => put_u16(snapshot, at, random.choose(&[0, 1, 2, 3])),
        _ => put_u16(snapshot, at + 2, random.choose(&[0, 1, 2, 0xFFFF])),
    }
}

/// A look at buffers that may be damaged: fields that are not there are 0. For the choice of calls only.
impl World {
    pub fn accounts(&self) -> usize {
        peek(&self.snapshot, 0, 4).min(64)
    }

    fn entry_field(&self, account: usize, at: usize, width: usize) -> usize {
        peek(&self.snapshot, SNAPSHOT_HEADER + ACCOUNT_ENTRY * account + at, width)
    }

    /// A store of the current program to this account can be accepted.
    pub fn can_be_stored_to(&self, account: usize) -> bool {
        let flags = self.entry_field(account, 0, 2);
        let owner = self.entry_field(account, 2, 2);
        flags == 3 && owner == self.program() && self.data_length(account) > 0
    }

    pub fn data_length(&self, account: usize) -> usize {
        self.entry_field(account, 4, 4).min(MAX_DATA)
    }

    pub fn contexts(&self) -> usize {
        peek(&self.snapshot, 4, 4)
    }

    pub fn transaction(&self) -> usize {
        peek(&self.snapshot, 8, 4)
    }

    pub fn edition(&self) -> u32 {
        peek(&self.control, EDITION_AT, 4) as u32
    }

    pub fn live(&self) -> usize {
        peek(&self.control, 4, 4).clamp(1, MAX_LIVE)
    }

    pub fn record_at(&self) -> usize {
        RECORDS_AT + RECORD * self.live()
    }

    pub fn program(&self) -> usize {
        peek(&self.control, self.record_at(), 2)
    }

    pub fn region_size(&self, region: u8) -> usize {
        self.region_size_in(self.live(), region)
    }

    /// The pages of a region by this record.
    pub fn region_size_in(&self, record: usize, region: u8) -> usize {
        peek(&self.control, RECORDS_AT + RECORD * record + if region == STACK { 2 } else { 4 }, 2)
    }

    /// The tag of the lowest frame that claims a page of a region.
    pub fn tag_of(&self, region: u8, page: usize) -> Option<usize> {
        let mut entries = self.control.get(TABLE_AT..)?.chunks_exact(FRAME_ENTRY);
        entries.find(|entry| entry[0] == region && usize::from(u16_at(entry, 4)) == page).map(|entry| entry[1].into())
    }

    /// Account, page and depth by the entry of each copy, lowest frame first.
    pub fn copies(&self) -> Vec<[u16; 3]> {
        let entries = self.control.get(TABLE_AT..).unwrap_or(&[]).chunks_exact(FRAME_ENTRY);
        entries.filter(|entry| entry[0] == COPY).map(|entry| [2, 4, 6].map(|field| u16_at(entry, field))).collect()
    }

    /// A copy claims this page of an account.
    pub fn is_copied(&self, account: usize, page: usize) -> bool {
        self.copies().iter().any(|copy| [copy[0], copy[1]].map(usize::from) == [account, page])
    }

    pub fn frames(&self) -> usize {
        self.control.len().saturating_sub(TABLE_AT) / FRAME_ENTRY
    }

    /// The use of each frame.
    pub fn uses(&self) -> Vec<u8> {
        self.control.get(TABLE_AT..).unwrap_or(&[]).chunks_exact(FRAME_ENTRY).map(|entry| entry[0]).collect()
    }

    /// Entries of the frame table with this use.
    pub fn frames_used_as(&self, usage: u8) -> usize {
        self.uses().into_iter().filter(|other| *other == usage).count()
    }
}

fn peek(bytes: &[u8], at: usize, width: usize) -> usize {
    number(&part_or_zeros(bytes, at, width)) as usize
}
