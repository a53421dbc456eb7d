//! The replay of document 01: plain copies of the accounts' data and a set of touched pages, each with the depth at which it was touched
//! first. It is fed the snapshot, each call's other arguments except control block and pool, and whether the call was accepted. It knows
//! nothing of frames and counts the depth, so it checks the library by another way than the model.

use std::collections::BTreeMap;

use crate::bytes::*;
use crate::interface::{Answer, Bytes, Call, World};
use crate::library;
use crate::model::snapshot::{Entry, Header};

/// Mistakes that the replay can be given, each of which the histories must tell apart from the library.
#[derive(Clone, Copy, Debug, PartialEq, Eq)]
pub enum Slip {
    ForgetsBegin,
    PlainBeginOnly,
    LosesEqualStore,
    OverlapShared,
    LosesSpans,
    LosesRecords,
    /// A write told 14 is taken for an accepted one.
    KeepsRefusedRecords,
    /// A begin leaves the depth as it is.
    CountsDepthOn,
    LosesReturns,
    CountsRefusedCalls,
    DepthFromOne,
    DepthOfLastStore,
    /// Every page has the depth that the history ends at.
    DepthAtEnd,
}

impl Slip {
    pub const ALL: [Slip; 13] = [
        Slip::ForgetsBegin,
        Slip::PlainBeginOnly,
        Slip::LosesEqualStore,
        Slip::OverlapShared,
        Slip::LosesSpans,
        Slip::LosesRecords,
        Slip::KeepsRefusedRecords,
        Slip::CountsDepthOn,
        Slip::LosesReturns,
        Slip::CountsRefusedCalls,
        Slip::DepthFromOne,
        Slip::DepthOfLastStore,
        Slip::DepthAtEnd,
    ];
}

/// "for each account with a fit entry, a plain copy of its data, apart from any other account's"
struct PlainCopy {
    account: u16,
    data_at: usize,
    original: Vec<u8>,
    data: Vec<u8>,
}

pub struct Replay {
    copies: Vec<PlainCopy>,
    /// Each page of the set with "the depth at the first accepted store or span store to that page since the latest accepted begin".
    touched: BTreeMap<(u16, u16), u16>,
    /// "the accepted calls since that begin less the accepted returns"
    depth: u16,
    begun: bool,
    slip: Option<Slip>,
}

impl Replay {
    pub fn new(snapshot: &[u8], slip: Option<Slip>) -> Replay {
        let copies = Header::read(snapshot).map_or(vec![], |header| plain_copies(snapshot, &header));
        Replay { copies, touched: BTreeMap::new(), depth: 0, begun: false, slip }
    }

    pub fn has_begun(&self) -> bool {
        self.begun
    }

    /// Takes in a call that the library has answered, and checks the bytes that a load gave.
    pub fn observe(&mut self, call: &Call, answer: &Answer) -> Result<(), String> {
        // "every refused one, leaves all as it is"; before the first begin frames may hold anything, and nothing is claimed.
        let counts = self.begun || self.is_begin(call);
        if !self.is_accepted(call, answer) || !counts {
            return Ok(());
        }
        match (call, answer) {
            _ if self.is_begin(call) => self.begin(),
            (Call::Store { address, size, value }, _) => self.store(*address, &value.to_le_bytes()[..*size]),
            (Call::StoreSpan { .. }, _) if self.slip == Some(Slip::LosesSpans) => {}
            (Call::StoreSpan { address, bytes }, _) => self.store(*address, &bytes.0),
            (Call::Load { address, size }, Answer::Value(loaded)) => return self.loaded(*address, &loaded.value.to_le_bytes()[..*size]),
            (Call::LoadSpan { address, out }, _) => return self.loaded(*address, &out.0),
            // "reading what a load reads"
            (Call::Fetch { address, size }, Answer::Value(fetched)) => {
                return self.loaded(*address, &fetched.value.to_le_bytes()[..*size]);
            }
            // "In demand 3's history each is that one span load or store, a refused one where the number is 14."
            (Call::WriteRecord { .. }, _) if self.slip == Some(Slip::LosesRecords) => {}
            (Call::WriteRecord { address, record }, _) => self.store(*address, &record.bytes()),
            (Call::ReadRecord { address, .. }, Answer::Read(read)) => return self.loaded(*address, &read.record.bytes()),
            (Call::Invoke { .. }, _) => self.depth += 1,
            (Call::Return { .. }, _) if self.slip == Some(Slip::LosesReturns) => {}
            (Call::Return { .. }, _) => self.depth -= 1,
            _ => {}
        }
        Ok(())
    }

    /// "Accepted means answered with 0."
    fn is_accepted(&self, call: &Call, answer: &Answer) -> bool {
        let slips = match call {
            Call::WriteRecord { .. } => self.slip == Some(Slip::KeepsRefusedRecords) && answer.number() == 14,
            Call::Invoke { .. } => self.slip == Some(Slip::CountsRefusedCalls),
            _ => false,
        };
        answer.number() == 0 || slips
    }

    /// "where demand 3 says begin, it means either"
    fn is_begin(&self, call: &Call) -> bool {
        matches!(call, Call::Begin { .. }) || (matches!(call, Call::BeginPages { .. }) && self.slip != Some(Slip::PlainBeginOnly))
    }

    /// "An accepted begin sets every plain copy to the ground's bytes and empties the set."
    fn begin(&mut self) {
        if self.begun && self.slip == Some(Slip::ForgetsBegin) {
            return;
        }
        self.begun = true;
        self.touched.clear();
        self.depth = match self.slip {
            Some(Slip::CountsDepthOn) => self.depth,
            Some(Slip::DepthFromOne) => 1,
            _ => 0,
        };
        for copy in &mut self.copies {
            copy.data.copy_from_slice(&copy.original);
        }
    }

    /// "writes its bytes to the plain copy that the index names, from the offset on; its page joins the set, even if no byte changes"
    fn store(&mut self, address: u64, bytes: &[u8]) {
        let Some((account, offset)) = in_account_data(address) else { return };
        let copy = self.copies.iter_mut().find(|copy| copy.account == account).expect("an accepted store names a valid account");
        let target = &mut copy.data[offset..offset + bytes.len()];
        if self.slip == Some(Slip::LosesEqualStore) && target == bytes {
            return;
        }
        target.copy_from_slice(bytes);
        let at = copy.data_at + offset;
        let first = self.touched.entry((account, (offset / PAGE) as u16)).or_insert(self.depth);
        if self.slip == Some(Slip::DepthOfLastStore) {
            *first = self.depth;
        }
        if self.slip == Some(Slip::OverlapShared) {
            self.share(at, bytes);
        }
    }

    /// The slip that writes to every account whose data covers these bytes of the snapshot.
    fn share(&mut self, at: usize, bytes: &[u8]) {
        for copy in &mut self.copies {
            if at >= copy.data_at && at + bytes.len() <= copy.data_at + copy.data.len() {
                let offset = at - copy.data_at;
                copy.data[offset..offset + bytes.len()].copy_from_slice(bytes);
            }
        }
    }

    /// "Every accepted load or span load in type 3 gave the bytes that the plain copy its index names held there at that call"
    fn loaded(&self, address: u64, given: &[u8]) -> Result<(), String> {
        let Some((account, offset)) = in_account_data(address) else { return Ok(()) };
        let copy = self.copies.iter().find(|copy| copy.account == account).expect("an accepted load names a valid account");
        if copy.data[offset..offset + given.len()] != *given {
            return Err(format!("replay: a load of account {account} at {offset:#x} gave other bytes than the plain copy's"));
        }
        Ok(())
    }

    /// "frames in use number exactly the distinct account pages stored to plus stack pages plus heap pages of frame D"
    pub fn check_frames(&self, world: &World) -> Result<(), String> {
        if !self.begun {
            return Ok(());
        }
        let in_use = world.frames() - world.frames_used_as(FREE);
        let expected = self.touched.len() + world.region_size(STACK) + world.region_size(HEAP);
        if in_use != expected {
            return Err(format!("replay: {in_use} frames are in use, {expected} by the rule"));
        }
        Ok(())
    }

    /// The claims about the end of a history: the list, and its application to each account's original data.
    pub fn check_end(&self, world: &World) -> Result<(), String> {
        if !self.begun {
            return Ok(());
        }
        let expected = self.list();
        let mut call = Call::ChangeList { out: Bytes(vec![0xEE; expected.len() + 33]) };
        let answer = library::run(&mut world.clone(), &mut call);
        let Call::ChangeList { out } = call else { unreachable!("the call keeps its kind") };
        if answer.number() != 0 || !out.0.starts_with(&expected) || out.0[expected.len()..] != [0xEE; 33] {
            return Err(format!("replay: the change list is not that of the {} touched pages; {answer:?}", self.touched.len()));
        }
        self.copies.iter().try_for_each(|copy| check_applied(world, copy, &expected))
    }

    /// "an entry for each page of the set and no other, and for each the plain copy's live bytes, then zeros"; an entry ends in the depth
    /// and "a zero u16"
    fn list(&self) -> Vec<u8> {
        let count = self.touched.len();
        let words = [&[count as u64], &list_words(count as u64)[..]].concat();
        let mut list: Vec<u8> = words.iter().flat_map(|&word| (word as u32).to_le_bytes()).collect();
        let mut pages = vec![];
        for (&(account, page), &first) in &self.touched {
            let copy = self.copies.iter().find(|copy| copy.account == account).expect("touched accounts are valid");
            let live = copy.data[PAGE * usize::from(page)..].chunks(PAGE).next().expect("touched pages have live bytes");
            list.extend(account.to_le_bytes());
            list.extend(page.to_le_bytes());
            list.extend((live.len() as u32).to_le_bytes());
            list.extend(if self.slip == Some(Slip::DepthAtEnd) { self.depth } else { first }.to_le_bytes());
            list.extend([0, 0]);
            pages.extend(part_or_zeros(live, 0, PAGE));
        }
        list.extend(pages);
        list
    }
}

/// "Applying it to the original data of an account with a fit entry answers 0 and leaves that plain copy."
fn check_applied(world: &World, copy: &PlainCopy, list: &[u8]) -> Result<(), String> {
    let mut call = Call::Apply { list: Bytes(list.to_vec()), account: copy.account, data: Bytes(copy.original.clone()) };
    let answer = library::run(&mut world.clone(), &mut call);
    let Call::Apply { data, .. } = call else { unreachable!("the call keeps its kind") };
    if answer.number() != 0 || data.0 != copy.data {
        return Err(format!("replay: the list applied to account {} does not give the plain copy; {answer:?}", copy.account));
    }
    Ok(())
}

fn plain_copies(snapshot: &[u8], header: &Header) -> Vec<PlainCopy> {
    let valid = |account: u16| Some((account, Entry::read(snapshot, header, account, None)?));
    let copied = |(account, entry): (u16, Entry)| {
        let original = snapshot[entry.data_at..entry.data_at + entry.length].to_vec();
        PlainCopy { account, data_at: entry.data_at, data: original.clone(), original }
    };
    (0..header.accounts as u16).filter_map(valid).map(copied).collect()
}

/// Account and offset of an accepted address of type 3.
fn in_account_data(address: u64) -> Option<(u16, usize)> {
    (address >> 40 == 3).then_some(((address >> 24) as u16, (address & 0xFF_FFFF) as usize))
}
