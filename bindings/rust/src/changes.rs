//! The list of changed pages.

use crate::inspect::{ListEntry, ListHeader};
use crate::layout::{LIST_ENTRY, LIST_HEADER};
use crate::refusal::check;
use crate::{change_list_len, sys, Refusal, PAGE};
use std::fmt;

/// A well-formed list of changed account pages, in ascending order of account and page, each once.
///
/// It comes from [`Memory::change_list`](crate::Memory::change_list), or from bytes that were kept or sent, with [`ChangeList::parse`].
///
/// ```
/// use hekthumar::{ChangeList, Refusal};
///
/// // One page: account 5, page 0, of which 3 bytes are live, first stored to at depth 1.
/// let mut bytes = Vec::new();
/// for word in [1_u32, 16, 28, 4124] {
///     bytes.extend(word.to_le_bytes());
/// }
/// bytes.extend([5, 0, 0, 0, 3, 0, 0, 0, 1, 0, 0, 0]);
/// bytes.extend([b"new".as_slice(), &[0; 4093]].concat());
///
/// let list = ChangeList::parse(&bytes)?;
/// let change = list.entries().next().unwrap();
/// assert_eq!((change.account, change.page, change.live, change.depth), (5, 0, b"new".as_slice(), 1));
///
/// let mut data = *b"old";
/// list.apply(5, &mut data)?;
/// assert_eq!(data, *b"new");
/// assert_eq!(list.apply(5, &mut [0; 4]), Err(Refusal::BadChangeList));
/// # Ok::<(), Refusal>(())
/// ```
#[derive(Clone, Copy, PartialEq, Eq)]
pub struct ChangeList<'a> {
    bytes: &'a [u8],
    entries: &'a [[u8; LIST_ENTRY]],
    pages: &'a [[u8; PAGE]],
}

/// A page of a [`ChangeList`].
#[derive(Clone, Copy, Debug, PartialEq, Eq)]
pub struct Change<'a> {
    /// The account.
    pub account: u16,
    /// The page of the account's data.
    pub page: u16,
    /// The page's bytes, 1 to 4,096; fewer than 4,096 if the data ends in this page.
    pub live: &'a [u8],
    /// How deep the program ran that first stored to the page: the calls since begin, less the returns.
    pub depth: u16,
}

impl<'a> ChangeList<'a> {
    /// Reads a list from the start of `bytes`, which may be longer. [`Refusal::BadChangeList`] if it is malformed.
    pub fn parse(bytes: &'a [u8]) -> Result<ChangeList<'a>, Refusal> {
        Self::split(bytes).filter(Self::entries_are_valid).ok_or(Refusal::BadChangeList)
    }

    /// The number of pages.
    pub fn len(&self) -> usize {
        self.entries.len()
    }

    /// Whether no page changed.
    pub fn is_empty(&self) -> bool {
        self.entries.is_empty()
    }

    /// The pages in order.
    pub fn entries(&self) -> impl ExactSizeIterator<Item = Change<'a>> + 'a {
        self.entries.iter().zip(self.pages).map(|(entry, bytes)| {
            let ListEntry { account, page, live, depth, .. } = ListEntry::decode(entry);
            Change { account, page, live: &bytes[..live as usize], depth }
        })
    }

    /// The bytes of the list, without any that followed it.
    pub fn as_bytes(&self) -> &'a [u8] {
        self.bytes
    }

    /// Writes the changed pages of an account over its original data. [`Refusal::BadChangeList`] if a page of the account has more or
    /// fewer live bytes than data of this length has there.
    pub fn apply(&self, account: u16, data: &mut [u8]) -> Result<(), Refusal> {
        apply(self.bytes, account, data)
    }

    /// The parts of the list that the header announces, if it is right and they are all there.
    fn split(bytes: &'a [u8]) -> Option<ChangeList<'a>> {
        let header = ListHeader::read(bytes)?;
        let (count, total) = (header.pages as usize, header.total as usize);
        let pages_at = LIST_HEADER + LIST_ENTRY * count;
        if [header.entries_at as usize, header.pages_at as usize, total] != [LIST_HEADER, pages_at, change_list_len(count)] {
            return None;
        }
        let bytes = bytes.get(..total)?;
        Some(ChangeList { bytes, entries: bytes[LIST_HEADER..pages_at].as_chunks().0, pages: bytes[pages_at..].as_chunks().0 })
    }

    fn entries_are_valid(&self) -> bool {
        let entries = || self.entries.iter().map(ListEntry::decode);
        let keys = entries().map(|entry| (entry.account, entry.page));
        let is_valid = |entry: ListEntry| (1..=PAGE).contains(&(entry.live as usize)) && entry.zero == 0;
        keys.is_sorted_by(|key, next| key < next) && entries().all(is_valid)
    }
}

impl fmt::Debug for ChangeList<'_> {
    fn fmt(&self, f: &mut fmt::Formatter<'_>) -> fmt::Result {
        f.debug_list().entries(self.entries()).finish()
    }
}

/// [`ChangeList::apply`] for a list that is still bytes. [`Refusal::BadChangeList`] also if the list is malformed.
pub fn apply(list: &[u8], account: u16, data: &mut [u8]) -> Result<(), Refusal> {
    // SAFETY: both pointers and lengths are slices borrowed for the call, and `data` is borrowed mutably.
    check(unsafe { sys::hekthumar_apply(list.as_ptr(), list.len(), account, data.as_mut_ptr(), data.len()) })
}
