//! The three lent buffers and the calls on them.

use crate::refusal::{check, check_access};
use crate::{sys, Address, ChangeList, Edition, Kind, PagePlace, Place, Refusal, Region};
use std::fmt;

/// The 32 registers of an invocation, 8 bytes each.
pub type Registers = [u8; 256];

/// The memory of a virtual machine, in three buffers that the host lends.
///
/// All state is in the buffers. A host may take them back with [`Memory::into_buffers`] and lend them again later. Every call tests them
/// first, and is refused with [`Refusal::Invalid`] if they are not valid.
///
/// An access is refused for the first of these reasons that holds: a buffer is not valid, the size is wrong, the address has more than
/// 48 bits, there is no such segment or account, the account's entry is not valid, the offset is misaligned, the segment or account
/// forbids it, it crosses a page, a byte is not present, the stack or heap page has no frame or was added at a lower call depth, no frame
/// is free.
/// Where a byte is not present, [`Refusal::Absent`] says how many bytes of the access come before it. The read of a
/// [returned value](crate::Returned) is last refused for its discriminant.
///
/// ```
/// use hekthumar::*;
///
/// let mut builder = SnapshotBuilder::new();
/// let program = builder.account(Account::program([1, 2, 3, 4]));
/// let snapshot = builder.build().unwrap();
/// let (mut control, mut pool) = (vec![0; control_len(2)], vec![0; pool_len(2)]);
///
/// let mut memory = Memory::new(&snapshot, &mut control, &mut pool);
/// memory.begin(program, Edition::Newer)?;
/// assert_eq!(memory.fetch(Address::program(0)?, 4)?, 0x0403_0201);
/// // The program has 4 bytes, so 4 of these 8 are there.
/// assert_eq!(memory.fetch(Address::program(0)?, 8), Err(Refusal::Absent { distance: 4 }));
///
/// memory.resize(Region::Heap, 1)?;
/// memory.store_u64(Address::heap(8)?, 42)?;
/// assert_eq!(memory.load_u64(Address::heap(8)?), Ok(42));
/// assert_eq!(memory.load_u64(Address::heap(4096)?), Err(Refusal::Absent { distance: 0 }));
/// # Ok::<(), Refusal>(())
/// ```
pub struct Memory<'a> {
    snapshot: &'a [u8],
    control: &'a mut [u8],
    pool: &'a mut [u8],
}

/// Calls a C function with the three buffers and the arguments after them. The first argument is `as_ptr` if the function only reads
/// the buffers, else `as_mut_ptr`.
macro_rules! lend {
    ($pointer:ident, $memory:ident, $function:ident($($argument:expr),*)) => {{
        let Memory { snapshot, control, pool } = $memory;
        let (snapshot_len, control_len, pool_len) = (snapshot.len(), control.len(), pool.len());
        let (snapshot, control, pool) = (snapshot.as_ptr(), control.$pointer(), pool.$pointer());
        // SAFETY: each pointer and length is a slice borrowed for the call; one that is written is borrowed mutably, so none overlaps it.
        unsafe { sys::$function(snapshot, snapshot_len, control, control_len, pool, pool_len $(, $argument)*) }
    }};
}

mod records;

impl<'a> Memory<'a> {
    /// Takes the buffers, untested. `control` and `pool` may hold anything before the first begin.
    pub fn new(snapshot: &'a [u8], control: &'a mut [u8], pool: &'a mut [u8]) -> Memory<'a> {
        Memory { snapshot, control, pool }
    }

    /// Begins a program of an edition with one stack page: [`Memory::begin_with_pages`] with 1.
    ///
    /// ```
    /// # use hekthumar::*;
    /// # let mut builder = SnapshotBuilder::new();
    /// # let program = builder.account(Account::program([1, 2, 3, 4]));
    /// # let snapshot = builder.build().unwrap();
    /// # let (mut control, mut pool) = (vec![0; control_len(2)], vec![0; pool_len(2)]);
    /// # let mut memory = Memory::new(&snapshot, &mut control, &mut pool);
    /// memory.begin(program, Edition::Newer)?;
    /// let top = Address::stack(0xFF_FFF8)?;
    /// memory.store_u64(top, 42)?;
    /// assert_eq!(memory.load_u64(top), Ok(42));
    /// assert_eq!(memory.translate(Kind::Load, top, 8)?, Place::Pool { at: 4_088 });
    /// # Ok::<(), Refusal>(())
    /// ```
    pub fn begin(&mut self, program: u16, edition: Edition) -> Result<(), Refusal> {
        check(lend!(as_mut_ptr, self, hekthumar_begin(program, edition as u32)))
    }

    /// Begins a program as the only invocation, with 0 or 1 stack pages and without copies or heap. The page is frame 0 of the pool,
    /// zeroed; every other byte of the pool stays. The edition holds for this program and all that it calls, until the next begin.
    ///
    /// Refused with [`Refusal::BadRequest`] for more than 1 page, [`Refusal::NoSegment`] if there is no such account, and
    /// [`Refusal::OutOfFrames`] for 1 page and a pool without a frame.
    ///
    /// ```
    /// # use hekthumar::*;
    /// # let mut builder = SnapshotBuilder::new();
    /// # let program = builder.account(Account::program([1, 2, 3, 4]));
    /// # let snapshot = builder.build().unwrap();
    /// // A pool without a frame: enough for a program that only reads.
    /// let (mut control, mut pool) = (vec![0; control_len(0)], vec![0; pool_len(0)]);
    /// let mut memory = Memory::new(&snapshot, &mut control, &mut pool);
    /// assert_eq!(memory.begin_with_pages(program, Edition::Newer, 2), Err(Refusal::BadRequest));
    /// assert_eq!(memory.begin_with_pages(program, Edition::Newer, 1), Err(Refusal::OutOfFrames));
    /// memory.begin_with_pages(program, Edition::Newer, 0)?;
    /// assert_eq!(memory.load_u64(Address::stack(0xFF_FFF8)?), Err(Refusal::Absent { distance: 0 }));
    /// assert_eq!(memory.load_u32(Address::program(0)?), Ok(0x0403_0201));
    /// # Ok::<(), Refusal>(())
    /// ```
    pub fn begin_with_pages(&mut self, program: u16, edition: Edition, pages: usize) -> Result<(), Refusal> {
        check(lend!(as_mut_ptr, self, hekthumar_begin_pages(program, edition as u32, pages)))
    }

    /// Where an access would go. Refused exactly as the access would be; changes nothing.
    ///
    /// ```
    /// # use hekthumar::*;
    /// # let mut builder = SnapshotBuilder::new();
    /// # let program = builder.account(Account::program([1, 2, 3, 4]));
    /// # let slots = builder.account(Account::data(program, vec![7; 6_000]).writable());
    /// # let snapshot = builder.build().unwrap();
    /// # let (mut control, mut pool) = (vec![0; control_len(4)], vec![0; pool_len(4)]);
    /// # let mut memory = Memory::new(&snapshot, &mut control, &mut pool);
    /// # memory.begin(program, Edition::Newer)?;
    /// let address = Address::data(slots, 0x1004)?;
    /// let place = memory.translate(Kind::Store, address, 1)?;
    /// // Of four frames begin took frame 0 for the stack; a copy takes the highest that is free.
    /// assert_eq!(place, Place::Take { at: 3 * 4_096 + 4, frame: 3, account: slots, page: 1 });
    ///
    /// memory.store_u8(address, 0x11)?;
    /// assert_eq!(memory.translate(Kind::Store, address, 1)?, Place::Pool { at: 3 * 4_096 + 4 });
    /// # Ok::<(), Refusal>(())
    /// ```
    pub fn translate(&self, kind: Kind, address: Address, length: usize) -> Result<Place, Refusal> {
        Place::from_raw(lend!(as_ptr, self, hekthumar_translate(kind as u8, address.0, length)))
    }

    /// Loads 1, 2, 4 or 8 bytes as a little-endian number.
    pub fn load(&self, address: Address, size: usize) -> Result<u64, Refusal> {
        let sys::Value { value, distance, number } = lend!(as_ptr, self, hekthumar_load(address.0, size));
        check_access(sys::Outcome { distance, number }).map(|()| value)
    }

    /// Fetches 1, 2, 4 or 8 bytes of the current program as a little-endian number. Where a program is, its [`Edition`] says; elsewhere the
    /// fetch is refused with [`Refusal::NotPermitted`].
    pub fn fetch(&self, address: Address, size: usize) -> Result<u64, Refusal> {
        let sys::Value { value, distance, number } = lend!(as_ptr, self, hekthumar_fetch(address.0, size));
        check_access(sys::Outcome { distance, number }).map(|()| value)
    }

    /// Stores the lowest 1, 2, 4 or 8 bytes of a value. The first store to a page of an account takes the highest free frame for a copy of it,
    /// and is refused with [`Refusal::OutOfFrames`] if none is free; later ones go to that copy.
    pub fn store(&mut self, address: Address, size: usize, value: u64) -> Result<(), Refusal> {
        check_access(lend!(as_mut_ptr, self, hekthumar_store(address.0, size, value)))
    }

    /// Fills `out`, 1 to 4,096 bytes within one page; needs no alignment.
    pub fn load_span(&self, address: Address, out: &mut [u8]) -> Result<(), Refusal> {
        check_access(lend!(as_ptr, self, hekthumar_load_span(address.0, out.as_mut_ptr(), out.len())))
    }

    /// Stores all of `bytes`, 1 to 4,096 of them within one page; needs no alignment. Takes a frame as [`Memory::store`] does.
    pub fn store_span(&mut self, address: Address, bytes: &[u8]) -> Result<(), Refusal> {
        check_access(lend!(as_mut_ptr, self, hekthumar_store_span(address.0, bytes.as_ptr(), bytes.len())))
    }

    /// Calls a program. The new invocation starts with its caller's stack and heap and may load from all their pages. It may store to those
    /// that were added at its depth or deeper: to its own, and to heap pages that an earlier callee left. `registers` are kept for
    /// [`Memory::return_from`].
    ///
    /// Refused with [`Refusal::CallDepth`] at 16 live invocations, and [`Refusal::NoSegment`] if there is no such account.
    pub fn call(&mut self, program: u16, registers: &Registers) -> Result<(), Refusal> {
        check(lend!(as_mut_ptr, self, hekthumar_call(program, registers.as_ptr(), registers.len())))
    }

    /// Returns to the caller: fills in the registers kept by [`Memory::call`], frees the stack pages that the invocation added, and hands
    /// over the heap as it is. The caller then has as many heap pages as the invocation had, and may store to those that it added.
    ///
    /// Refused with [`Refusal::CallDepth`] if there is no caller.
    ///
    /// ```
    /// # use hekthumar::*;
    /// # let mut builder = SnapshotBuilder::new();
    /// # let program = builder.account(Account::program([1, 2, 3, 4]));
    /// # let helper = builder.account(Account::program([5, 6, 7, 8]));
    /// # let snapshot = builder.build().unwrap();
    /// # let (mut control, mut pool) = (vec![0; control_len(4)], vec![0; pool_len(4)]);
    /// # let mut memory = Memory::new(&snapshot, &mut control, &mut pool);
    /// memory.begin(program, Edition::Newer)?;
    /// memory.call(helper, &[0; 256])?;
    /// memory.resize(Region::Stack, 2)?;
    /// memory.resize(Region::Heap, 1)?;
    /// memory.store_u64(Address::heap(8)?, 42)?;
    /// memory.return_from(&mut [0; 256])?;
    ///
    /// // The helper's stack page is gone, its heap page is the caller's.
    /// assert_eq!(memory.load_u8(Address::stack(0xFF_E000)?), Err(Refusal::Absent { distance: 0 }));
    /// assert_eq!(memory.load_u64(Address::heap(8)?), Ok(42));
    /// memory.store_u64(Address::heap(8)?, 43)?;
    /// memory.resize(Region::Heap, 0)?;
    /// # Ok::<(), Refusal>(())
    /// ```
    pub fn return_from(&mut self, registers: &mut Registers) -> Result<(), Refusal> {
        check(lend!(as_mut_ptr, self, hekthumar_return(registers.as_mut_ptr(), registers.len())))
    }

    /// Gives the stack or heap this many pages. New pages are zeros, in the lowest free frames, so that copies, which take the highest, stay
    /// apart from them. Shrinking frees the pages that are farthest from the region's base.
    ///
    /// Refused with [`Refusal::RegionTooLarge`] above 4,096 pages, [`Refusal::OutOfFrames`] if fewer frames are free than growing needs,
    /// and [`Refusal::NotPermitted`] if one of the pages that shrinking would free was added at a lower call depth. So a heap page that a
    /// deeper invocation left stays as long as one behind it must stay.
    pub fn resize(&mut self, region: Region, pages: usize) -> Result<(), Refusal> {
        check(lend!(as_mut_ptr, self, hekthumar_resize(region as u8, pages)))
    }

    /// Writes the list of account pages stored to since the last begin to the start of `out`, each with the depth at the first store to it.
    ///
    /// Refused with [`Refusal::OutputTooShort`] if `out` has less than [`change_list_len`](crate::change_list_len) of the pages' number,
    /// and with [`Refusal::Invalid`] if the table of frames contradicts itself or the snapshot.
    ///
    /// ```
    /// # use hekthumar::*;
    /// # let mut builder = SnapshotBuilder::new();
    /// # let program = builder.account(Account::program([1, 2, 3, 4]));
    /// # let slots = builder.account(Account::data(program, vec![7; 6_000]).writable());
    /// # let snapshot = builder.build().unwrap();
    /// # let (mut control, mut pool) = (vec![0; control_len(2)], vec![0; pool_len(2)]);
    /// # let mut memory = Memory::new(&snapshot, &mut control, &mut pool);
    /// memory.begin(program, Edition::Newer)?;
    /// memory.call(program, &[0; 256])?;
    /// memory.store_u8(Address::data(slots, 4)?, 0x11)?;
    /// memory.return_from(&mut [0; 256])?;
    /// memory.store_u8(Address::data(slots, 8)?, 0x22)?;
    ///
    /// let mut out = vec![0; change_list_len(1)];
    /// let changes = memory.change_list(&mut out)?;
    /// let change = changes.entries().next().unwrap();
    /// assert_eq!((change.account, change.page, change.depth), (slots, 0, 1));
    /// assert_eq!(change.live[4..9], [0x11, 7, 7, 7, 0x22]);
    /// # Ok::<(), Refusal>(())
    /// ```
    pub fn change_list<'b>(&self, out: &'b mut [u8]) -> Result<ChangeList<'b>, Refusal> {
        check(lend!(as_ptr, self, hekthumar_change_list(out.as_mut_ptr(), out.len())))?;
        ChangeList::parse(out)
    }

    /// The bytes of an account's page as they stand, uncopied: a part of the snapshot, or of the pool once the page was stored to. The
    /// last page is as short as the data.
    ///
    /// Refused with [`Refusal::NoSegment`] if there is no such account and [`Refusal::Absent`] if the page has no bytes.
    ///
    /// ```
    /// # use hekthumar::*;
    /// # let mut builder = SnapshotBuilder::new();
    /// # let program = builder.account(Account::program([1, 2, 3, 4]));
    /// # let slots = builder.account(Account::data(program, vec![7; 6_000]).writable());
    /// # let snapshot = builder.build().unwrap();
    /// # let (mut control, mut pool) = (vec![0; control_len(2)], vec![0; pool_len(2)]);
    /// # let mut memory = Memory::new(&snapshot, &mut control, &mut pool);
    /// # memory.begin(program, Edition::Newer)?;
    /// assert_eq!(memory.page_view(slots, 1)?, [7; 1_904]);
    /// assert_eq!(memory.page_view(slots, 2), Err(Refusal::Absent { distance: 0 }));
    /// # Ok::<(), Refusal>(())
    /// ```
    pub fn page_view(&self, account: u16, page: u16) -> Result<&[u8], Refusal> {
        Ok(match self.page_place(account, page)? {
            PagePlace::Snapshot(part) => &self.snapshot[part],
            PagePlace::Pool(part) => &self.pool[part],
        })
    }

    /// Which part of which buffer [`Memory::page_view`] gives. Refused as that is.
    pub fn page_place(&self, account: u16, page: u16) -> Result<PagePlace, Refusal> {
        PagePlace::from_raw(lend!(as_ptr, self, hekthumar_page_view(account, page)))
    }

    /// The three buffers: snapshot, control block, pool.
    pub fn buffers(&self) -> (&[u8], &[u8], &[u8]) {
        (self.snapshot, self.control, self.pool)
    }

    /// Gives the three buffers back: snapshot, control block, pool.
    pub fn into_buffers(self) -> (&'a [u8], &'a mut [u8], &'a mut [u8]) {
        (self.snapshot, self.control, self.pool)
    }
}

/// The lengths only: the buffers are too long to be read.
impl fmt::Debug for Memory<'_> {
    fn fmt(&self, f: &mut fmt::Formatter<'_>) -> fmt::Result {
        let (snapshot, control, pool) = self.buffers();
        write!(f, "Memory {{ snapshot: {} bytes, control: {} bytes, pool: {} bytes }}", snapshot.len(), control.len(), pool.len())
    }
}
