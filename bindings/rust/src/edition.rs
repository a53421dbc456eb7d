//! The editions of the memory layout.

/// The edition of the memory layout that a program was built for. [`Memory::begin`](crate::Memory::begin) takes it.
///
/// The two differ in where a program's code is; all else is the same.
///
/// | | [`Older`](Edition::Older) | [`Newer`](Edition::Newer) |
/// |-|-|-|
/// | A program executes from | [`Address::data`](crate::Address::data) of its account | [`Address::program`](crate::Address::program) |
/// | A fetch reads | what a load reads: the account's data as stored to | the account's original data |
/// | [`Segment::Program`](crate::Segment::Program) | no segment | read only |
///
/// ```
/// # use hekthumar::*;
/// # let mut builder = SnapshotBuilder::new();
/// # let program = builder.account(Account::program([1, 2, 3, 4]));
/// # let snapshot = builder.build().unwrap();
/// # let (mut control, mut pool) = (vec![0; control_len(2)], vec![0; pool_len(2)]);
/// # let mut memory = Memory::new(&snapshot, &mut control, &mut pool);
/// memory.begin(program, Edition::Older)?;
/// assert_eq!(memory.fetch(Address::data(program, 0)?, 4), Ok(0x0403_0201));
/// assert_eq!(memory.fetch(Address::program(0)?, 4), Err(Refusal::NoSegment));
///
/// memory.begin(program, Edition::Newer)?;
/// assert_eq!(memory.fetch(Address::program(0)?, 4), Ok(0x0403_0201));
/// assert_eq!(memory.fetch(Address::data(program, 0)?, 4), Err(Refusal::NotPermitted));
/// # Ok::<(), Refusal>(())
/// ```
#[repr(u32)]
#[derive(Clone, Copy, Debug, PartialEq, Eq, Hash)]
pub enum Edition {
    /// A program executes from its account's data.
    Older = 1,
    /// A program executes from a segment of its own.
    Newer = 2,
}

impl Edition {
    /// The edition with this number in the C interface and in the [control block](crate::inspect::ControlHeader::edition), if there is one.
    ///
    /// ```
    /// use hekthumar::Edition;
    ///
    /// assert_eq!(Edition::from_number(Edition::Older as u32), Some(Edition::Older));
    /// assert_eq!(Edition::from_number(3), None);
    /// ```
    pub fn from_number(number: u32) -> Option<Edition> {
        [Edition::Older, Edition::Newer].into_iter().find(|&edition| edition as u32 == number)
    }
}
