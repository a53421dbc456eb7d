//! Why a call was refused.

use crate::sys;
use std::fmt;

/// Why a call was refused. A refused call has changed no lent byte.
///
/// ```
/// use hekthumar::{Address, Refusal};
///
/// let refusal = Address::heap(1 << 24).unwrap_err();
/// assert_eq!(refusal, Refusal::OutOfRange);
/// assert_eq!(refusal.number(), 3);
/// ```
#[derive(Clone, Copy, Debug, PartialEq, Eq, Hash)]
pub enum Refusal {
    /// A buffer's length, a header, an account entry or the control block breaks the layout.
    Invalid,
    /// The size is not 1, 2, 4 or 8, the span not 1 to 4,096 bytes, begin's number of stack pages not 0 or 1, or in the C interface its
    /// edition not 1 or 2.
    BadRequest,
    /// The address has one of its upper 16 bits set, or its offset was to be 2^24 or more.
    OutOfRange,
    /// No segment has this type and index, or there is no such account or program.
    NoSegment,
    /// The offset is not a multiple of the size.
    Misaligned,
    /// The span or record goes past a multiple of 4,096.
    CrossesPage,
    /// The segment, the account's flag or owner, or the call depth at which the page was added forbids the access.
    NotPermitted,
    /// More frames are needed than are free.
    OutOfFrames,
    /// A call with 16 live invocations, or a return from the only one.
    CallDepth,
    /// A stack or heap of more than 4,096 pages.
    RegionTooLarge,
    /// The change list is longer than the buffer for it.
    OutputTooShort,
    /// The change list is malformed, or a page of it has another count of live bytes than the data gives that page.
    BadChangeList,
    /// A byte asked for is not present.
    Absent {
        /// How many bytes of the access come before it; 0 for a page view.
        distance: u16,
    },
    /// The discriminant of a [returned value](crate::Returned) is neither 0 nor 1.
    BadRecord,
}

impl Refusal {
    /// Every refusal, in the order of the numbers; [`Refusal::Absent`] with the distance 0.
    pub const ALL: [Refusal; 14] = [
        Refusal::Invalid,
        Refusal::BadRequest,
        Refusal::OutOfRange,
        Refusal::NoSegment,
        Refusal::Misaligned,
        Refusal::CrossesPage,
        Refusal::NotPermitted,
        Refusal::OutOfFrames,
        Refusal::CallDepth,
        Refusal::RegionTooLarge,
        Refusal::OutputTooShort,
        Refusal::BadChangeList,
        Refusal::Absent { distance: 0 },
        Refusal::BadRecord,
    ];

    /// The number, 1 to 14, that the C interface gives back.
    pub const fn number(self) -> u8 {
        match self {
            Refusal::Invalid => 1,
            Refusal::BadRequest => 2,
            Refusal::OutOfRange => 3,
            Refusal::NoSegment => 4,
            Refusal::Misaligned => 5,
            Refusal::CrossesPage => 6,
            Refusal::NotPermitted => 7,
            Refusal::OutOfFrames => 8,
            Refusal::CallDepth => 9,
            Refusal::RegionTooLarge => 10,
            Refusal::OutputTooShort => 11,
            Refusal::BadChangeList => 12,
            Refusal::Absent { .. } => 13,
            Refusal::BadRecord => 14,
        }
    }

    /// The refusal with this number, 13 with the distance 0; none for 0, which is success, and above 14.
    pub fn from_number(number: u8) -> Option<Refusal> {
        Self::ALL.into_iter().find(|refusal| refusal.number() == number)
    }

    /// What was wrong, for a person to read.
    pub const fn sentence(self) -> &'static str {
        match self {
            Refusal::Invalid => "a buffer, header, account entry or the control block is not valid",
            Refusal::BadRequest => "the kind of access or the edition is unknown, or the length or the number of pages is not allowed",
            Refusal::OutOfRange => "the address has more than 48 bits or the offset more than 24",
            Refusal::NoSegment => "there is no such segment, account or program",
            Refusal::Misaligned => "the offset is not a multiple of the access size",
            Refusal::CrossesPage => "the access crosses a page boundary",
            Refusal::NotPermitted => "the current program is not permitted to do this",
            Refusal::OutOfFrames => "too few frames are free",
            Refusal::CallDepth => "a call at 16 live invocations or a return from the only one",
            Refusal::RegionTooLarge => "the stack or heap would exceed 4,096 pages",
            Refusal::OutputTooShort => "the output buffer is too short for the change list",
            Refusal::BadChangeList => "the change list is malformed or does not match the account's data",
            Refusal::Absent { .. } => "a byte asked for is not present",
            Refusal::BadRecord => "the returned value's discriminant is neither 0 nor 1",
        }
    }

    /// What was wrong with an access of so many bytes, for a person to read: which of them is absent, counted from 0, else the
    /// [sentence](Refusal::sentence).
    ///
    /// ```
    /// use hekthumar::Refusal;
    ///
    /// assert_eq!(Refusal::Absent { distance: 5 }.explain(8), "byte 5 of 8 is past the end");
    /// assert_eq!(Refusal::OutOfFrames.explain(8), "too few frames are free");
    /// ```
    pub fn explain(self, length: usize) -> String {
        match self {
            Refusal::Absent { distance } => format!("byte {distance} of {length} is past the end"),
            _ => self.sentence().to_string(),
        }
    }
}

impl fmt::Display for Refusal {
    fn fmt(&self, f: &mut fmt::Formatter<'_>) -> fmt::Result {
        match self {
            Refusal::Absent { distance } => write!(f, "byte {distance} of the access is past the end")?,
            _ => f.write_str(self.sentence())?,
        }
        write!(f, " (refusal {})", self.number())
    }
}

impl std::error::Error for Refusal {}

/// The number that a call answers, as a result.
pub(crate) fn check(number: u8) -> Result<(), Refusal> {
    match number {
        0 => Ok(()),
        _ => Err(Refusal::from_number(number).expect("the library answers 0 to 14")),
    }
}

/// The number and the distance that an access answers, as a result.
pub(crate) fn check_access(outcome: sys::Outcome) -> Result<(), Refusal> {
    check(outcome.number).map_err(|refusal| match refusal {
        Refusal::Absent { .. } => Refusal::Absent { distance: outcome.distance },
        other => other,
    })
}
