//! Why a call is refused: finer than the papers' numbers, so that coverage can tell the several 1s, 2s, 3s, 4s, 7s, 12s and 13s apart.

#[derive(Clone, Copy, Debug, PartialEq, Eq, PartialOrd, Ord)]
pub enum Why {
    Snapshot,
    Control,
    EditionWord,
    ZeroWord,
    Pool,
    Record,
    Entry,
    Unclaimed,
    CopyOfNoAccount,
    CopyOfInvalidEntry,
    CopyWithoutLiveBytes,
    CopiedTwice,
    UnknownKind,
    Length,
    Edition,
    StackPages,
    UpperBits,
    WideOffset,
    NoSegment,
    NoAccount,
    AbsentProgram,
    Misaligned,
    Crossing,
    Forbidden,
    Tag,
    NoFreeFrame,
    Depth,
    TooManyPages,
    ShortOutput,
    ListLayout,
    ListOrder,
    ListLiveCount,
    ListZero,
    ListLiveOfData,
    NotPresent,
    NoLiveBytes,
    Discriminant,
}

impl Why {
    /// The table of "Numbers given back", "A byte not present, and a view of a page with no live bytes, become 13", and "discriminant 0
    /// or 1, any other refused with 14".
    pub fn number(self) -> u8 {
        use Why::*;
        match self {
            Snapshot | Control | EditionWord | ZeroWord | Pool | Record | Entry | Unclaimed => 1,
            CopyOfNoAccount | CopyOfInvalidEntry | CopyWithoutLiveBytes | CopiedTwice => 1,
            UnknownKind | Length | Edition | StackPages => 2,
            UpperBits | WideOffset => 3,
            NoSegment | NoAccount | AbsentProgram => 4,
            Misaligned => 5,
            Crossing => 6,
            Forbidden | Tag => 7,
            NoFreeFrame => 8,
            Depth => 9,
            TooManyPages => 10,
            ShortOutput => 11,
            ListLayout | ListOrder | ListLiveCount | ListZero | ListLiveOfData => 12,
            NotPresent | NoLiveBytes => 13,
            Discriminant => 14,
        }
    }
}

/// A refusal as an access tells it.
#[derive(Clone, Copy)]
pub struct Refusal {
    pub why: Why,
    pub distance: u16,
}

/// Where no byte is absent, or the call is no access, the distance is 0.
impl From<Why> for Refusal {
    fn from(why: Why) -> Refusal {
        Refusal { why, distance: 0 }
    }
}
