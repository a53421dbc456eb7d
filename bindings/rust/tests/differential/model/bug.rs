//! Mistakes that the model can be given, each of which the histories must tell apart from the library.

macro_rules! bugs {
    ($($(#[$text:meta])* $name:ident,)*) => {
        #[derive(Clone, Copy, Debug, PartialEq, Eq)]
        pub enum Bug {
            $($(#[$text])* $name,)*
        }

        impl Bug {
            pub const ALL: &'static [Bug] = &[$(Bug::$name,)*];
        }
    };
}

bugs! {
    // The five of "Mistakes we have seen".
    SecondStoreCopiesAgain,
    LoadReadsOriginal,
    OwnerForgotten,
    GrownPageNotZeroed,
    ShortPageCopiedPastEnd,

    // The order of an access.
    PermissionBeforeAlignment,
    CrossingBeforePermission,
    PresenceBeforeCrossing,
    UpperBitsIgnored,
    IndexTruncatedToByte,
    EntryUntested,
    /// Every size asks an offset divisible by 8.
    AlignmentOfEight,
    SpansAligned,
    SpanOf4097,
    PresenceOfFirstByteOnly,
    NoFrameBeforePresence,

    // Absent bytes.
    AbsentToldThree,
    ViewToldThree,
    UpperBitsToldThirteen,
    SplitToldThirteen,
    JoinToldThirteen,
    DistanceAlwaysZero,
    DistanceIsLength,
    /// The absent bytes are counted, not those before them.
    DistanceFromEnd,
    DistanceOfLastPresent,
    /// Its low 8 bits alone.
    DistanceAsByte,
    DistanceIsOffsetInPage,
    DistanceFromPageStart,
    ContextDistanceAcrossGap,
    StackDistanceToEnd,
    FetchLosesDistance,
    StoresLoseDistance,
    SpansLoseDistance,
    TranslationLosesDistance,
    DistanceInOtherRefusals,
    DistanceWhenDone,

    // Segments.
    ContextRemainderUntested,
    StackFromBottom,
    AbsentMetadataShown,
    ProgramReadsCopy,
    OwnerOfFirstInvocation,
    ShadowWithoutRecordZero,

    // Editions: the two words.
    /// Any edition but 1 is taken for 2.
    EditionWordIgnored,
    /// The low 8 bits of the word alone.
    EditionWordAsByte,
    ZeroWordIgnored,
    CallForgetsEdition,
    ReturnForgetsEdition,

    // Editions: where a program is.
    OlderHasProgramSegment,
    OlderProgramSegmentToldSeven,
    OlderFetchesNowhere,
    FetchOfAnyAccount,
    FetchOfFirstInvocation,
    /// A program that may not store to its account does not execute from it.
    FetchJudgedAsStore,
    FetchReadsOriginal,
    NewerFetchesFromData,

    // Entries of accounts.
    EmptyDataAnywhere,
    FourthWordIgnored,
    AbsentEntryTested,

    // The frame that a copy takes.
    CopyTakesLowestFrame,
    /// A span store's copy and a record's; the single store takes the highest.
    SpanTakesLowestFrame,
    /// The call `translate` alone.
    TranslationNamesLowestFrame,
    /// The highest frame that is not free.
    CopyTakesHighestInUse,
    /// The one above the topmost in use, or none.
    CopyTakesFrameAboveUsed,
    /// As above; above the last frame comes frame 0.
    CopyWrapsAboveUsed,
    /// A frame that becomes free above a copy is never found.
    CopyTakesFrameBelowCopies,
    CopyNeverTakesLastFrame,
    CopyNeverTakesFrameZero,

    // The frames that growth takes, and which are free.
    StackTakesHighestFrame,
    HeapTakesHighestFrame,
    /// Whoever asks: the search ends at the number of frames less one.
    LastFrameNeverFree,
    UnknownUseIsFree,

    // The frame of a page.
    HighestClaimWins,
    /// Of copies alone: the frame is looked for from where it was taken.
    CopyFoundFromTop,

    // Copies.
    CopyClaimNeedsTagZero,
    StoreOfEightTruncated,
    StoreAsksProgramEntry,
    TagAskedOfCopies,
    FreeingKeepsLastWord,
    TakingKeepsLastWord,

    // The depth that a copy's entry keeps.
    DepthOfLastStore,
    /// D in place of D-1.
    DepthIsLive,
    /// A library that counts by itself, and not by the control block.
    DepthCountedOverBegins,
    DepthNotLoweredByReturns,
    StoreTakesDepthZero,
    /// A span store's copy and a record's.
    SpanTakesDepthZero,
    RecordTakesDepthZero,
    CopyTagTakesDepth,
    StackPageTakesDepth,
    HeapPageTakesDepth,
    CopyClaimNeedsDepthZero,
    /// A page is copied again at another depth.
    CopyClaimNeedsOwnDepth,

    // The begins.
    BeginKeepsFrameTable,
    BeginAsksControlHeader,
    BeginOfAbsentProgram,
    PlainBeginTakesNoPage,
    NoPagesTakesPage,
    NoPagesZeroesFrame,
    NoPagesNeedsFrame,
    TwoPagesTakenAsOne,
    /// The low 8 bits of the number of pages alone.
    PagesAsByte,
    PagesAs32Bits,
    PagesBeforeBuffers,
    PagesAfterProgram,
    EditionBeforeBuffers,
    EditionAfterProgram,
    EditionAfterFrame,
    /// Any other edition is taken for 2.
    BeginOfAnyEdition,
    /// The low 8 bits of the edition alone.
    EditionAsByte,
    EditionAs16Bits,
    BeginWritesNewer,
    NoFrameBeforeProgram,
    NoFrameBeforePages,
    /// F = 0 is accepted with one page.
    BeginWithoutFrames,
    BeginTakesLastFrame,
    BeginPageIsHeap,
    BeginPageTagOne,
    /// Page 4,094.
    BeginPageBelowTop,
    /// Page 0.
    BeginPageFromBottom,
    BeginPageNotZeroed,
    BeginZeroesPastFrame,
    BeginLeavesStackSize,
    /// One refused with 8.
    RefusedBeginClearsControl,
    RefusedBeginZeroesFrame,

    // Calls.
    CallDropsSizes,
    CallKeepsPadding,
    CallAtFifteenRefused,

    // Returns: what they ask, and the registers and the record that leave.
    ReturnKeepsRecord,
    ReturnAsksCallersRecord,
    ReturnGivesCallersRegisters,

    // Returns: frames.
    /// Every stack and heap frame by its tag; the caller keeps its own heap size.
    ReturnFreesHeap,
    /// As above, but the heap size is handed over.
    HeapFreedSizeHandedOver,
    /// Heap frames whose pages are not below the size handed over.
    ReturnFreesHeapPastSize,
    ReturnLowersHeapTags,
    ReturnKeepsStack,
    /// Whatever its tag.
    ReturnFreesWholeStack,
    /// A tag of D-1 is not enough.
    ReturnFreesDeeperOnly,
    ReturnFreesWithinSizes,
    ReturnClearsPool,

    // Returns: the caller's record.
    HeapSizeNotHandedOver,
    /// To record D-2.
    HeapSizeToCallersCaller,
    HeapSizeToFirstRecord,
    HeapSizeToEveryRecord,
    HeapSizeNeverFalls,
    HeapSizeNeverRises,
    /// The low 8 bits alone.
    HeapSizeAsByte,
    /// The table's heap frames are counted.
    HeapSizeRecounted,
    InvalidCallerGetsNoSize,
    StackSizeHandedOver,
    PaddingHandedOver,
    ProgramHandedOver,

    // Records: their bytes.
    PointerAndLengthSwapped,
    LineAndColumnSwapped,
    EventBuffersSwapped,
    /// The second and the third.
    CallBuffersSwapped,
    /// After the buffer.
    DiscriminantLast,
    RecordsBigEndian,
    PointersCutTo48Bits,
    LengthsCutTo32Bits,

    // Records: the access.
    /// As if the struct were filled up to the next multiple of 16.
    LocationOf32Bytes,
    RecordsAligned,
    CrossingRecordToldAbsent,
    RecordsLoseDistance,
    /// 7 where a span store would be told it.
    ReadAsksLeaveToStore,
    /// A span load for each field, so that a record may cross a page.
    ReadByFields,
    /// A span store for each field, so that some are written though a later one is refused.
    WrittenByFields,
    /// 3 where a pointer in the record has upper bits.
    ReadChecksPointers,
    WriteChecksPointers,
    /// One told 14.
    RefusedReadGivesBytes,

    // Records: the discriminant.
    AnyDiscriminantRead,
    AnyDiscriminantWritten,
    /// The low 8 bits alone.
    ReadDiscriminantAsByte,
    ReadDiscriminantAs32Bits,
    WrittenDiscriminantAsByte,
    WrittenDiscriminantAs32Bits,
    /// Its 8 bytes are loaded and asked before the others are loaded.
    DiscriminantReadFirst,
    // A write told 14 where this is right: the first 1, 3, 4, the entry's 1, 7 by the row, 6, 13, the page's 1, 7 by tag, 8.
    DiscriminantBeforeBuffers,
    DiscriminantBeforeUpperBits,
    DiscriminantBeforeSegment,
    DiscriminantBeforeEntry,
    DiscriminantBeforePermission,
    DiscriminantBeforeCrossing,
    DiscriminantBeforePresence,
    DiscriminantBeforeClaim,
    DiscriminantBeforeTag,
    DiscriminantBeforeFrame,
    // A write told 14 that changes something all the same.
    WrongDiscriminantWritten,
    WrongDiscriminantTakesFrame,

    // Regions.
    TagMustExceedDepth,
    TagMustEqualDepth,
    GrowthOrderReversed,
    GrowthTagZero,
    GrowthReusesClaim,
    ShrinkTagBeforeClaim,
    ShrinkAsksNearestTag,
    ShrinkAsksOutermostTag,
    /// Pages with a tag above the depth stay, too.
    ShrinkFreesOwnOnly,
    ShrinkFreesNearest,
    ShrinkFreesAllClaims,
    ShrinkClearsPool,
    EqualSizeAsksClaims,

    // Change list, apply, view.
    ListUnsorted,
    ListPadsWithFrameBytes,
    ListAcceptsDoubleClaim,
    ListAsksLeaveToWrite,
    ListClearsRestOfOutput,
    ApplyIgnoresLiveCount,
    ApplyAcceptsEqualKeys,
    ApplyWrapsTotal,
    ApplyRefusesLongerList,
    ViewPastLiveBytes,
    ViewReadsOriginal,
    RefusedSpanClearsBuffer,

    // The change list: layout and depths.
    /// Entries of 8 bytes.
    ListOfBaseLayout,
    /// Of the current invocation, whatever the entries hold.
    ListDepthAtCall,
    ListDepthFromTag,
    /// The zero comes first.
    ListDepthBehindZero,
    ListDepthBigEndian,
    /// The low 8 bits alone.
    ListDepthAsByte,
    /// The use and the tag of the next frame's entry come behind it.
    ListDepthAs32Bits,
    /// 1 for a depth that no program reaches.
    ListAsksDepth,
    /// Two copies of a page with unequal depths are both listed.
    ListTellsClaimsByDepth,

    // Apply: layout, depths, and the last u16 of an entry.
    /// As well as the right one.
    ApplyTakesBaseLayout,
    ApplyIgnoresZero,
    ApplyAsksZeroOfOwn,
    ApplyAsksZeroOfOthers,
    ApplyAsksZeroOfFirst,
    /// The low 8 bits alone.
    ApplyAsksZeroAsByte,
    ApplyAsksDepthZero,
    /// A depth that no program reaches is refused.
    ApplyAsksDepth,
}
