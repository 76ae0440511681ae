//! Planted mistakes: each makes the model wrong in one place, and the drivers must find it.

macro_rules! mistakes {
    ($($name:ident),* $(,)?) => {
        #[derive(Clone, Copy, Debug, PartialEq)]
        pub enum Mistake {
            $($name),*
        }

        pub const MISTAKES: &[Mistake] = &[$(Mistake::$name),*];
    };
}

mistakes! {
    // open, over all
    StartsUnasked,
    ScratchWithoutHeaders,
    LongNameAllowed,
    OddListAllowed,
    LongListAllowed,
    SixtyFiveRecords,
    SixtyOneCommitted,
    HeaderCountUnbounded,
    LogSeventeenAllowed,
    HeaderLogAnyAllowed,
    LengthBelowTableAllowed,
    LengthUnbounded,
    // open, record by record
    SpanBeforeTableAllowed,
    SpanPastLengthAllowed,
    HeaderUnalignedAllowed,
    HeaderEndWraps,
    HeadersMayMeet,
    DataPastCapacityAllowed,
    EmptyExtentAllowed,
    EmptyExtraRefused,
    SpanStartUnasked,
    ExtentEndWraps,
    ExtraChecked,
    SumTestedLast,
    SumWraps,
    SlotMayListMore,
    DataByContainerBlock,
    CapacityBeforeExtents,
    TouchingOverlaps,
    LowestOfAnyRecord,
    NumbersBeforeRecords,
    EqualNumbersUnmarked,
    OverlapsUnsettled,
    NamesUnsettled,
    NamesPadded,
    // open, the plan
    ExtraCommitted,
    ExtraHeld,
    CapacityPublished,
    LastNumberOfLastRecord,
    OpenedTagsWithoutRow,
    // places
    FitFromBehind,
    FitTightest,
    FitBehindAll,
    FitPastLength,
    FreeFromAlignedTable,
    // create
    LastNumberNotRaised,
    LastNumberRaisedByRefusal,
    RowByRefusal,
    SixtyFiveRegions,
    CreateCapAsksOneBlock,
    HeaderLogNine,
    // grow
    StepDoublesLate,
    StepDoublesOn,
    SixtyExtentsTooMany,
    SixtyOneExtents,
    SlotGrows,
    SpanNotWidened,
    SpanWidensUpOnly,
    GrowRaisesNumber,
    CapBelow,
    CapOneAbove,
    CapWithoutHeaders,
    // publish
    PublishLowers,
    PublishByContainerBlock,
    PublishPastCapacity,
    // drop
    DropKeepsBytes,
    DropClearsCap,
    DropLowersLastNumber,
    // cap
    NinetyFiveTags,
    NinetySevenTags,
    TagsOfRegionsAlone,
    // locate
    EarlierRunAtJoin,
    JoinMissed,
    JoinOverGap,
    LocateByCapacity,
    LocateEmptyAtEndRefused,
    LocateEmptyIsByteZero,
    CrossingAllowed,
    // totals
    LogicalIsCapacity,
    PhysicalWithoutHeaders,
    // the order of refusals
    OpenLogBeforeLists,
    OpenLengthBeforeLog,
    OpenRegionBeforeEntry,
    OpenKindBeforeRegion,
    OpenFlagsBeforeKind,
    OpenReadyBeforeFlags,
    OpenCountBeforeReady,
    OpenDataBeforeCount,
    OpenMarkBeforeNumbers,
    CreateNumberBeforeLists,
    CreateNameBeforeNumber,
    CreateCountBeforeName,
    CreateLastNumberBeforeCount,
    CreateCapBeforeLastNumber,
    CreateRoomBeforeCap,
    GrowRegionBeforeLists,
    GrowCountBeforeSlot,
    GrowCapBeforeCount,
    GrowRoomBeforeCap,
    PublishDataBeforeBlock,
    DropRegionBeforeLists,
    LocateRegionBeforeLists,
    LocateRunBeforeData,
}

impl Mistake {
    /// The call, the number that it then answers, and the lower one that is due where both apply.
    pub fn order(self) -> Option<(&'static str, u64, u64)> {
        Some(match self {
            Self::OpenLogBeforeLists => ("open", 2, 1),
            Self::OpenLengthBeforeLog => ("open", 3, 2),
            Self::OpenRegionBeforeEntry => ("open", 5, 4),
            Self::OpenKindBeforeRegion => ("open", 6, 5),
            Self::OpenFlagsBeforeKind => ("open", 7, 6),
            Self::OpenReadyBeforeFlags => ("open", 8, 7),
            Self::OpenCountBeforeReady => ("open", 9, 8),
            Self::OpenDataBeforeCount => ("open", 10, 9),
            Self::OpenMarkBeforeNumbers => ("open", 15, 14),
            Self::CreateNumberBeforeLists => ("create", 14, 1),
            Self::CreateNameBeforeNumber => ("create", 18, 14),
            Self::CreateCountBeforeName => ("create", 19, 18),
            Self::CreateLastNumberBeforeCount => ("create", 20, 19),
            Self::CreateCapBeforeLastNumber => ("create", 21, 20),
            Self::CreateRoomBeforeCap => ("create", 22, 21),
            Self::GrowRegionBeforeLists => ("grow", 16, 1),
            Self::GrowCountBeforeSlot => ("grow", 19, 17),
            Self::GrowCapBeforeCount => ("grow", 21, 19),
            Self::GrowRoomBeforeCap => ("grow", 22, 21),
            Self::PublishDataBeforeBlock => ("publish", 23, 10),
            Self::DropRegionBeforeLists => ("drop", 16, 1),
            Self::LocateRegionBeforeLists => ("locate", 16, 1),
            Self::LocateRunBeforeData => ("locate", 24, 23),
            _ => return None,
        })
    }
}

/// The number of the first test that applies, or 0. With a mistake in the order of this call's
/// refusals, the later of the two.
pub fn first(tests: &[(u64, bool)], call: &str, mistake: Option<Mistake>) -> u64 {
    let number = tests.iter().find(|test| test.1).map_or(0, |test| test.0);
    match mistake.and_then(Mistake::order) {
        Some((wrong, given, due))
            if (wrong, due) == (call, number) && tests.contains(&(given, true)) =>
        {
            given
        }
        _ => number,
    }
}
