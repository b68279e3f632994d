//! The deliberate errors of the reference, by the entry points in which they show.

macro_rules! wrong {
    ($($list:ident { $($names:expr => $($wrong:ident)*;)* })*) => {
        /// An error to make on purpose, or none.
        #[derive(Clone, Copy, Debug, PartialEq)]
        pub enum Wrong { Nothing, $($($($wrong),*),*),* }

        $(pub const $list: Errors = &[$($((Wrong::$wrong, $names)),*),*];)*
    };
}

/// Errors, and the entry points that have to show each of them, each by itself.
pub type Errors = &'static [(Wrong, &'static [&'static str])];

/// Every entry point.
const EVERY: &[&str] = &[
    "lot_costs",
    "read_book",
    "pair_cost",
    "read_amounts",
    "check_order",
    "run_order",
    "find_order",
    "find_and_run",
    "find_and_run_idle",
    "find_and_run_panel",
];

/// Every entry point but the first, the costs of a lot, which are an empty stretch for a book without lots or calls, refused or not.
const REPLYING: &[&str] = match EVERY {
    [_, replying @ ..] => replying,
    [] => EVERY,
};

/// Every entry point but the last, the ticket panel's.
const OTHERS: &[&str] = match EVERY {
    [others @ .., _] => others,
    [] => EVERY,
};

/// The runs that find their order themselves.
const FINDING: &[&str] = &["find_and_run", "find_and_run_idle", "find_and_run_panel"];

/// The entry points that read amounts.
const AMOUNTS: &[&str] = &["read_amounts", "run_order", "find_and_run", "find_and_run_idle", "find_and_run_panel"];

/// The runs.
const RUNS: &[&str] = match AMOUNTS {
    [_, runs @ ..] => runs,
    [] => AMOUNTS,
};

wrong! {
    BEFORE_REQUEST_5 {
        &[] =>
        FailureByCallThenLot
        AmountsBeforeOrder
        FirstPlaceOfPairMetTwice
        MissingPairAfterCheck
        CountForLength
        StretchWithWord
        EmptyStretchAtRow
        PairTurnedRound
        NotEligibleCostsNothing;

        &["check_order", "find_and_run", "find_and_run_idle", "find_and_run_panel"] =>
        CrossPairTurnedRound
        CostOfTheOtherLot
        MissingPairPasses;

        FINDING =>
        StrictSum
        OnlyLaterLotsAndCalls
        MissingPairCostsNothing
        HighestPairFirst
        CostsOneByOne
        PositionForCall
        LimitExcluded
        MarkBeforeLength
        VersionByteAlone
        LengthAfterAmounts;

        &["find_and_run", "find_and_run_idle"] =>
        TakenPairNotEligible
        CheapestPairFirst
        FullWhenCallsMet
        CoveredWhenNothingIsLeft
        CoveredWhenACallLacks
        CoveredByTotals
        ShortWhenLotsAreLeft
        CostOfEachPairOnce
        IneligibleEntriesKept
        NoOrderBeforeShortBuffer;

        &["find_and_run_idle"] =>
        TotalsBeforeAmountLimit
        EqualTotalsRefused
        TotalsIn32Bits
        NoIdleCallBeforeAmounts
        NoIdleCallBeforeTotals
        NoIdleCallByLots
        ShortBufferBeforeTotals
        ShortBufferBeforeNoIdleCall
        ShortBufferWithIdleCall
        NoOrderOfBookItself
        OrderOfBookItself
        IdleCallFirst
        IdlePairsFirst
        IdleOnlyForLotsWithPairs
        IdleCallGivenNothing
        IdleAmountOfAllLots
        IdleAmountIn32Bits
        IdleAmountWithinLimit
        IdleUnitsPlaced
        FlowWithIdleCall
        FullWhenIdleTakesTheRest
        BaseSubtractedForIdleUnits;

        EVERY =>
        BookOfVersion0
        BookOfVersion1Alone
        BookOfVersion3
        SignedInVersion1
        UnsignedInVersion2
        SignAndSize
        LeastCostExcluded
        OneBelowTheLeastCost
        CostToTwoMillion;

        &["check_order", "run_order"] =>
        OrderOfVersion2;

        &["check_order", "run_order", "find_order", "find_and_run", "find_and_run_idle", "find_and_run_panel"] =>
        SumsUnsigned;

        &["run_order", "find_and_run", "find_and_run_idle"] =>
        CostIn32Bits
        BaseSubtractedOnce;

        &["pair_cost"] =>
        PairCostIn32Bits;

        &["find_order"] =>
        OrderOfTheBooksVersion;

        &["place"] =>
        MinusNotPrinted
        MinusBeforeZero;
    }

    REQUEST_5 {
        REPLYING =>
        NoLotsRefused
        NoCallsRefused
        NewDeskOfVersion1Alone
        NewDeskOfVersion2Alone
        CountAbove32BesideZero
        OneRowAtLeast
        NoRowsWithoutCalls
        WordNotLookedAtWithoutCalls
        LastLotNamedWithoutCalls;

        &["lot_costs"] =>
        WordForCostsWithoutCalls;

        &["pair_cost"] =>
        NewDeskCostsNothing;

        AMOUNTS =>
        NewDeskAmountsRefused
        NewDesksAlike
        NewDeskWithoutAmountLimit
        OneAmountAtLeast;

        &["check_order", "run_order"] =>
        NewDeskOrderRefused
        NewDeskPairsNotLookedAt;

        &["find_order"] =>
        OrderBufferOfOnePair;

        &["find_order", "find_and_run", "find_and_run_idle"] =>
        NewDeskWithoutOrder;

        &["run_order", "find_and_run", "find_and_run_idle"] =>
        OneEntryAtLeast
        NewDeskEntryCleared
        ShortWithoutCalls
        FullWithoutCalls
        CoveredWithoutCalls
        CoveredWithNothingAtAll;

        &["run_order", "find_and_run"] =>
        FullWithoutLots
        CoveredWithoutLots;

        &["find_and_run_idle"] =>
        NoIdleCallWithoutCalls
        TotalsNotLookedAtWithoutLots
        NoIdleCallBeforeTotalsWithoutLots;

        &["place"] =>
        NewDeskWithALine;
    }
    REQUEST_6 {
        &["find_and_run_panel"] =>
        AboveEightBeforeMark
        AboveEightBeforeFour
        AboveEightAfterRows
        AboveEightAfterBook
        AboveEightAfterAmounts
        AboveEightAfterShortBuffer
        AboveEightAfterNoOrder
        AboveEightByLots
        AboveEightByCalls
        AboveEightByBoth
        AboveEightByPairs
        EightRefused
        NineAccepted
        AboveEightWithCounts
        AboveEightClearsFlow
        AboveEightWritesEntry
        SixtyFourEntriesNeeded
        SixtyFourEntriesCleared
        PanelEntriesNotCleared
        PanelFlowByEight
        PanelPairAtLotTimes32
        EighthLotDropped
        EighthCallDropped
        PanelOfOnePair
        PanelOfVersion1Alone
        PanelWithoutLotsRefused
        PanelWithoutCallsRefused;

        OTHERS =>
        AboveEightEverywhere;
    }
    REQUEST_7 {
        AMOUNTS =>
        AmountsOfVersion0
        AmountsOfVersion1Alone
        AmountsOfVersion3
        AmountsVersionByteAlone
        ReservesInVersion1
        ReservesMayBeAbsent
        ReserveForEachCall
        OneReserveAtLeast
        NoReservesWithoutCalls
        ReservesBeforeCallAmounts
        ReservesBeforeLotAmounts
        ReservesInReverse
        FirstReserveForAll
        AllOfALotRefused
        ReserveLimit
        LimitOfReducedLot
        AboveLotByTotals
        AboveLotOfFirstLot
        AboveLotNotOfLastLot
        AboveLotLeavesNothing
        AboveLotWithLot
        AboveLotBeforeCounts
        AboveLotBeforeMissingBytes
        AboveLotBeforeBytesAfter
        AboveLotBeforeLimit
        AboveLotBeforeCallLimit
        AboveLotBesideLotLimit;

        RUNS =>
        ReserveNotTakenOff
        ReserveTakenOffTwice
        ReserveTakenOffCalls
        ReserveCountedAsLeft
        AboveLotAfterShortBuffer;

        &["run_order"] =>
        AboveLotBeforeOrder;

        FINDING =>
        AboveLotAfterNoOrder;

        &["find_and_run_idle"] =>
        TotalsWithReserves
        IdleAmountWithReserves
        AboveLotAfterTotals
        AboveLotAfterNoIdleCall;

        &["find_and_run_panel"] =>
        PanelAmountsOfVersion1Alone
        ReserveNotTakenOffOnPanel;

        &["place"] =>
        AmountsCutAt264
        AmountsCutAt391;
    }
}
