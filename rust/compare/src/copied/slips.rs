//! The deliberate mistakes in the interface.

/// Lists the slips with a sentence each: those of any call, and those with many vectors.
macro_rules! slips {
    (
        any { $($name:ident: $text:literal,)* }
        many { $($large:ident: $large_text:literal,)* }
    ) => {
        /// One deliberate mistake in the interface, so that the comparison can be shown to fail.
        #[derive(Clone, Copy, Debug, PartialEq, Eq)]
        pub enum Slip {
            $(#[doc = $text] $name,)*
            $(#[doc = $large_text] $large,)*
        }

        impl Slip {
            /// Those that show in any call.
            pub const ANY: &'static [Slip] = &[$(Slip::$name,)*];

            /// Those that only show with many vectors.
            pub const MANY: &'static [Slip] = &[$(Slip::$large,)*];

            /// What is done wrong.
            pub fn text(self) -> &'static str {
                match self {
                    $(Slip::$name => $text,)*
                    $(Slip::$large => $large_text,)*
                }
            }
        }
    };
}

slips! {
    any {
        ShortPasses: "a short slice passes, as if zeros followed",
        OneShortPasses: "a slice that is one short passes",
        OneMoreAsked: "a slice must have one cell more than is needed",
        LongerRefused: "a slice that is longer than needed is refused",
        StandingChoicesAsked: "7 asks for choices as many as what stands has, although no call reads them",
        ReceivingAtTheEnd: "a certifier's room for an offered level is asked for after the level is judged",
        BuiltRoomAtTheEnd: "a built level's room is asked for after the points are judged",
        RoomFirst: "room for level 0 is asked for before the tables are judged",
        RoomByHundred: "a slice too short for level 0 gets 100",
        NoLength: "100 comes without the length that is needed",
        StartByThree: "start numbers that have no room get 3",
        StartRoomEarly: "start numbers that have no room get 100 once the counts are read",
        TablesByHundred: "a table that has no room gets 100 with the length that it needs",
        TablesRoomLast: "a table that has no room gets 3 after all words are read",
        TablesRoomPlace: "3 of a table that has no room comes with the length that it needs",
        TransitionsRoomAlone: "room is asked for T alone",
        ReadInParts: "the tables are read although the start numbers have no room",
        OutputByText: "27 asks for as many bytes as are written",
        OutputOnRefusal: "a conversion that is refused writes all the same",
        OutputEnded: "a byte 0 is written behind a converted file",
        RefusedConversion: "a refused conversion carries a length",
        RefusalClears: "a refusal clears what is lent to be written",
        PastCleared: "what lies past what is written is cleared",
        PastCopied: "an accepted level's slices are copied over whole",
        NumberKept: "an acceptance is not counted",
        CountsKept: "an accepted level's counts are not written",
        OpeningClearsPoints: "opening clears the weights and values",
        OpeningLeavesRows: "opening leaves the rows as they were",
        OpeningLeavesMask: "opening leaves the mask of level 0's vector as it was",
        MasksUnasked: "masks may have any length",
        MasksLeft: "an acceptance leaves the masks as they were",
        BuiltMasksLeft: "a built level's masks are not written",
        InformedUnasked: "the informed rows may have any length",
        QmdpUnasked: "the QMDP rows may have any length",
        RowsAskedAsRoom: "rows too short for an offer get 9",
        RowsAskedAtOpening: "rows too short for an opening get 7",
        RowsByState: "the rows lie by state and action",
        RowsByLimit: "the rows are packed by 64 states",
        RowsExchanged: "the informed rows lie where the QMDP rows should, and the other way round",
        CeilingsExchanged: "the sawtooth is shown for the informed ceiling, and the other way round",
        RefusedCeilings: "refused totals show ceilings",
        EachBySawtooth: "at many mixtures the upper totals are the sawtooth's",
        RefusedTotals: "refused totals carry numbers",
        EachRoomFirst: "at many mixtures, room for the answers is asked for before the mixtures",
        OneRefusesAll: "a refused mixture among many refuses them all",
        LaterAnswersLeft: "what comes after a refused mixture is not answered",
        NoneRefusesAll: "among many mixtures, one at which no vector counts refuses them all",
        LowsUnasked: "lows may be fewer than the states, as if zeros followed",
        HighsUnasked: "highs may be fewer than the states, as if zeros followed",
        RangesExchanged: "the lows lie where the highs should, and the other way round",
        RefusedWithin: "refused totals within ranges carry numbers",
        RefusedReading: "a refused reading carries counts",
        RefusedWorth: "a refused worth carries ticks",
        AdoptedRoomFirst: "an adopted level's room is asked for before the files agree",
        AdoptedRoomAtTheEnd: "an adopted level's room is asked for after 10, 11 and 12",
        AdoptedRoomForMost: "an adopted level wants room for 1,000 vectors, however many there are",
        RefusedAdoption: "a refused adoption carries a number of vectors",
        AdoptedPointsCounted: "an adopted level's points count among its vectors",
        RefusedOfferCounted: "a refused offer of a list counts as accepted",
        ListStops: "a refused offer ends its list",
        ListUndone: "a refused offer undoes its list",
        FirstBlockOnly: "block 0 of a list is offered each time",
        BlocksByCounts: "each block of a list is as long as its own offer",
        BlocksRunOn: "an offer that is larger than its block goes on in the next one",
        ShortListPasses: "a list's slice that is too short passes",
        LargeBlocksPass: "blocks of over 1,000 vectors or over 32 points pass",
        LargeOfferRefusesAll: "an offer that is larger than its block refuses its list by 9",
        RoomForBlocksAsked: "a certifier must have room for a whole block of a list",
        ListReopens: "a certifier is opened anew before a list",
        ListBeforeCertifier: "a list is asked for its lengths before 7",
        RefusedReplay: "a refused list carries a number of acceptances",
        ListWanted: "a slice of no words is no list, and gets 7",
        ListUntested: "a list that is handed in is not tested",
        ListTestedLate: "a list that is handed in is tested after all else",
        NewTablesBySeven: "new tables that are refused get 7",
        NewByOldCounts: "new tables are read by the counts in force",
        StatesCut: "over 64 states are taken for 64",
        ActionsCut: "over 8 actions are taken for 8",
        ObservationsCut: "over 8 observations are taken for 8",
        VectorsByLimit: "entries and weights are packed by 64 states",
        StateInOtherOrder: "a state is the levels, the points, the vectors",
    }
    many {
        FirstCopied: "an acceptance copies the first 32 vectors only",
        LengthsOfFirst: "a slice is asked for the cells of 32 vectors at most",
        SmallBlocks: "blocks of over 32 vectors are refused",
        SixteenStates: "tables of over 16 states are refused",
        MasksInHalf: "masks are read in 32 bits",
        FirstMoved: "new prices move the first 32 vectors only",
    }
}
