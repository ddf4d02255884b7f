//! The rules to follow: the document, or the document with one trap.

use std::fmt;

/// Defines the traps with a sentence each: those of the reader, of the converter, of a solver's files, of the judging, of its limits
/// and its order, of large levels, of many states, of lists of transitions, and of lists of events.
macro_rules! traps {
    (
        reading { $($word:ident: $word_text:literal,)* }
        converting { $($outcome:ident: $outcome_text:literal,)* }
        adopting { $($file:ident: $file_text:literal,)* }
        judging { $($name:ident: $text:literal,)* }
        ordering { $($order:ident: $order_text:literal,)* }
        many { $($large:ident: $large_text:literal,)* }
        wide { $($late:ident: $late_text:literal,)* }
        listing { $($word_list:ident: $list_text:literal,)* }
        running { $($event:ident: $event_text:literal,)* }
    ) => {
        /// One deliberate departure from the document.
        #[derive(Clone, Copy, Debug, PartialEq, Eq)]
        pub enum Trap {
            $(#[doc = $word_text] $word,)*
            $(#[doc = $outcome_text] $outcome,)*
            $(#[doc = $file_text] $file,)*
            $(#[doc = $text] $name,)*
            $(#[doc = $order_text] $order,)*
            $(#[doc = $large_text] $large,)*
            $(#[doc = $late_text] $late,)*
            $(#[doc = $list_text] $word_list,)*
            $(#[doc = $event_text] $event,)*
        }

        impl Trap {
            /// Those that only show in model files.
            pub const READING: &'static [Trap] = &[$(Trap::$word,)*];

            /// Those that only show in conversions.
            pub const CONVERTING: &'static [Trap] = &[$(Trap::$outcome,)*];

            /// Those that only show in a solver's files.
            pub const ADOPTING: &'static [Trap] = &[$(Trap::$file,)*];

            /// Those that show in the judging.
            pub const JUDGING: &'static [Trap] = &[$(Trap::$name,)*];

            /// Those about a limit, the first offender or the order of the tests: they only show in calls on what breaks a limit.
            pub const ORDERING: &'static [Trap] = &[$(Trap::$order,)*];

            /// Those that only show in levels of many vectors and in long files.
            pub const MANY: &'static [Trap] = &[$(Trap::$large,)*];

            /// Those that only show in models of over 32 states.
            pub const WIDE: &'static [Trap] = &[$(Trap::$late,)*];

            /// Those that only show where transitions are kept as lists.
            pub const LISTING: &'static [Trap] = &[$(Trap::$word_list,)*];

            /// Those that only show in a list of events: each call is handed its tables.
            pub const RUNNING: &'static [Trap] = &[$(Trap::$event,)*];

            /// What is done wrong.
            pub fn text(self) -> &'static str {
                match self {
                    $(Trap::$word => $word_text,)*
                    $(Trap::$outcome => $outcome_text,)*
                    $(Trap::$file => $file_text,)*
                    $(Trap::$name => $text,)*
                    $(Trap::$order => $order_text,)*
                    $(Trap::$large => $large_text,)*
                    $(Trap::$late => $late_text,)*
                    $(Trap::$word_list => $list_text,)*
                    $(Trap::$event => $event_text,)*
                }
            }
        }
    };
}

traps! {
    reading {
        // Words of the file.
        CommentEndedByCr: "a comment ends at a CR",
        HashInsideWord: "a hash opens a comment only between words",
        FormFeedIsSpace: "VT and FF part words",
        NulEndsFile: "a byte 0 ends the file",
        CaseIgnored: "keywords are read in either case",
        LengthOffByOne: "a file of 32,768 bytes is too long",
        PlaceAtWordEnd: "the place is the offending word's end",
        MissingAtLastWord: "a missing word's place is the end of the last word",
        // Forms and limits of words.
        LimitBeforeForm: "the limit is tested before the form",
        LeadingZeroRefused: "indices and counts have no leading zero",
        LastIndexRefused: "the last index is outside its limit",
        FourthDecimal: "numbers may have one more decimal",
        StartThreeDecimals: "start numbers may have three decimals",
        MinusInProbability: "a minus fits a probability, which is then below its limit",
        MinusZeroRefused: "a reward of minus zero does not fit",
        RewardLowEndOpen: "rewards have no lower limit but their form",
        RewardHighEndOpen: "rewards have no upper limit but their form",
        DiscountAboveOne: "a discount above 1 passes",
        ProbabilityAboveOne: "a probability above 1 passes",
        StartAboveOne: "a start number above 1 passes",
        CountsOneMore: "a count may be one past its limit",
        // Missing parts and exponents.
        WholePartWanted: "a number must have a whole part",
        DecimalsWanted: "a digit must follow a point",
        MissingWholeIsOne: "a missing whole part is 1",
        BarePointIsZero: "a point alone is 0",
        BareExponentIsZero: "an exponent alone is 0",
        EmptyExponent: "an e may stand without a digit after it",
        ExponentTwoDigits: "an exponent may have two digits",
        ExponentFour: "an exponent may be 4",
        ExponentPlus: "an exponent may have a plus",
        CapitalExponent: "a capital E opens an exponent too",
        ExponentSignDropped: "an exponent's minus is dropped",
        ExponentUncounted: "with an exponent a number may have any count of digits",
        NumbersRounded: "a number that is not whole in its unit is rounded down",
        SmallZeroRefused: "zero does not fit where its exponent goes below its unit",
        LimitBeforeExponent: "the limit is tested before the exponent is applied",
        CountsAsNumbers: "counts and indices have the form of numbers",
        // Statements.
        StarMeansZero: "a star stands for index 0",
        RewardIndices: "a reward's last two words may be indices",
        EarlierStatementWins: "an entry that was stated is not superseded",
        StatementsAdd: "a later statement adds to the earlier",
        StartTotalEarly: "the start total is tested before the statements",
        RowTotalEarly: "a row's total is tested with its statement",
        RowsBeforeStart: "5 and 6 of a file are tested before 4",
        UnstatedRowsPass: "a row of zeros in a file passes",
        RowPlaceInFile: "5 and 6 of a file have a row's place",
    }
    converting {
        // What rewards are stated.
        OutcomesRefused: "a reward's last two words must be stars in a file to convert too",
        UnstatedFromBefore: "an outcome that no statement names has what was stated last for its action and state",
        EarlierRewardWins: "an outcome's reward that was stated is not superseded",
        // What is expected.
        ExpectedSightAtStateLeft: "expected rewards take O at the state left",
        ExpectedFirstSight: "expected rewards take the reward of observation 0",
        ExpectedUnweighed: "an expected reward is the mean over all outcomes",
        ExpectedRounded: "an expected reward that is no whole number of ticks is rounded down",
        // The order of the tests.
        TwentySevenLast: "27 is tested last",
        TwentySevenAfterOne: "27 is tested after 1",
        TwentyFiveBeforeSix: "25 is tested before the totals",
        TwentyFiveAtCounts: "25 is tested once the counts are read",
        TwentySixFirst: "26 is tested before 25",
        TwentySixByState: "26 goes first by state, then by action",
        TwentySixPlace: "the place of 26 is state × actions + action",
        // The limits.
        SeventeenWritten: "17 states are written",
        FifteenWritten: "16 states are not written",
        OutputShorter: "27 asks for one byte less",
        // What is written.
        DecimalsCut: "zeros at the end of decimals are not written",
        RewardsUnsigned: "a reward between -1 and 0 is written without its minus",
        ZerosLeftOut: "a reward of 0 is not written",
    }
    adopting {
        // The order of the tests.
        GraphOfAnyLength: "only the alpha file's length is tested",
        SevenBeforeOne: "7 is tested before 1",
        SevenAfterFiles: "7 is tested after 19 and 20",
        EightBeforeFiles: "8 is tested before 19",
        NineBeforeGraph: "over 1,000 vectors get 9 before the graph is read",
        GraphFirst: "the graph is read before the alpha file",
        TwentyFirst: "20 is tested before 19",
        TenAfterEleven: "10 is tested after 11",
        PointsBeforeEntries: "12 is tested before 11",
        TwentyOneAfterEleven: "21 of a solver's files is tested after 11",
        // Words of the two files.
        NodesUnordered: "a node out of order passes",
        NodeTwoDigits: "nodes have at most two digits",
        NodeFourDigits: "nodes may have four digits",
        ActionThreeDigits: "actions may have three digits",
        StarForNone: "a star, or an X, stands for no next node too",
        DecimalPlus: "a decimal may have a plus",
        DecimalSevenDigits: "a decimal may have seven digits before the point",
        ThirteenDecimals: "a decimal may have thirteen digits behind the point",
        DecimalAsTyped: "a decimal may lack its whole part or its decimals",
        // The two files side by side.
        CountsApart: "the files may have different counts",
        ActionsApart: "the files may have different actions",
        // The level.
        LaterHyphen: "a hyphen passes at a later level",
        HyphenRefused: "a hyphen gets 10 at the first level too",
        DecimalTowardsZero: "decimals are rounded towards zero",
        BackupTowardsZero: "an adopted entry's backup is rounded towards zero",
        DecimalUp: "decimals are rounded up",
        DecimalNearest: "decimals are rounded to the nearest tick",
        DecimalInTicks: "decimals are taken for ticks",
        MinusDropped: "a decimal's minus is dropped",
        DecimalAlone: "an entry is its decimal, whatever its backup",
        BackupAlone: "an entry is its backup, whatever its decimal",
        EntriesRaised: "an entry below its range is raised to it",
        AdoptedMasksEmpty: "an adopted level's vectors cover no state",
    }
    judging {
        // The five that the document names.
        DivisionTowardsZero: "entries and worths are rounded towards zero",
        NextStateByState: "the next vector is chosen for each state by itself",
        SightAtStateLeft: "O is taken at the state left",
        RatioOverZeroWeights: "the smallest ratio includes states without weight",
        NegativeGainLifts: "a point above the corners lifts the ceiling",
        // Tables.
        SightRowsFirst: "6 is tested before 5",
        ProbabilityUnlimited: "probabilities in tables have no limit of their own",
        RowsByLimit: "a row's place counts 64 states to an action",
        // Levels.
        WithoutThirteen: "vectors are accepted without their inequality",
        WithoutFourteen: "corners are accepted without their inequality",
        WithoutFifteen: "points are accepted without their inequality",
        AcceptAll: "all levels with fitting counts are accepted",
        RefuseAll: "all levels are refused",
        LaterLevelsWaved: "inequalities are tested at level 1 only",
        NothingStored: "an accepted level is not stored",
        LevelMadeUp: "an accepted level counts twice",
        RefusalChanges: "a refused level is stored",
        RangeOffByOne: "ranges reach one further",
        RangeOfStanding: "an offered level has the standing level's range",
        TotalsBeforeRanges: "12 is tested before 11",
        ValuesTimesHundred: "every point's value has the range of a total of 100",
        ValuesOfRefusedTotals: "11 is tested on points whose total gets 12",
        TotalOfZero: "a point's weights may all be 0",
        TotalOf101: "a point's weights may total 101",
        HundredOnly: "a point's weights must total 100",
        StandingHundredOnly: "7 wants the weights of a standing point to total 100",
        DropOverHundred: "a drop is over 100, not over the state's own weight",
        ChoicesOfOffered: "a choice is compared with the offered vectors' number",
        HundredEarly: "100 levels are said to stand at 99",
        StandingChoicesRead: "7 reads the standing level's choices",
        FreshOnly: "7 refuses any level 0 but the fresh one",
        SumsWrap: "weights are added in 32 bits",
        LargestRatio: "a point's drop is its largest ratio",
        SmallestDrop: "the ceiling takes the smallest drop",
        // Multiples of mixtures.
        DropRoundedUp: "a drop is rounded up",
        LowestTerms: "totals are those of the weights over their largest common divisor",
        // Masks.
        SevenReadsUncovered: "7 tests entries that are not covered",
        ElevenReadsUncovered: "11 tests entries that are not covered",
        ThirteenReadsUncovered: "13 is tested on states that are not covered",
        WithoutTwentyOne: "21 is not tested",
        ThirteenFirst: "21 is tested after 13",
        TwentyOneFirst: "21 is tested before 11",
        EmptyMaskRefused: "a vector that covers no state gets 21",
        ReachedWithoutSight: "21 looks at T alone",
        ReachedSeenAtStateLeft: "21 takes O at the state left",
        ReachedByThousandths: "21 passes over T × O below 1,000",
        MasksPastStates: "masks are stored past the states",
        UncoveredKept: "entries that are not covered are stored as they were offered",
        AllCount: "every vector counts at every mixture",
        SomeWeightCounts: "a vector counts where it covers some of the weight",
        FirstForNone: "where no vector counts, the totals are vector 0's",
        TwentyTwoFirst: "22 is tested before 17",
        MaskedChosen: "the builder chooses vectors that do not cover all states",
        FullMaskExact: "a mask with bits past the states does not cover all",
        BuiltUponNone: "where no vector covers all states, vector 0 is built upon",
        TwentyTwoBeforeTwelve: "22 of the builder is tested before 12",
        // The informed and the QMDP rows.
        RowsKept: "an acceptance does not step the rows",
        QmdpKept: "an acceptance steps the informed rows alone",
        RefusalStepsRows: "a refusal steps the rows",
        RowsRoundedDown: "rows are rounded down",
        RowsTowardsZero: "rows are rounded towards zero",
        RowsInPlace: "a step reads entries of rows that it has itself filled",
        RowsBlind: "informed rows choose what follows once for all observations",
        RowsSightAtStateLeft: "informed rows take O at the state left",
        QmdpForInformed: "QMDP rows pass for informed ones",
        SmallestRowFollows: "the smallest row follows, not the largest",
        SevenForgetsInformed: "7 does not test the informed rows",
        SevenForgetsQmdp: "7 does not test the QMDP rows",
        RowsRangeOfNext: "7 tests the rows by the next level's range",
        InformedInBackups: "corners and points are tested against the lower of both ceilings",
        // Totals.
        SmallestRow: "the informed ceiling is the smallest row's product",
        HigherCeiling: "the upper total is the higher of both ceilings",
        SawtoothAlone: "the upper total is the sawtooth's alone",
        InformedAlone: "the upper total is the informed rows' alone",
        GapOfSawtooth: "the gap is that of the sawtooth",
        LastLargestVector: "the action is that of the last largest vector",
        RangeEndTotals: "totals are the ends of the range",
        LevelZeroEarly: "level 0 is said to stand at 1",
        MillionRefused: "weight 1,000,000 is refused",
        SeventeenFirst: "17 is tested before 16",
        // Totals within ranges of weights.
        LowUnderNegative: "within ranges low × entry counts for negative entries too",
        CornersExchanged: "within ranges low and high are exchanged at corners",
        PointsWithin: "points lower the upper total within ranges",
        RowsWithin: "informed rows lower the upper total within ranges",
        CountsAtLows: "within ranges a vector counts at the lows",
        FirstWithin: "within ranges the lower total is the first vector's that counts",
        SeventeenOfLows: "17 reads the lows",
        TwentyFourLate: "24 is tested after 17",
        TwentyFourFirst: "24 is tested before 16",
        MissingUncompared: "24 passes over a low or a high that is missing",
        // The builder.
        LastLargestChoice: "the last largest vector is chosen",
        LastLargestAction: "the last largest action's vector is kept",
        ExactProducts: "actions are compared by their exact backups",
        CornersRoundedDown: "corners and point values are rounded down",
        EntriesTickLower: "built entries are a tick lower",
        SeventeenPoints: "17 points may be built upon",
        // New prices.
        FallByChangeAlone: "new prices move numbers by the largest change alone, whatever the level",
        RisesOnly: "of the changes of rewards only rises are looked at",
        FallsOnly: "of the changes of rewards only falls are looked at",
        NotHeld: "what new prices move is not held at the end of its range",
        ValuesWithoutTotal: "a point's value rises without its weights' total",
        UncoveredMoved: "entries that are not covered fall too",
        CornersNotRaised: "new prices leave the corners",
        RowsNotRaised: "new prices leave the informed rows",
        QmdpNotRaised: "new prices leave the QMDP rows",
        SevenAfterPrices: "7 is tested after the new tables' 3, 5 and 6",
        TwentyThreeBeforeFive: "23 is tested before the new tables' 5",
        OtherDiscountPasses: "23 passes over the discount",
        OtherSightsPass: "23 passes over O",
        PricesCounted: "new prices count as a level",
        // The worth of a plan graph.
        WorthRoundedOnce: "a worth is rounded once at the end",
        WorthInPlace: "a step reads worths that it has itself filled",
        WorthStepTooFew: "one step less is made than is asked for",
        ReachedNodesOnly: "nodes that are not reached are not tested",
        FiveSteps: "five steps may be asked for",
    }
    ordering {
        // Tables.
        DiscountOneMore: "the discount in tables may be 1,001",
        RewardTickMore: "a reward in tables may be a tick past its limit",
        RowsByState: "5 and 6 go first by state, then by action",
        // What stands.
        SevenForgetsActions: "7 does not test the actions of what stands",
        SevenForgetsEntries: "7 does not test the entries of what stands",
        SevenForgetsCorners: "7 does not test the corners of what stands",
        SevenForgetsValues: "7 does not test the values of points that stand",
        SevenForgetsTotals: "7 does not test the totals of points that stand",
        SevenPassesNone: "7 passes a standing level without vectors",
        SevenPassesPoint: "7 passes 33 standing points",
        SevenPassesLevel: "7 passes a level of 101",
        // What is offered.
        NoVectorPasses: "a level without vectors may be offered",
        PointMorePasses: "33 points may be offered",
        NineBeforeEight: "9 is tested before 8",
        CornersBeforeVectors: "11 takes corners before vectors",
        PointsBeforeCorners: "11 takes points before corners",
        TwentyOneBeforeTwelve: "21 is tested before 12",
        FourteenBeforeThirteen: "14 is tested before 13",
        FifteenBeforeFourteen: "15 is tested before 14",
        LastDangling: "10 names the last vector",
        LastUntotalled: "12 names the last point",
        LastUncovered: "21 names the last vector",
        LastAbove: "13 names the last vector",
        LastCornerBelow: "14 names the last corner",
        LastPointBelow: "15 names the last point",
        // What is asked, and new prices.
        MillionAndOne: "weight 1,000,001 passes",
        ZerosPass: "weights that are all 0 pass",
        TwentyThreeBeforeSix: "23 is tested before the new tables' 6",
        OtherTransitionsPass: "23 passes over T",
        // Plan graphs.
        NodeMorePasses: "33 nodes pass",
        AskedBeforeNodes: "18 tests what is asked before the nodes",
        ActionsBeforeNext: "18 tests the actions of all nodes before the next nodes",
    }
    many {
        ThirtyTwoVectors: "a level has at most 32 vectors",
        ThousandAndOne: "1,001 vectors pass",
        ChoicesInEightBits: "a chosen vector's number is kept in 8 bits",
        HundredRead: "vectors and nodes above 99 are not read",
        SolverFilesAsModel: "a solver's file above 32,768 bytes is refused",
        SolverByteMore: "a solver's file of 4 MiB and one byte passes",
    }
    wide {
        RowsOfFirst: "5 and 6 test the first 128 rows",
        RangesOfHalf: "11 and 7 test the entries of the first 32 states",
        CornersOfHalf: "11 and 7 test the first 32 corners",
        RowCellsOfFirst: "7 tests the first 64 entries of the rows",
        ThirteenOfHalf: "13 tests the first 32 states",
        FourteenOfHalf: "14 tests the first 32 corners",
        LostOfHalf: "21 looks at the first 32 states that are reached",
        WeightsOfHalf: "17 reads the first 32 weights",
        LowsOfHalf: "24 compares the first 32 weights",
        SameByThousand: "23 compares the first 1,000 cells of T",
    }
    listing {
        ColumnsByStateLeft: "a column is that of the state left",
        FallingStates: "columns go by falling state",
        ZerosStored: "zeros are stored in a list",
        EndMissing: "a list does not say where its last column ends",
        OtherListAccepted: "the list of another table is worked from",
        NineBeforeFive: "9 of a list is tested before 3, 5 and 6",
    }
    running {
        OldTablesStay: "after new prices the old tables stay in force",
    }
}

impl fmt::Display for Trap {
    fn fmt(&self, f: &mut fmt::Formatter) -> fmt::Result {
        write!(f, "{:?} ({})", self, self.text())
    }
}

/// The rules to follow. By default these are the document's.
#[derive(Clone, Copy, Debug, Default, PartialEq, Eq)]
pub struct Rules {
    pub trap: Option<Trap>,
}

/// The document.
pub const DOCUMENT: Rules = Rules { trap: None };

impl Rules {
    /// The document with one trap.
    pub fn broken(trap: Trap) -> Rules {
        Rules { trap: Some(trap) }
    }

    /// Whether this trap is in force.
    pub fn has(&self, trap: Trap) -> bool {
        self.trap == Some(trap)
    }

    /// The first of so many that is wrong; the last, if this trap is in force.
    pub(crate) fn offender(&self, count: usize, last: Trap, wrong: impl Fn(usize) -> bool) -> Option<usize> {
        let mut offenders = (0..count).filter(|&at| wrong(at));
        if self.has(last) {
            offenders.last()
        } else {
            offenders.next()
        }
    }

    /// How many of the states are looked at: all, unless this trap wants the first 32.
    pub(crate) fn some_states(&self, n: usize, trap: Trap) -> usize {
        if self.has(trap) {
            n.min(32)
        } else {
            n
        }
    }
}
