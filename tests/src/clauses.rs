//! What is counted. A clause is one way to be refused; the model says which one it was. An event is something that a calculation or a
//! walk did. A test run that never saw a clause or an event fails.

use crate::numbers::NoNumber;

/// Declares an enum whose cases stand in groups, each case with a text.
macro_rules! cases {
    ($enum:ident in $kind:ty { $($group:literal { $($case:ident $text:literal,)* })* }) => {
        #[derive(Clone, Copy, PartialEq, Eq, Debug)]
        pub enum $enum { $($($case,)*)* }

        impl $enum {
            pub const ALL: &'static [$enum] = &[$($($enum::$case,)*)*];

            pub fn group(self) -> $kind {
                match self { $($($enum::$case => $group,)*)* }
            }

            pub fn text(self) -> &'static str {
                match self { $($($enum::$case => $text,)*)* }
            }
        }
    };
}

cases!(Clause in u64 {
    1 {
        OperationCutOff "a number of an operation is cut off",
        OperationTooLong "a number of an operation is too long",
        OperationNotShortest "a number of an operation is not shortest",
        CalculationCutOff "a number of a calculation is cut off",
        CalculationTooLong "a number of a calculation is too long",
        CalculationNotShortest "a number of a calculation is not shortest",
        NestCutOff "a number of a nest is cut off",
        NestTooLong "a number of a nest is too long",
        NestNotShortest "a number of a nest is not shortest",
    }
    2 {
        UnknownOperation "unknown operation",
        OpenBase "open: base",
        DimensionRegister "dimension: register",
        DimensionOffsetBelow "dimension: offset below its range",
        DimensionOffsetAbove "dimension: offset above its range",
        DimensionSize "dimension: size",
        DimensionStrideBelow "dimension: stride below its range",
        DimensionStrideAbove "dimension: stride above its range",
        ModifierRegister "modifier: register",
        ModifierTarget "modifier: target",
        ModifierParameter "modifier: parameter",
        ModifierBehaviour "modifier: behaviour",
        ModifierDisplacement "modifier: displacement",
        EndRegister "end: register",
        RunLoopRegister "run: loop register",
        RunCountZero "run: no calculation",
        RunCountAbove "run: more than 16 calculations",
        CalculationOperation "calculation: operation above 11",
        CalculationDestination "calculation: destination",
        CalculationFirst "calculation: first source",
        CalculationSecond "calculation: second source",
        CopyDiffers "calculation: copy with two sources",
        SumDiffers "calculation: sum with two sources",
        SmallestDiffers "calculation: smallest with two sources",
        LargestDiffers "calculation: largest with two sources",
        FirstLargestDiffers "calculation: first largest with two sources",
        BytesAfterRun "bytes after run",
        NestWidth "nest: width code",
        NestLoopsZero "nest: no loop",
        NestLoopsAbove "nest: more than 7 loops",
        NestCoupled "nest: coupled loop",
        NestOperationZero "nest: operation 0",
        NestOperationAbove "nest: operation above 7",
        NestCount "nest: count",
        NestTermBelow "nest: term below its range",
        NestTermAbove "nest: term above its range",
        NestFirstBase "nest: base of the first source",
        NestSecondBase "nest: base of the second source",
        NestDestinationBase "nest: base of the destination",
        NestStrideBelow "nest: stride below its range",
        NestStrideAbove "nest: stride above its range",
        BytesAfterNest "bytes after a nest",
    }
    3 {
        HeaderLowBits "bits 6-0 are not 0001011",
        HeaderBits21 "bits 21-20 are not 00",
        HeaderBits26 "bits 26-25 are not 00",
        HeaderUncoupled "uncoupled, and bits 29-27 are not 000",
        HeaderSeven "coupled, and bits 29-27 are 111",
    }
    4 {
        HeaderM "m set",
        HeaderInds "inds set",
        HeaderBoth "m and inds set",
    }
    5 {
        OpenConfiguring "open: register being configured",
        OpenOpen "open: register open",
        DimensionPlain "dimension: register plain",
        DimensionOpen "dimension: register open",
        DimensionFinished "dimension: register finished",
        ModifierPlain "modifier: register plain",
        ModifierOpen "modifier: register open",
        ModifierFinished "modifier: register finished",
        EndPlain "end: register plain",
        EndOpen "end: register open",
        EndFinished "end: register finished",
        FirstConfiguring "calculation: first source being configured",
        SecondConfiguring "calculation: second source being configured",
        DestinationConfiguring "calculation: destination being configured",
    }
    6 {
        EighthDimension "an eighth dimension",
        NinthModifier "a ninth modifier",
        NinthTerm "nest: a ninth nonzero term",
    }
    7 {
        ModifierNoDimension "modifier with no dimension yet",
        TargetNotBelow "target not below its owner",
        EndNoDimension "end with no dimension",
        CoupledMissing "coupled dimension missing",
    }
    8 {
        Low "low below 0",
        High "high above 4,096",
        NestLow "nest: low below 0",
        NestHigh "nest: high above 4,096",
    }
    9 {
        Product "product above 1,048,576",
        NestProduct "nest: product above 1,048,576",
    }
    10 {
        FirstStore "store stream as first source",
        SecondStore "store stream as second source",
        DestinationLoad "load stream as destination",
    }
    11 {
        FirstFinished "first source finished",
        SecondFinished "second source finished",
        DestinationFinished "destination finished",
    }
    12 {
        WidthOfSources "widths of the sources differ",
        WidthOfStore "width of the store stream differs",
    }
    13 {
        LanesOfSources "lanes of the sources differ",
        LanesOfStore "lanes exceed the store chunk",
    }
    14 {
        FirstLane0Below "first source: lane 0 below memory",
        FirstLane0Above "first source: lane 0 above memory",
        FirstLaneBelow "first source: a lane above 0 is the first outside, below memory",
        FirstLaneAbove "first source: a lane above 0 is the first outside, above memory",
        SecondLane0Below "second source: lane 0 below memory",
        SecondLane0Above "second source: lane 0 above memory",
        SecondLaneBelow "second source: a lane above 0 is the first outside, below memory",
        SecondLaneAbove "second source: a lane above 0 is the first outside, above memory",
        DestinationLane0Below "destination: lane 0 below memory",
        DestinationLane0Above "destination: lane 0 above memory",
        DestinationLaneBelow "destination: a lane above 0 is the first outside, below memory",
        DestinationLaneAbove "destination: a lane above 0 is the first outside, above memory",
    }
    15 {
        VectorLength "vector length not allowed",
        MemoryLength "memory length not allowed",
    }
    16 {
        LoopPlain "loop register plain",
        LoopConfiguring "loop register being configured",
        LoopStoreOpen "loop register an open store stream",
        LoopStoreFinished "loop register a finished store stream",
        LoopNotNamed "no calculation names the loop register as a source",
    }
    17 {
        NoRoom "no room for the translated sheet",
    }
    18 {
        NoLanesSmallest "no lanes for smallest",
        NoLanesLargest "no lanes for largest",
        NoLanesFirstLargest "no lanes for first largest",
    }
});

cases!(Event in &'static str {
    "calculations" {
        CopyDone "copy completed",
        AddDone "add completed",
        SubtractDone "subtract completed",
        AndDone "and completed",
        OrDone "or completed",
        XorDone "xor completed",
        SmallerDone "signed smaller completed",
        LargerDone "signed larger completed",
        SumDone "sum completed",
        SmallestDone "signed smallest completed",
        LargestDone "signed largest completed",
        FirstLargestDone "first largest completed",
        Width1 "lanes of 1 byte moved",
        Width2 "lanes of 2 bytes moved",
        Width4 "lanes of 4 bytes moved",
        Width8 "lanes of 8 bytes moved",
    }
    "8 to 11" {
        FoldWidth1 "over lanes of 1 byte",
        FoldWidth2 "over lanes of 2 bytes",
        FoldWidth4 "over lanes of 4 bytes",
        FoldWidth8 "over lanes of 8 bytes",
        FoldOneLane "over a single lane",
        FoldChunk "over a chunk of all lanes",
        FoldAtEnd "over a chunk cut by the end of the stream",
        FoldCoupled "over a chunk cut by the end of a coupled pass",
        FoldPlain "over more than one lane of a plain register",
        FoldInPlace "over more than one lane of a plain register, which is also the destination",
        FoldOntoLanes "into another plain register that held more than one lane",
        FoldStored "into a store stream",
        FoldBehindOutside "into a store stream, with an element outside behind the one written",
        SumNone "a sum over no lanes",
        SumNoneStored "a sum over no lanes, stored",
        SumWraps "a sum that wraps",
        SmallestBySign "a smallest that is not the smallest without signs",
        LargestBySign "a largest that is not the largest without signs",
        LargestNegative "a largest of more than one lane, all negative",
        FirstLargestBySign "a first largest that is another lane without signs",
        FirstLargestTie "a first largest with an equal lane behind it",
        FirstLargestLast "a first largest in the last lane of more than one",
        FoldSourceOutside "14 of the source",
        FoldStoreOutside "14 of the element to be written",
        FoldBothOutside "14 of the source, with the element to be written outside too",
        NoLanesOutside "18, with the element to be written outside",
        NoLanesUnusable "5, 10 or 11 of the destination, where 18 would apply too",
        NoLanesWidth "12, where 18 would apply too",
        NoLanesStore "13, where 18 would apply too",
    }
    "sources" {
        ReadTwiceNamed "a load stream named twice where two sources are allowed, read once",
        ReadTwoStreams "two load streams read in one calculation",
        SourcePlain "a plain source with lanes",
        SourceNone "a plain source without lanes",
        DestinationIsSource "a plain register as source and destination",
    }
    "stores" {
        StoreWhole "a store of a whole chunk",
        StorePart "a store of fewer lanes than its chunk",
        StoreNone "a store of no lanes",
        StoreOverlaps "a store onto bytes read in the same calculation",
        StoreTwice "a store of two lanes onto one byte",
        StoreBehindOutside "a store of some lanes, with an element outside behind them in its chunk",
        StoreNoneOutside "a store of no lanes, with an element outside in its chunk",
    }
    "outside" {
        TwiceOutside "a load stream named twice, outside",
        BothOutside "both sources outside, the second in a lower lane",
        SourceAndStoreOutside "a source and the store outside, the store in a lower lane",
        InsideAgain "a lane outside, and one behind it inside",
    }
    "chunks" {
        ChunkFull "a chunk of all lanes",
        ChunkAtEnd "a chunk cut by the end of the stream",
        ChunkCoupled1 "a chunk cut by the end of a pass of dimension 1",
        ChunkCoupled2 "a chunk cut by the end of a pass of dimension 2",
        ChunkCoupled3 "a chunk cut by the end of a pass of dimension 3",
        ChunkCoupledAbove "a chunk cut by the end of a pass of a dimension above 3",
        ChunkOverPasses "a chunk over more than one pass of dimension 1",
        ChunkInsideCoupled "a chunk that ends inside its coupled pass",
        StoreInsideCoupled "a store that ends inside its coupled pass",
    }
    "flags" {
        FlagsNone "an open stream with elements moved and all flags clear",
        FlagsSome "an open stream with some flags set",
        FlagSkipsEmpty "a flag set because the later passes are empty",
        FlagWaitsEmpty "a flag clear because a coupled pass is to come, though no element is",
        FlagsBeforeElement "an open stream with some flags set before its first element",
    }
    "empty passes" {
        EmptyChunk "a chunk of no lanes read",
        EmptyCoupled1 "of dimension 1",
        EmptyCoupled2 "of dimension 2",
        EmptyCoupledAbove "of a dimension above 2",
        EmptyOutermost "of the outermost dimension",
        EmptyFirst "the first chunk",
        EmptyLast "the last chunk, after chunks with lanes",
        EmptyBetween "a chunk between two with lanes",
        EmptyTwice "two chunks in a row",
        EmptyOnly "all chunks of a stream",
        EmptyBoth "chunks of two streams in one calculation",
        EmptyWithPlain "a chunk, and a plain source without lanes",
        EmptySum "a sum over a chunk of no lanes",
        EmptySumStored "a sum over a chunk of no lanes, stored",
        EmptySumOutside "14 of the element to be written, of a sum over a chunk of no lanes",
        EmptyNoLanes "18 at a chunk of no lanes",
        EmptyAgainstLanes "13 of a chunk of no lanes and a source with lanes",
        StorePassesEmpty "a store stream moved past one by a chunk of no lanes",
        StorePassesEmptyPlain "a store stream moved past one by a plain source without lanes",
        StorePassesFirst "a store stream moved past one before its first element",
        StorePassesTwice "a store stream moved past two in a row",
        StoreFinishedEmpty "a store stream finished by one",
        StoreBeforeEmpty "a store that completes its pass, and stays before an empty one",
        StoreNoneStays "a store of no lanes at a coupled pass with elements, which stays there",
        StoreAtEmptyRefused "13 of lanes for a store stream at one",
        StoreAtEmptyFold "13 of a single lane for a store stream at one",
        NoPass "a coupled stream finished at end, since no pass is reached",
        OpenEmptyOnly "open refused with 5 on an open stream of no element",
        NestEmpty "a nest whose sheet reads a chunk of no lanes",
        NestEmptyOnly "a nest whose sheet reads chunks of no lanes only",
    }
    "states" {
        FinishedByMove "a stream finished by its last chunk",
        FinishedAtEnd "a stream finished at end",
        OpenedAgain "a finished register opened anew",
    }
    "loops" {
        ModifiedSize "an element under a modified size",
        ModifiedOffset "an element under a modified offset",
        ModifiedStride "an element under a modified stride",
        TwoOwners "an element under one parameter modified by two owners",
        SevenDimensions "an element of seven dimensions moved",
        EightModifiers "an element under eight modifiers moved",
    }
    "runs" {
        LoopFinishedNoPass "a run over a finished loop register",
        LoopFinishesInBody "calculations completed after the loop register finished",
        Passes2 "a run of two passes or more",
        Passes100 "a run of a hundred passes or more",
        Passes10000 "a run of ten thousand passes or more",
        Calculations16 "a pass of sixteen calculations",
        LeftConfiguring "a register left being configured",
        EmptySheet "an empty sheet",
        NoRun "a sheet without run, not refused",
    }
});

/// How often each clause was hit, and how often after a completed pass.
pub struct Hits {
    pub clauses: Vec<u64>,
    pub later: Vec<u64>,
    pub events: Vec<u64>,
}

impl Hits {
    pub fn none() -> Hits {
        Hits { clauses: vec![0; Clause::ALL.len()], later: vec![0; Clause::ALL.len()], events: vec![0; Event::ALL.len()] }
    }

    pub fn refused(&mut self, clause: Clause, passes: u64) {
        self.clauses[clause as usize] += 1;
        if passes > 0 {
            self.later[clause as usize] += 1;
        }
    }

    pub fn saw(&mut self, seen: &Seen) {
        for &event in Event::ALL {
            if seen.has(event) {
                self.events[event as usize] += 1;
            }
        }
    }

    /// The events of a sheet, once more, as those of a nest.
    pub fn saw_nest(&mut self, seen: &Seen) {
        self.events[Event::NestEmpty as usize] += u64::from(seen.has(Event::EmptyChunk));
        self.events[Event::NestEmptyOnly as usize] += u64::from(seen.has(Event::EmptyOnly));
    }
}

/// The events of one sheet.
#[derive(Clone, Default)]
pub struct Seen(u128);

const _: () = assert!(Event::ALL.len() <= 128);

impl Seen {
    pub fn mark(&mut self, event: Event) {
        self.0 |= 1 << event as u128;
    }

    pub fn mark_if(&mut self, holds: bool, event: Event) {
        if holds {
            self.mark(event);
        }
    }

    pub fn has(&self, event: Event) -> bool {
        self.0 >> event as u128 & 1 == 1
    }
}

impl Clause {
    /// The refusal's number.
    pub fn number(self) -> u64 {
        self.group()
    }

    /// Whether a calculation of a later pass can be refused so. Being configured, and load or store, do not change during a run, so 5
    /// and 10 come in the first pass or never.
    pub fn can_come_later(self) -> bool {
        matches!(self.number(), 11..=14 | 18)
    }

    pub fn of_operation(no: NoNumber) -> Clause {
        match no {
            NoNumber::CutOff => Clause::OperationCutOff,
            NoNumber::TooLong => Clause::OperationTooLong,
            NoNumber::NotShortest => Clause::OperationNotShortest,
        }
    }

    pub fn of_calculation(no: NoNumber) -> Clause {
        match no {
            NoNumber::CutOff => Clause::CalculationCutOff,
            NoNumber::TooLong => Clause::CalculationTooLong,
            NoNumber::NotShortest => Clause::CalculationNotShortest,
        }
    }

    pub fn of_nest(no: NoNumber) -> Clause {
        match no {
            NoNumber::CutOff => Clause::NestCutOff,
            NoNumber::TooLong => Clause::NestTooLong,
            NoNumber::NotShortest => Clause::NestNotShortest,
        }
    }
}
