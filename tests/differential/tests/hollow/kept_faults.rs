//! What can be wrong with a run that keeps one domain's log: document 02, E8.

crate::faults::faults! { KeptFault:
    /// Takes a part whose bytes are its number only up to 64 bits: 2^61 records in none.
    CutsBytesTo64,
    /// Takes a part whose bytes are its number only up to 32 bits.
    CutsBytesTo32,
    /// Takes a part with bytes left over.
    TakesLeftOver,
    /// Takes a longer part.
    TakesLonger,
    /// Takes a shorter part.
    TakesShorter,
    /// Takes as many bytes as there should be records.
    CountsBytes,
    /// Wants everyone's log.
    WantsTheWhole,
    /// Refuses a part without room.
    RefusesNoRoom,

    /// Answers 12 before the part's length.
    LengthAfterPlan,
    /// Answers 13 before the part's length.
    LengthAfterTables,
    /// Answers 14 before the part's length.
    LengthAfterState,
    /// Answers 4 before the part's length.
    LengthLast,
    /// Answers 14 before 13.
    StateBeforeTables,
    /// Answers 4 before 14.
    DomainBeforeState,
    /// Answers 4 before 13.
    DomainBeforeTables,
    /// Answers 4 before 12.
    DomainBeforePlan,
    /// Answers 4 first.
    DomainFirst,

    /// Looks at the kept domain's count of records alone.
    JudgesOwnCount,
    /// Looks at the other domains' counts of records alone.
    JudgesOtherCounts,
    /// Judges counts by what everyone would have of the part.
    JudgesBySharedRoom,
    /// Lets a count be one more than a part holds.
    JudgesOneMore,
    /// Refuses a part that is full.
    RefusesFull,
    /// Lets all counts go up to 256.
    JudgesBy256,

    /// Takes any of eight domains.
    TakesUndeclared,
    /// Looks at three bits of a domain.
    CutsToThreeBits,
    /// Looks at the low byte of a domain.
    CutsToAByte,
    /// Refuses the last domain.
    RefusesTheLast,
    /// Does not look at the domain if there is no step to do.
    LooksBeforeSteps,
    /// Refuses an undeclared domain with 12.
    UndeclaredIsTwelve,
    /// Refuses an undeclared domain with 18, as latest ends do.
    UndeclaredIsEighteen,
    /// Answers the domain as companion of 4.
    CompanionIsTheDomain,
    /// Answers the count of domains as companion of 4.
    CompanionIsTheCount,

    /// Clears the part beside 4.
    ClearsBesideFour,
    /// Clears the part beside 14.
    ClearsBesideFourteen,
    /// Clears a part of another length.
    ClearsBesideEleven,
    /// Runs first and refuses an undeclared domain then.
    RunsBesideFour,
    /// Lets the answer stand beside 4.
    SilentBesideFour,
    /// Tells steps beside 4.
    TellsBesideFour,

    /// Others never go idle, and their counts go on.
    OthersGoOn,
    /// Others never go idle, and their counts stay.
    OthersGoOnUncounted,
    /// Others are idle all the time.
    OthersStand,
    /// Others go idle one record early.
    OthersStopEarly,
    /// Others go idle one record late.
    OthersStopLate,
    /// Others have room for 256 records.
    OthersHave256,
    /// Others have the part's room between them.
    OthersShareRoom,
    /// Others go idle when they have made so many records in this call.
    OthersCountTheCall,
    /// Others go idle at so many ops of their scripts.
    OthersCountOps,
    /// All go idle when the kept part is full.
    AllStopWithTheKept,
    /// All go idle when they have as many records together as a part holds.
    OneQuotaForAll,
    /// The kept domain never goes idle.
    TheKeptGoesOn,
    /// The kept domain is idle all the time.
    TheKeptStands,

    /// Does not count others' records.
    OthersNotCounted,
    /// Does not count the kept domain's records.
    TheKeptNotCounted,
    /// Counts others' records with the kept domain's.
    CountedWithTheKept,

    /// Stores a record where everyone's log has it.
    StoresAtWholeIndex,
    /// Stores everyone's records, each at its domain's count.
    StoresEveryone,
    /// Stores everyone's records one behind the other.
    StoresInTurn,
    /// Stores from the part's start on in each call.
    StoresFromTheStart,
    /// Stores a record at its op's place in the script.
    StoresAtThePosition,
    /// Stores the records from the part's end down.
    StoresBackwards,
    /// Stores nothing.
    StoresNothing,
    /// Stores the next domain's records.
    StoresTheNext,
    /// Stores domain 0's records.
    StoresTheFirst,
    /// Stores the domain beside the kind.
    StoresTheDomain,
    /// Clears what is behind the records.
    ClearsBehind,
    /// Clears the part before it runs.
    ClearsBefore,

    /// Does one step more.
    OneStepMore,
    /// Does one step less.
    OneStepLess,
    /// Lets steps of others not count for the limit.
    LimitsOwnSteps,
    /// Looks at 32 bits of the limit.
    CutsTheLimit,
    /// Stops when the kept part is full.
    StopsWhenFull,
    /// Stops behind the kept domain's last window.
    StopsWithTheDomain,
    /// Tells the kept domain's steps alone.
    TellsOwnSteps,
    /// Tells ops and no switches.
    TellsOps,
    /// Says ended behind the kept domain's last window.
    EndsWithTheDomain,
    /// Never says ended.
    NeverEnds,
    /// Tells the bytes that were stored.
    TellsTheBytes,
}

impl KeptFault {
    /// Those that show in calls that must be accepted.
    pub const RUNS: &[KeptFault] = &[
        KeptFault::CountsBytes,
        KeptFault::WantsTheWhole,
        KeptFault::RefusesNoRoom,
        KeptFault::JudgesBySharedRoom,
        KeptFault::RefusesFull,
        KeptFault::JudgesBy256,
        KeptFault::RefusesTheLast,
        KeptFault::OthersGoOn,
        KeptFault::OthersGoOnUncounted,
        KeptFault::OthersStand,
        KeptFault::OthersStopEarly,
        KeptFault::OthersStopLate,
        KeptFault::OthersHave256,
        KeptFault::OthersShareRoom,
        KeptFault::OthersCountTheCall,
        KeptFault::OthersCountOps,
        KeptFault::AllStopWithTheKept,
        KeptFault::OneQuotaForAll,
        KeptFault::TheKeptGoesOn,
        KeptFault::TheKeptStands,
        KeptFault::OthersNotCounted,
        KeptFault::TheKeptNotCounted,
        KeptFault::CountedWithTheKept,
        KeptFault::StoresAtWholeIndex,
        KeptFault::StoresEveryone,
        KeptFault::StoresInTurn,
        KeptFault::StoresFromTheStart,
        KeptFault::StoresAtThePosition,
        KeptFault::StoresBackwards,
        KeptFault::StoresNothing,
        KeptFault::StoresTheNext,
        KeptFault::StoresTheFirst,
        KeptFault::StoresTheDomain,
        KeptFault::ClearsBehind,
        KeptFault::ClearsBefore,
        KeptFault::OneStepMore,
        KeptFault::OneStepLess,
        KeptFault::LimitsOwnSteps,
        KeptFault::CutsTheLimit,
        KeptFault::StopsWhenFull,
        KeptFault::StopsWithTheDomain,
        KeptFault::TellsOwnSteps,
        KeptFault::TellsOps,
        KeptFault::EndsWithTheDomain,
        KeptFault::NeverEnds,
        KeptFault::TellsTheBytes,
    ];

    /// Those that leave no trace in a run from a fresh start that is made by one call: there
    /// each count of records is a domain's place in its script, and was 0.
    pub const NOT_FRESH: &[KeptFault] = &[
        KeptFault::JudgesBySharedRoom,
        KeptFault::RefusesFull,
        KeptFault::JudgesBy256,
        KeptFault::OthersCountTheCall,
        KeptFault::OthersCountOps,
        KeptFault::StoresFromTheStart,
        KeptFault::StoresAtThePosition,
    ];

    /// Those by which the kept domain learns of others.
    pub const LEAKS: &[KeptFault] = &[
        KeptFault::OneQuotaForAll,
        KeptFault::CountedWithTheKept,
        KeptFault::StoresEveryone,
        KeptFault::StoresInTurn,
        KeptFault::StoresTheNext,
        KeptFault::StoresTheFirst,
    ];
}
