//! What can be wrong with a lateness finder.

crate::faults::faults! { LatenessFault:
    /// Takes a script of 255 numbers.
    TakesShortScripts,
    /// Takes a script of more than 256 numbers.
    TakesLongScripts,
    /// Takes any plan of 92 numbers.
    TakesAnyPlan,
    /// Takes a plan of too many ticks.
    TakesTooManyTicks,
    /// Takes a plan with a pad of 375.
    TakesOneTickOfPadLess,
    /// Takes a plan with any pad from 276 on, as before E9.
    TakesOldPads,
    /// Refuses a plan of 32 windows.
    RefusesTheLastWindow,
    /// Answers 12 before 11.
    PlanBeforeLengths,
    /// Answers 18 before 11.
    DomainBeforeLengths,
    /// Answers 18 before 12.
    DomainBeforePlan,

    /// Refuses an undeclared domain with 4.
    UndeclaredIsFour,
    /// Looks at three bits of a domain.
    CutsToThreeBits,
    /// Looks at the low byte of a domain.
    CutsToAByte,
    /// Takes a declared domain without windows.
    TakesNoWindows,
    /// Takes an undeclared domain for one whose windows are right.
    TakesUndeclared,
    /// Refuses windows of 4,000 ticks.
    RefusesTheShortest,
    /// Refuses windows of 20,000 ticks.
    RefusesTheLongest,
    /// Takes windows of 3,999 ticks.
    TakesOneTickLess,
    /// Takes windows of 20,001 ticks.
    TakesOneTickMore,
    /// Takes windows of any length up to 20,000 ticks.
    TakesShortWindows,
    /// Takes windows of any length from 4,000 ticks.
    TakesLongWindows,
    /// Looks at the first of the domain's windows.
    LooksAtTheFirst,
    /// Looks at the last of the domain's windows.
    LooksAtTheLast,
    /// Takes a domain if one of its windows will do.
    LooksForAny,
    /// Looks at the windows of all domains.
    LooksAtAll,
    /// Looks at all 32 places for windows.
    LooksAtUnused,
    /// Looks at 16 bits of a length.
    CutsLengths,

    /// Answers no companion.
    NoCompanion,
    /// Answers the count of domains as companion of 18.
    CompanionIsTheCount,
    /// Answers the domain beside 12.
    CompanionBesideTwelve,
    /// Answers the domain beside 11.
    CompanionBesideEleven,
    /// Answers the domain where nothing is refused.
    CompanionBesideNothing,
    /// Tells ticks beside 18.
    TellsBesideARefusal,
    /// Tells the ticks in the companion's place.
    TellsInTheSecond,
    /// Tells the ticks in the fourth number.
    TellsInTheFourth,
    /// Says ended, as a run would.
    SaysEnded,
    /// Lets the fourth number stand.
    KeepsTheFourth,
    /// Lets the answer stand beside a refusal.
    SilentOnRefusals,
    /// Lets the answer stand beside 11.
    SilentOnLengths,
    /// Writes what fits of an answer of another length.
    WritesShortAnswers,
    /// Returns 0 where it answers a refusal.
    ReturnsNothing,
    /// Returns the ticks.
    ReturnsTheTicks,

    /// Tells one tick more.
    OneMore,
    /// Tells one tick less.
    OneLess,
    /// Tells the least pad.
    TellsTheLeastPad,
    /// Tells the plan's pad.
    TellsThePad,
    /// Tells what is left of the pad.
    TellsWhatIsLeft,
    /// Tells the papers' figure of every domain.
    TellsThePapers,
    /// Counts the tick in which the last op begins.
    CountsTheWholeOp,
    /// Counts from the last op's end.
    ForgetsTheOp,
    /// Counts until the kernel's sets are empty.
    ForgetsL1,
    /// Leaves the kernel's sets out.
    ForgetsTheKernel,
    /// Counts one tick for each dirty line.
    OneTickEach,
    /// Counts two ticks for each line of the kernel's sets.
    TwoTicksEach,
    /// Leaves the kernel entry line out of L2.
    ForgetsTheEntryLine,
    /// Counts all boxes that L2 can hold, beside the dearest message.
    CountsAllBoxes,
    /// Takes the kernel entry line in L1 for dirty.
    EntryLineIsDirty,
    /// Takes the box in L1 for clean.
    BoxIsClean,
    /// Lets a message replace nothing dirty.
    ReplacesNothing,
    /// Lets a message replace one dirty line.
    ReplacesOne,
    /// Takes the dearest op for every domain's.
    ReplacesAlways,

    /// Takes every domain's colours for the first ones.
    ColoursFromZero,
    /// Takes four neighbouring colours from a multiple of four for the same indexes.
    ColoursByBlocks,
    /// Counts four dirty lines for each colour.
    ColoursWithoutLimit,
    /// Counts sixteen dirty lines for every domain.
    ColoursOfAll,
    /// Takes the kernel's indexes for the first four.
    KernelComesFirst,
    /// Overlooks rights to receive.
    SendsAlone,
    /// Overlooks rights to send.
    ReceivesAlone,
    /// Sees domain 0's right to send for every domain.
    RightsOfTheFirst,
    /// Sees a right wherever any domain has one.
    RightsOfAny,
    /// Overlooks domain 7.
    ForgetsTheEighth,
    /// Sees no rights.
    NoRights,
    /// Knows of no denied messages in the run's first window.
    NothingIsDenied,
    /// Ends with a compute, behind messages through as many boxes as L2 holds.
    ComputesLast,
    /// Ends with a write.
    WritesLast,

    /// Counts until L1 is empty, as before E9.
    ForgetsTheTouch,
    /// Takes the touch for a hit in L1.
    TouchHitsL1,
    /// Takes the touch for a hit in L2.
    TouchHitsL2,
    /// Lets the touch replace a dirty line.
    TouchReplaces,
    /// Leaves the touch of the run's last switch out, where no other one counts.
    LastIsNotTouched,
    /// Takes every window to start with empty caches.
    EveryWindowIsBare,
    /// Takes every window to start with line 60 in both caches.
    EveryWindowIsTouched,
    /// Takes the run's first window for domain 0's.
    DomainZeroLeads,
    /// Takes the owner of a pass's last window for that of the run's first.
    TheLastLeads,
    /// Ends with a message wherever there is a right.
    MessageLastAnyway,
    /// Counts the boxes to send through alone, where all of them count.
    BoxesToSendAlone,
    /// Counts the boxes to receive through alone, where all of them count.
    BoxesToReceiveAlone,
    /// Counts two boxes between the same domains once.
    BoxesByPartner,
    /// Counts more boxes than an L2 set holds.
    BoxesWithoutLimit,
    /// Counts three boxes at most.
    BoxesUpToThree,
    /// Counts one box at most.
    BoxesUpToOne,
    /// Counts the last box as dirty beside the line that took its place.
    BoxBesideItsPlace,

    /// Hands no script back.
    KeepsTheScript,
    /// Clears the script beside 18.
    ClearsBesideEighteen,
    /// Clears the script beside 12.
    ClearsBesideTwelve,
    /// Clears a script of another length.
    ClearsBesideEleven,
    /// Clears the script's first number beside any refusal.
    ClearsTheFirst,
    /// Lets the buffer stand behind the number that ends the script.
    KeepsTheRest,
    /// Does not end the script.
    KeepsTheEnd,
    /// Writes 255 numbers.
    KeepsThe256th,
    /// Puts an op behind the number that ends the script.
    GoesOnBehindTheEnd,
    /// Fills the script up with numbers that no op gives.
    FillsUp,

    /// Begins the last op one tick early.
    OneTickEarly,
    /// Begins the last op one tick late, which is in the next window.
    OneTickLate,
    /// Fits the script to the last of the domain's windows.
    FitsTheLast,
    /// Fits the script to the plan's first window.
    FitsThePlansFirst,
    /// Fits the script to a window of 4,000 ticks.
    FitsTheShortest,
    /// Hands the script back that empty caches need.
    FitsABareStart,
    /// Hands the script back that caches with line 60 in them need.
    FitsATouchedStart,
    /// Hands the script of the colours from 0 back.
    LinesFromZero,
    /// Hands the script of the colours one further on back.
    LinesFurtherOn,
    /// Leaves the last line clean.
    ReadsALine,
    /// Leaves one line out.
    LeavesALine,
    /// Leaves out the line with the kernel entry line's index.
    LeavesTheTwelfth,
    /// Writes reads as writes and writes as reads.
    SwapsReadAndWrite,
    /// Writes the lines before it sends its first message.
    MessageBeforeTheLast,
    /// Ends with a denied message.
    DeniedAtTheEnd,
    /// Ends with a compute in the script alone.
    ComputesAtTheEnd,
    /// Sends where it should receive.
    SendsToTheSender,
    /// Computes for more ticks than an op can.
    ComputesTooLong,
    /// Leaves out the first op.
    LosesTheFirst,
    /// Leaves out the last op.
    LosesTheLast,
    /// Begins with the number that ends a script.
    BeginsWithAnEnd,
    /// Writes a hundred ops at most.
    CutsAtAHundred,
}

impl LatenessFault {
    /// Those whose ticks some window exceeds.
    pub const TOO_LOW: [LatenessFault; 18] = [
        LatenessFault::OneLess,
        LatenessFault::ForgetsTheOp,
        LatenessFault::ForgetsL1,
        LatenessFault::ForgetsTheKernel,
        LatenessFault::OneTickEach,
        LatenessFault::ForgetsTheEntryLine,
        LatenessFault::BoxIsClean,
        LatenessFault::ReplacesNothing,
        LatenessFault::SendsAlone,
        LatenessFault::ReceivesAlone,
        LatenessFault::NoRights,
        LatenessFault::ComputesLast,
        LatenessFault::ForgetsTheTouch,
        LatenessFault::TouchHitsL2,
        LatenessFault::MessageLastAnyway,
        LatenessFault::BoxesToSendAlone,
        LatenessFault::BoxesUpToThree,
        LatenessFault::BoxesUpToOne,
    ];
}
