//! What can be wrong with a writer.

crate::faults::faults! { WriteFault:
    /// Puts a space before each inner bracket.
    SpaceBeforeOpening,
    /// Puts a space behind each opening bracket.
    SpaceBehindOpening,
    /// Puts a space before each closing bracket.
    SpaceBeforeClosing,
    /// Puts a space between two inner brackets.
    SpaceBetweenBrackets,
    /// Puts a space behind the word of an empty list.
    SpaceInEmptyLists,
    /// Puts two spaces where one is due.
    TwoSpaces,
    /// Puts a space before each LF.
    SpaceBeforeLf,
    /// Puts none between a send's word and its recipient.
    NoSpaceInSends,
    /// Ends the last line with an LF.
    LastLf,
    /// Begins with an LF.
    FirstLf,
    /// Sets the run off by an empty line.
    EmptyLineBeforeRun,
    /// Ends lines with CR and LF.
    CrLf,
    /// Puts spaces in the place of LFs.
    NoLf,

    /// Writes 0 as no digit at all.
    ZeroHasNoDigits,
    /// Writes two digits at least.
    TwoDigitsAtLeast,
    /// Writes all ten digits.
    TenDigits,
    /// Writes six digits at most.
    SixDigitsAtMost,
    /// Writes five digits at most.
    FiveDigitsAtMost,
    /// Writes the last digit first.
    LastDigitFirst,

    /// Writes windows before domains.
    WindowsBeforeDomains,
    /// Writes the run before the windows.
    RunBeforeWindows,
    /// Writes the run behind the pad.
    RunBehindPad,
    /// Writes the run last.
    RunLast,
    /// Writes the pad before the run.
    PadBesideRun,
    /// Writes ops before windows.
    OpsBeforeWindows,
    /// Writes the first op of each domain, then the second of each.
    OpsByPlace,
    /// Writes the last domain's ops first.
    LastDomainFirst,
    /// Writes each domain's last op first.
    LastOpFirst,
    /// Writes each domain's ops by kind.
    OpsByKind,
    /// Writes windows by domain.
    SortsWindows,
    /// Writes recipients falling.
    RecipientsFall,
    /// Writes the last recipient first.
    LastRecipientFirst,

    /// Writes the least share that gives as many colours.
    RoundsShares,
    /// Writes the number of colours as a share.
    WritesColours,
    /// Leaves out a run of one pass.
    LeavesOutOneRun,
    /// Leaves out a list without recipients.
    LeavesOutEmptyLists,
    /// Overlooks domain 7 among recipients.
    ForgetsRecipientSeven,
    /// Overlooks the last of several windows.
    ForgetsTheLastWindow,
    /// Overlooks the last op of all.
    ForgetsTheLastOp,
    /// Looks at 255 numbers of each script.
    ForgetsThe256th,
    /// Writes reads as writes and writes as reads.
    SwapsReadAndWrite,
    /// Writes a send's word before its recipient.
    SwapsSends,
    /// Writes a receive's value.
    ReceivesAValue,

    /// Takes a read or a write with another domain for an op.
    TakesLinesOfOthers,
    /// Takes no line past 4,095 for an op's.
    RefusesBarredLines,
    /// Takes a send to any of sixteen domains for an op.
    TakesSendsPastTheEighth,
    /// Takes a receive with a value for an op.
    TakesReceivesOfAValue,
    /// Takes a compute of 0 for an op.
    TakesNoTicks,
    /// Takes a compute of any ticks for an op.
    TakesAnyTicks,
    /// Takes a sixth kind for an op.
    TakesASixthKind,
    /// Takes a send to an undeclared domain, or a receive from one, for no op.
    RefusesUndeclaredOthers,

    /// Looks at nothing behind a script's ops.
    IgnoresBehindEnds,
    /// Lets any number end a script.
    IgnoresTheEnd,
    /// Looks at nothing behind the number that ends a script.
    LooksAtTheEndAlone,
    /// Does not look at a script's last number where that is no op's place.
    IgnoresTheLast,
    /// Refuses ops behind a script's end, and no other numbers.
    LooksForOpsAlone,
    /// Refuses numbers that no op gives, and no others.
    TakesOpsBehindEnds,
    /// Writes ops behind a script's end as if there were none.
    ClosesGaps,
    /// Looks at no undeclared domain's numbers.
    IgnoresUndeclared,
    /// Does not look at domain 7's numbers where it is undeclared.
    IgnoresTheEighth,
    /// Looks at the first number of each undeclared domain.
    LooksAtFirstUndeclared,
    /// Refuses scripts of undeclared domains, and no other numbers.
    LooksForUndeclaredOps,
    /// Writes ops of undeclared domains.
    WritesUndeclared,

    /// Takes any plan of 92 numbers.
    TakesAnyPlan,
    /// Takes a plan of too many ticks.
    TakesTooManyTicks,
    /// Takes a plan with a pad of 375.
    TakesOneTickOfPadLess,
    /// Takes a plan with any pad from 276 on, as before E9.
    TakesOldPads,
    /// Takes a plan with any colour masks.
    TakesAnyMasks,
    /// Takes a plan with numbers in places without use.
    TakesUnusedNumbers,
    /// Refuses a plan of 32 windows.
    RefusesTheLastWindow,
    /// Takes a store of 2,047 numbers.
    TakesShortStores,
    /// Takes a store of more than 2,048 numbers.
    TakesLongStores,

    /// Refuses a text of 32,768 bytes.
    OneByteLess,
    /// Takes a text of 32,769 bytes.
    OneByteMore,
    /// Takes a text of any length.
    NoLimit,
    /// Leaves out the last lines of a text that would be too long.
    CutsToTheLimit,
    /// Refuses a text that would be too long with 1.
    TooLongIsOne,
    /// Refuses a text that would be too long with 17.
    TooLongIsRoom,

    /// Answers 12 for a plan before 11.
    PlanBeforeLengths,
    /// Answers 12 for a store before 11.
    StoreBeforeLengths,
    /// Answers 17 before 11.
    RoomBeforeLengths,
    /// Answers 17 before 12.
    RoomBeforePlan,
    /// Answers 17 before 12 for a store.
    RoomBeforeStore,
    /// Answers 17 before 12 for a text that would be too long.
    RoomBeforeLimit,

    /// Refuses a buffer that is just long enough.
    AsksForOneMore,
    /// Refuses a buffer without room for the longest text.
    AsksForTheMost,
    /// Takes a buffer that is one byte too short.
    TakesOneLess,
    /// Writes what fits into a short buffer, and does not refuse it.
    TakesAnyRoom,
    /// Answers a byte more than is needed beside 17.
    NeedsOneMore,
    /// Answers the length of the longest text beside 17.
    NeedsTheMost,
    /// Answers how many bytes are missing beside 17.
    NeedsTheRest,
    /// Answers the buffer's own length beside 17.
    NeedsTheRoom,
    /// Answers 0 beside 17.
    NeedsNothing,
    /// Answers a length beside 12.
    NeedsBesideTwelve,

    /// Clears the buffer behind the text.
    ClearsTheRest,
    /// Fills the buffer behind the text with spaces.
    FillsWithSpaces,
    /// Puts a 0 behind the text where there is room.
    EndsWithANul,
    /// Puts an LF behind the text where there is room, and does not count it.
    EndsWithAnLf,
    /// Puts the text at the buffer's end.
    PutsItLast,
    /// Tells how much it would write, and writes nothing.
    WritesNothing,
    /// Writes what fits beside 17.
    WritesWhatFits,
    /// Writes what it can beside 12.
    WritesBesideTwelve,
    /// Clears the buffer beside a refusal.
    ClearsBesideARefusal,

    /// Tells the buffer's length as that of the text.
    TellsTheRoom,
    /// Counts an LF behind the text.
    TellsOneMore,
    /// Tells the bytes in the companion's place.
    TellsInTheSecond,
    /// Tells the bytes in the fourth number.
    TellsInTheFourth,
    /// Tells what is left of the buffer in the fourth number.
    TellsTheRest,
    /// Tells no bytes.
    TellsNothing,
    /// Tells the bytes beside 17.
    TellsBesideRoom,
    /// Tells the bytes that would fit beside 17.
    TellsWhatFits,
    /// Tells bytes beside 12.
    TellsBesideTwelve,
    /// Lets the fourth number stand.
    KeepsTheFourth,
    /// Lets the answer stand beside a refusal.
    SilentOnRefusals,
    /// Lets the answer stand beside 11.
    SilentOnLengths,
    /// Writes what fits of an answer of another length.
    WritesShortAnswers,
    /// Returns 0 where it answers a refusal.
    ReturnsNothing,
    /// Returns the number of bytes.
    ReturnsTheBytes,
}
