//! What can be wrong with lines that go back through L2: document 02, E7.

use crate::faults::faults;

faults! {
    BoardFault:
    /// Seeks its line first and writes the other one after that.
    WritesAfterSearch,
    /// Puts the written line behind all others of its set.
    WritesToTheBack,
    /// Writes clean lines too.
    WritesClean,
    /// Writes clean lines too, and charges for them.
    ChargesForClean,
    /// Charges 8 ticks for a written line.
    ChargesTwice,
    /// Charges nothing for a written line.
    ChargesNothing,
    /// Writes no line to L2: the board before E7.
    WritesNothing,
    /// Puts the written line into the set of the line that is asked for.
    WritesToAskedSet,
    /// Writes dirty lines to L2 when L1 is flushed.
    FlushWrites,
    /// Writes dirty lines to L2 when L1 is flushed, but for those of the kernel.
    FlushWritesOwn,
    /// Writes a line only if its set holds it.
    MovesOnly,
    /// Writes a line only if its set lacks it.
    PutsInOnly,
    /// Writes a line only into a set with room.
    PutsInWithRoom,
    /// Drops the first line of a full set and not its last.
    DropsFirst,
    /// Drops the last line of any set that lacks the line.
    DropsEarly,
    /// Moves a line by one place only.
    MovesByOne,
    /// Lets the line that is sought keep its place, though it is in L2.
    SoughtStays,
    /// Leaves the dirty mark on a line that goes to L2.
    KeepsMark,
    /// Leaves the line that replaces a dirty one dirty as well.
    LeavesDirt,
    /// Writes a line back when it is hit in L1.
    WritesOnHit,
    /// Writes back for reads alone.
    OnReadsOnly,
    /// Writes back for writes alone.
    OnWritesOnly,
    /// Writes back for a missed line alone.
    OnMissesOnly,
    /// Writes back for a found line alone.
    OnHitsOnly,
    /// Writes back lines of the domain's own alone.
    OwnLinesOnly,
    /// Writes back lines of the kernel alone.
    KernelLinesOnly,
    /// Writes back lines of the asked line's own set alone.
    SameSetOnly,
    /// Writes back lines of other sets than that of the asked line alone.
    OtherSetsOnly,
    /// Writes nothing back for line 60.
    NotForTheGate,
    /// Writes nothing back for the line of a box.
    NotForBoxes,
    /// Writes nothing back for a message that is denied.
    NotWhereDenied,
    /// Drops a line of another colour's set with each line that it writes.
    CrossesColours,
}
