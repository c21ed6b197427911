//! What can be wrong with the line that a switch touches, and with the pad that leaves time
//! for it: document 02, E9.

use crate::faults::faults;

faults! {
    TouchFault:
    /// Touches nothing: the switch before E9.
    TouchesNothing,
    /// Touches before both flushes.
    TouchesFirst,
    /// Touches between the two flushes.
    TouchesBetween,
    /// Touches by a write.
    TouchesByAWrite,
    /// Touches line 61.
    TouchesLine61,
    /// Touches another line of line 60's set.
    TouchesLine124,
    /// Leaves line 60 in L1 alone.
    TouchesL1Alone,
    /// Leaves line 60 in L2 alone.
    TouchesL2Alone,
    /// Touches nothing where the same domain goes on.
    NotForTheSame,
    /// Touches nothing where the next domain may use no box.
    NotForTheMute,
    /// Touches nothing before the first window of a pass.
    NotForAPass,
    /// Touches where the window before had line 60 in L2, and there alone.
    WhereItWasAlone,
    /// Does not empty line 60's set before.
    KeepsTheSet,
    /// Does not empty L1 of line 60 before.
    KeepsTheLine,

    /// Takes 101 ticks for the touch.
    ChargesOneMore,
    /// Takes 104 ticks for the touch, as if it replaced a dirty line.
    ChargesForDirt,
    /// Takes 105 ticks for the touch, as a denied message does.
    ChargesAMessage,
    /// Takes nothing for the touch.
    ChargesNothing,
    /// Takes one tick for the touch.
    ChargesAHitInL1,
    /// Takes ten ticks for the touch.
    ChargesAHitInL2,
    /// Makes the touch after the pad.
    ChargesAfterThePad,
    /// Pads from the touch on.
    PadsFromTheTouch,
    /// Does not wait for the pad.
    SkipsThePad,

    /// Leaves line 60 after the last switch.
    LastKeeps,
    /// Leaves line 60 in L1 after the last switch.
    LastKeepsL1,
    /// Leaves line 60 in L2 after the last switch.
    LastKeepsL2,
    /// Takes a tick to empty line 60 after the last switch.
    LastChargesATick,
    /// Takes as long to empty line 60 after the last switch as the flushes would.
    LastChargesFlushes,
    /// Empties all of L2 after the last switch.
    LastEmptiesAll,
    /// Touches nothing in the last switch, and so need not empty it.
    LastTouchesNothing,
    /// Empties line 60 at the end of each pass.
    EmptiesEachPass,
    /// Empties line 60 at the end of the first pass alone.
    EmptiesTheFirstPass,

    /// Makes a fresh start with line 60 in both caches.
    StartsTouched,
    /// Makes a fresh start with line 60 in L2.
    StartsWithL2Touched,

    /// Takes a window's start without line 60 for damage, but for the run's first.
    DemandsTheLine,
    /// Takes line 60 in L1 for damage in the run's first window.
    BarsTheLineAtFirst,
    /// Takes a dirty line 60 for damage.
    BarsADirtyLine,
    /// Takes line 60 in L1 for no damage after the end.
    AllowsTheLineAfterTheEnd,
    /// Takes line 60 in L2 for damage after the end.
    BarsTheLineAfterTheEnd,

    /// Reads a pad of 375.
    ReadsOneTickLess,
    /// Reads any pad from 276 on, as before E9.
    ReadsOldPads,
    /// Takes a plan with a pad of 375.
    TakesOneTickLess,
    /// Takes a plan with any pad from 276 on, as before E9.
    TakesOldPads,
}

impl TouchFault {
    /// Those that show nowhere. A switch is over 376 ticks after its window's end at the
    /// latest, and waits for a pad that is no shorter: what it takes less is waited for. Of
    /// the last switch's touch there is nothing left. The latest end of E6 alone tells what a
    /// touch takes, and lateness finders with such a fault are found out.
    pub const SILENT: &[TouchFault] = &[
        TouchFault::ChargesNothing,
        TouchFault::ChargesAHitInL1,
        TouchFault::ChargesAHitInL2,
        TouchFault::LastTouchesNothing,
    ];

    /// Those that show in tables or states that no run from a fresh start comes to, or hardly
    /// ever, and there alone.
    pub const LENT: &[TouchFault] = &[
        TouchFault::KeepsTheSet,
        TouchFault::ChargesOneMore,
        TouchFault::ChargesForDirt,
        TouchFault::ChargesAMessage,
        TouchFault::LastChargesATick,
        TouchFault::LastChargesFlushes,
        TouchFault::DemandsTheLine,
        TouchFault::BarsADirtyLine,
        TouchFault::AllowsTheLineAfterTheEnd,
        TouchFault::BarsTheLineAfterTheEnd,
    ];

    /// Those of plans and texts.
    pub const PADS: &[TouchFault] = &[
        TouchFault::ReadsOneTickLess,
        TouchFault::ReadsOldPads,
        TouchFault::TakesOneTickLess,
        TouchFault::TakesOldPads,
    ];

    /// Those of a switch that shows, in which they break a law of one engine alone.
    pub const SWITCHES: &[TouchFault] = &[
        TouchFault::TouchesNothing,
        TouchFault::TouchesFirst,
        TouchFault::TouchesBetween,
        TouchFault::TouchesByAWrite,
        TouchFault::TouchesLine61,
        TouchFault::TouchesLine124,
        TouchFault::TouchesL1Alone,
        TouchFault::TouchesL2Alone,
        TouchFault::NotForTheSame,
        TouchFault::NotForTheMute,
        TouchFault::NotForAPass,
        TouchFault::WhereItWasAlone,
        TouchFault::KeepsTheSet,
        TouchFault::KeepsTheLine,
        TouchFault::ChargesOneMore,
        TouchFault::ChargesForDirt,
        TouchFault::ChargesAMessage,
        TouchFault::ChargesAfterThePad,
        TouchFault::PadsFromTheTouch,
        TouchFault::SkipsThePad,
        TouchFault::LastKeeps,
        TouchFault::LastKeepsL1,
        TouchFault::LastKeepsL2,
        TouchFault::LastChargesATick,
        TouchFault::LastChargesFlushes,
        TouchFault::LastEmptiesAll,
        TouchFault::EmptiesEachPass,
        TouchFault::EmptiesTheFirstPass,
    ];

    /// Those of a fresh start, which break a law too.
    pub const STARTS: &[TouchFault] = &[TouchFault::StartsTouched, TouchFault::StartsWithL2Touched];

    /// Those by which one domain learns of another.
    pub const LEAKS: &[TouchFault] = &[TouchFault::WhereItWasAlone];

    pub fn is_silent(&self) -> bool {
        Self::SILENT.contains(self)
    }

    /// Whether it breaks a law of one engine alone.
    pub fn is_unlawful(&self) -> bool {
        Self::SWITCHES.contains(self) || Self::STARTS.contains(self)
    }
}
