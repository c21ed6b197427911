//! How late a window can end, found by going through all that the caches can hold:
//! document 02, E6, with the touch of its E9.
//!
//! What L1 and the kernel's L2 sets hold at a window's start is its [`Start`], whatever
//! other domains did. From there every op of the domain is tried on the machine's own
//! caches, and again on whatever that leaves, until nothing new comes up. A dirty line
//! that is put out is written back (E7) to where it stands already: its own access left
//! it in front of its L2 set, and any other line of that set has its L1 index and so
//! would have put it out. Three things are left out, and none of them is ever later:
//!
//! - **Ops.** Of the accesses to one L1 index only those to a line that neither cache
//!   holds are tried. Any other takes fewer ticks, and leaves the same or changes
//!   nothing. So do shorter computes and barred lines beside the longest compute. An
//!   L2 set holds 4 of its 64 lines, so there always is one that neither cache holds.
//! - **Caches.** Two tables are taken for the same where [`Standing`] is, which tells
//!   all that a switch counts. What an op makes of it follows from the standing too:
//!   messages touch two L1 indexes, that of the kernel entry line and that of the
//!   boxes, and elsewhere it matters only how many lines are dirty. Boxes that L2
//!   lacks are as good as each other, and so are those that it holds, but for one
//!   that L1 holds too, which then is the first of its set.
//! - **Time.** Each op is taken to be its window's last and to begin in the last tick.
//!   Had it begun earlier, it would be done earlier, and one that is done before the
//!   window's end is no later than a compute behind it. There is time for what is
//!   found: the moves before the last one are over before the last tick of the
//!   shortest window, which is looked at, and computing takes up the rest, with at
//!   most 100 ops in the longest window.

use crate::cache::{Access, Cache, L1, TABLE};
use crate::geometry::Line;
use crate::limits;
use crate::tenant::{Move, Reach, Tenant};
use std::collections::{BTreeMap, BTreeSet};
use std::sync::Mutex;

/// What L1 and the kernel's L2 sets hold when a window starts.
#[derive(Clone, Copy, Debug, PartialEq, Eq, PartialOrd, Ord)]
pub enum Start {
    /// Nothing: the run's first window, behind a fresh start.
    Bare,
    /// The kernel entry line alone, in both: any other window, behind a switch.
    Touched,
}

impl Start {
    /// Caches that hold just that.
    pub(crate) fn caches(self) -> [u16; TABLE] {
        let mut caches = [0; TABLE];
        if self == Start::Touched {
            let mut cache = Cache::over(&mut caches).expect("a cache table");
            cache.access(Line::GATE, Access::Read);
        }
        caches
    }
}

/// The latest end of a window, and how it comes about.
#[derive(Clone, Debug, PartialEq, Eq)]
pub struct Found {
    /// The ticks from the window's end until the switch has made its touch.
    pub ticks: u64,
    /// The moves of the window, of which the last begins in its last tick. They are
    /// as few as can be.
    pub moves: Vec<Move>,
}

/// What is found for a domain's windows of one start. Domains of the same reach have
/// the same moves, so each reach is gone through once.
pub fn found_for(tenant: &Tenant, start: Start) -> Found {
    static KNOWN: Mutex<BTreeMap<(Reach, Start), Found>> = Mutex::new(BTreeMap::new());
    let mut known = KNOWN.lock().expect("no search has failed");
    let found = known.entry((tenant.reach(), start));
    found.or_insert_with(|| search(tenant, start)).clone()
}

/// All that tells how late a window ends, now or after more ops.
#[derive(Clone, Copy, Debug, PartialEq, Eq, PartialOrd, Ord)]
struct Standing {
    /// What L1 holds at the indexes of the kernel entry line and of the boxes.
    shared: [Held; 2],
    /// How many lines are dirty at the other indexes.
    dirty: usize,
    /// How many lines the L2 sets of the kernel entry line and of the boxes hold.
    kernel: [usize; 2],
}

#[derive(Clone, Copy, Debug, PartialEq, Eq, PartialOrd, Ord)]
enum Held {
    /// Nothing, or a clean line of the domain's own.
    Clean,
    /// A dirty line of its own.
    Dirty,
    /// The kernel's: clean if it is the entry line, dirty if it is a box.
    Kernel,
}

impl Standing {
    fn of(caches: &mut [u16; TABLE]) -> Self {
        let cache = Cache::over(caches).expect("a cache table");
        let kernel = kernel_lines();
        let shared = kernel.map(|line| match cache.near(line.index()) {
            (Some(held), _) if held.set() == line.set() => Held::Kernel,
            (_, true) => Held::Dirty,
            (_, false) => Held::Clean,
        });
        let is_shared = |index: &usize| kernel.iter().any(|line| line.index() == *index);
        let others = (0..L1).filter(|index| !is_shared(index));
        Standing {
            shared,
            dirty: others.filter(|index| cache.near(*index).1).count(),
            kernel: kernel.map(|line| cache.count(line.set())),
        }
    }
}

/// The kernel entry line, and a box's line, which has the set and the index of all.
fn kernel_lines() -> [Line; 2] {
    [Line::GATE, Line::of_box(0, 1)]
}

/// Caches that some moves leave, which moves, and the ticks that these take.
struct Node {
    caches: [u16; TABLE],
    moves: Vec<Move>,
    busy: u64,
}

/// Goes through all standings, breadth first, from those caches on.
pub(crate) fn search(tenant: &Tenant, start: Start) -> Found {
    let all_moves = tenant.moves();
    let shortest = u64::from(*limits::LATEST.start());
    let mut nodes = vec![Node {
        caches: start.caches(),
        moves: Vec::new(),
        busy: 0,
    }];
    let mut met = BTreeSet::from([Standing::of(&mut start.caches())]);
    // A window without ops.
    let mut found = Found {
        ticks: switch(&start.caches()),
        moves: Vec::new(),
    };
    let mut at = 0;
    while at < nodes.len() {
        for step in &all_moves {
            let Node {
                mut caches, busy, ..
            } = nodes[at];
            let before = nodes[at].moves.len();
            let last = tenant.play(&mut caches, tenant.op(*step, before)).ticks;
            let moves = || [&nodes[at].moves[..], &[*step]].concat();
            // The op begins one tick before the end.
            let ticks = last - 1 + switch(&caches);
            if ticks > found.ticks {
                assert!(busy < shortest, "{before} moves take {busy} ticks");
                found = Found {
                    ticks,
                    moves: moves(),
                };
            }
            if met.insert(Standing::of(&mut caches)) {
                let (moves, busy) = (moves(), busy + last);
                nodes.push(Node {
                    caches,
                    moves,
                    busy,
                });
            }
        }
        at += 1;
    }
    found
}

/// The ticks that a switch takes from these caches, before the pad.
pub(crate) fn switch(caches: &[u16; TABLE]) -> u64 {
    let mut caches = *caches;
    Cache::over(&mut caches).expect("a cache table").switch()
}
