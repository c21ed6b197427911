//! Scripts whose windows end late, or nearly so late: document 02, E6 and E9.

use super::sketch::Act;
use crate::engine::SCRIPT;
use crate::rng::Rng;

/// What a domain of a flat plan can turn to.
struct Means {
    domain: u32,
    /// For each L1 index that its lines have, one of its sets.
    sets: Vec<u32>,
    /// A message through each of its boxes.
    messages: Vec<Act>,
    /// The lengths of its windows in the order of one pass.
    lengths: Vec<u32>,
    /// Whether the first of them is the run's first window.
    leads: bool,
}

/// What a domain does before the last op of a window, and how many ticks that takes
/// in caches that hold none of its lines and none of the kernel's but line 60.
struct Opening {
    acts: Vec<Act>,
    busy: u32,
}

impl Means {
    /// Those of a declared domain in a possible plan.
    fn of(plan: &[u32], domain: u32) -> Self {
        let own = domain as usize;
        let colours = plan[84 + own];
        let is_own = |set: &u32| colours >> (set / 4) & 1 == 1;
        let sets = (0..16).filter_map(|index| (index..64).step_by(16).find(is_own));
        let others = 0..plan[2];
        let to = others.clone().filter(|to| plan[12 + own] >> to & 1 == 1);
        let from = others.filter(|from| plan[12 + *from as usize] >> domain & 1 == 1);
        let places = 0..plan[3] as usize;
        let windows = places.filter(|place| plan[20 + place] == domain);
        Means {
            domain,
            sets: sets.collect(),
            messages: to
                .map(|to| Act::Send(to, 7))
                .chain(from.map(Act::Receive))
                .collect(),
            lengths: windows.map(|place| plan[52 + place]).collect(),
            leads: plan[20] == domain,
        }
    }

    /// A write for each L1 index that it can have dirty, with lines that lie so many
    /// above the lowest of their sets.
    fn writes(&self, above: u32) -> Vec<Act> {
        let line = |set: &u32| Act::Write(set + 64 * above);
        self.sets.iter().map(line).collect()
    }

    /// Writes alone. None of them replaces a dirty line.
    fn without_messages(&self, above: u32) -> Opening {
        let acts = self.writes(above);
        let busy = 100 * acts.len() as u32;
        Opening { acts, busy }
    }

    /// Messages through so many boxes, or a denied one, and then the same writes. Each
    /// box replaces the one before it, and the last is replaced by a write. The first
    /// message finds line 60 in L1, but for the run's first window.
    fn behind_messages(&self, boxes: usize, above: u32, is_first: bool) -> Opening {
        let boxes = boxes.min(self.messages.len());
        let writes = self.writes(above);
        let last_box = boxes > 0 && self.sets.iter().any(|set| set % 16 == 13);
        let gate = if is_first && self.leads { 100 } else { 1 };
        let messages = match boxes as u32 {
            0 => 5 + gate,
            more => 5 + gate + 100 + (more - 1) * (5 + 1 + 104),
        };
        let busy = messages + 100 * writes.len() as u32 + if last_box { 4 } else { 0 };
        let mut acts = match boxes {
            0 => vec![self.denied()],
            _ => self.messages[..boxes].to_vec(),
        };
        acts.extend(writes);
        Opening { acts, busy }
    }

    /// No domain may receive from itself.
    fn denied(&self) -> Act {
        Act::Receive(self.domain)
    }

    /// One of its messages where it has a right to any.
    fn message(&self) -> Act {
        self.messages.first().copied().unwrap_or(self.denied())
    }
}

impl Opening {
    /// The ops of a window of this length: these, then computing, then a last one that
    /// begins so many ticks before the window's end.
    fn before(self, length: u32, early: u32, last: Act) -> Vec<Act> {
        let mut acts = self.acts;
        let mut idle = length.saturating_sub(early + self.busy);
        while idle > 0 {
            let ticks = idle.min(200);
            acts.push(Act::Compute(ticks));
            idle -= ticks;
        }
        acts.push(last);
        acts
    }
}

/// Scripts that are as late in a domain's first window as can be, one or the other,
/// whatever its colours and its rights are. The domain is one that is told of.
pub fn known_scripts(plan: &[u32], domain: u32) -> [Vec<u32>; 3] {
    let means = Means::of(plan, domain);
    let length = means.lengths[0];
    let longest = Act::Compute(200);
    let late = [
        (means.without_messages(1), means.message()),
        (means.behind_messages(0, 1, true), longest),
        (means.behind_messages(4, 1, true), longest),
    ];
    late.map(|(opening, last)| stored(&opening.before(length, 1, last)))
}

/// A script that tries to be later than another one, which was handed back for this
/// domain: that one with a few changes, or ops for each of the domain's windows in
/// turn, of which the last ones begin close to the window's end.
pub fn late_script(rng: &mut Rng, plan: &[u32], domain: u32, told: &[u32]) -> Vec<u32> {
    let means = Means::of(plan, domain);
    let mut script = match rng.one_in(2) {
        true => told.to_vec(),
        false => stored(&in_each_window(rng, &means)),
    };
    let changes = rng.pick(&[0, 0, 0, 1, 1, 2, 3, 8]);
    for _ in 0..changes {
        change(rng, &means, &mut script);
    }
    script
}

/// Ops for one window after the other, so long as there is room. In a later pass each
/// window has other lines, which the caches lack.
fn in_each_window(rng: &mut Rng, means: &Means) -> Vec<Act> {
    let mut acts = Vec::new();
    let lengths = means.lengths.iter().cycle().zip(0..60);
    for (length, above) in lengths {
        let (boxes, early) = (rng.place(6), rng.pick(&[1, 1, 1, 1, 2, 3, 101]));
        let opening = match rng.one_in(2) {
            true => means.without_messages(above),
            false => means.behind_messages(boxes, above, above == 0),
        };
        let choices = [means.message(), some_message(rng, means), Act::Compute(200)];
        let last = rng.pick(&choices);
        acts.extend(opening.before(*length, early, last));
        if acts.len() > SCRIPT {
            break;
        }
    }
    acts
}

/// Changes a script in one place: another op, a few ticks more or less, two ops
/// swapped, one left out or put in.
fn change(rng: &mut Rng, means: &Means, script: &mut [u32]) {
    let ops = script.iter();
    let ops = ops.take_while(|number| Act::is_stored(**number)).count();
    let place = rng.place(ops.clamp(1, SCRIPT));
    let act = some_act(rng, means).stored();
    match rng.below(6) {
        0 => script[place] = act,
        1 | 2 => nudge(rng, script),
        3 => script.swap(place, rng.place(ops.clamp(1, SCRIPT))),
        4 => script[place..].rotate_left(1),
        _ => {
            script[place..].rotate_right(1);
            script[place] = act;
        }
    }
}

/// Makes the last of the shorter computes, if any, a tick or two longer or shorter.
fn nudge(rng: &mut Rng, script: &mut [u32]) {
    let short = 0x50_0001..0x50_00c8;
    let mut numbers = script.iter_mut();
    let ticks = rng.pick(&[1, 1, 2]);
    if let Some(number) = numbers.rfind(|number| short.contains(*number)) {
        *number = match rng.one_in(2) {
            true => (*number + ticks).min(0x50_00c8),
            false => (*number - ticks).max(0x50_0001),
        };
    }
}

/// An op that is of use to a domain that means to be late.
fn some_act(rng: &mut Rng, means: &Means) -> Act {
    let line = rng.pick(&means.sets) + 64 * rng.within(0..=63);
    let choices = [
        Act::Write(line),
        Act::Write(line),
        Act::Read(line),
        some_message(rng, means),
        means.denied(),
        Act::Compute(rng.within(1..=200)),
    ];
    rng.pick(&choices)
}

fn some_message(rng: &mut Rng, means: &Means) -> Act {
    match means.messages.is_empty() {
        true => means.denied(),
        false => rng.pick(&means.messages),
    }
}

/// A script of the first 256 of these.
fn stored(acts: &[Act]) -> Vec<u32> {
    let mut script: Vec<u32> = acts.iter().map(|act| act.stored()).collect();
    script.resize(SCRIPT, 0);
    script
}
