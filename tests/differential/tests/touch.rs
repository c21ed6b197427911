//! The line that a switch touches before it waits: document 02, E9. Worlds that no run need
//! have reached, whose next step is a switch, mostly one that takes all of the least pad, and
//! runs from fresh starts whose windows are looked at where they start.

use pirkvezo_differential::compare::Pair;
use pirkvezo_differential::engine::{under_test, Engine, OldBoard, Reference};
use pirkvezo_differential::generate::late_switch::late_switch_world;
use pirkvezo_differential::generate::lists::random_world;
use pirkvezo_differential::kept::keep;
use pirkvezo_differential::latest::windows::ticks_late;
use pirkvezo_differential::seed::cases;
use pirkvezo_differential::timeline::Timeline;
use pirkvezo_differential::world::{Call, World};
use std::fmt::Display;
use std::io::Write;

/// What was compared.
#[derive(Debug, Default)]
struct Count {
    calls: u64,
    switches: u64,
    /// Switches after which not a tick of the pad was left.
    longest: u64,
    /// Those among them that were the run's last.
    last: u64,
}

impl Count {
    /// Makes a call with both engines, which must agree and must not refuse it.
    fn call(&mut self, pair: &mut Pair, call: &Call, case: &dyn Display) {
        let number = pair.call(call);
        let number = number.unwrap_or_else(|difference| panic!("{case}: {difference}"));
        assert_eq!(number, 0, "{case}: {call:?} was refused");
        self.calls += 1;
    }

    /// Makes a call whose first step is a switch, and looks at how long that takes.
    fn switch(&mut self, pair: &mut Pair, call: &Call, case: &dyn Display) {
        let before = pair.world();
        let timeline = Timeline::of(&before.plan).expect("a possible plan");
        let span = timeline.window(before.state[0]).expect("a window");
        let is_longest = span.end + ticks_late(before, span) == span.next;
        let is_last = before.state[0] + 1 == timeline.count();
        self.call(pair, call, case);
        self.switches += 1;
        self.longest += u64::from(is_longest);
        self.last += u64::from(is_longest && is_last);
    }

    /// Prints what was compared, past the test harness.
    fn print(&self, test: &str) {
        let _ = writeln!(std::io::stderr(), "{test}: {self:?}");
    }

    /// Asserts that one in four switches took all of the pad, and one in twelve was such a one
    /// and the run's last.
    fn assert_long(&self, test: &str) {
        self.print(test);
        assert!(4 * self.longest > self.switches, "{test}: {self:?}");
        assert!(12 * self.last > self.switches, "{test}: {self:?}");
    }
}

/// Asserts that L1 and the kernel's sets hold line 60 alone or, after the end, nothing.
fn assert_touched(world: &World, case: &dyn Display) {
    let timeline = Timeline::of(&world.plan).expect("a possible plan");
    let mut due = [0; 32];
    if world.state[0] < timeline.count() {
        [due[12], due[16]] = [61, 61];
    }
    let held = world.cache[..16].iter().chain(&world.cache[16 + 4 * 60..]);
    assert!(held.eq(&due), "{case}: {:?}", world.cache);
}

/// One switch, and then some way on or to the end.
#[test]
fn late_switches() {
    let other = under_test();
    let mut count = Count::default();
    for (case, mut rng) in cases("late switches", 6_000) {
        let mut pair = Pair::new(&Reference, &*other, late_switch_world(&mut rng));
        let single = match rng.one_in(2) {
            true => Call::Step,
            false => Call::Run(1),
        };
        count.switch(&mut pair, &single, &case);
        assert_touched(pair.world(), &case);
        for limit in [rng.below(40), u64::MAX] {
            count.call(&mut pair, &Call::Run(limit), &case);
        }
        assert_touched(pair.world(), &case);
        for domain in 0..pair.world().plan[2] {
            count.call(&mut pair, &Call::Log(domain), &case);
        }
    }
    count.assert_long("late switches");
}

/// The switch is the first of many steps of one call.
#[test]
fn runs_from_late_switches() {
    let other = under_test();
    let mut count = Count::default();
    for (case, mut rng) in cases("runs from late switches", 4_000) {
        let mut pair = Pair::new(&Reference, &*other, late_switch_world(&mut rng));
        let limit = rng.pick(&[2, 3, 20, 200, u64::MAX]);
        count.switch(&mut pair, &Call::Run(limit), &case);
    }
    count.assert_long("runs from late switches");
}

/// The same where one domain's part is all that is lent of the log.
#[test]
fn kept_runs_from_late_switches() {
    let other = under_test();
    let mut count = Count::default();
    for (case, mut rng) in cases("kept runs from late switches", 4_000) {
        let whole = late_switch_world(&mut rng);
        let (world, kept) = keep(&whole, rng.place(whole.plan[2] as usize));
        let mut pair = Pair::new(&Reference, &*other, world);
        let limit = rng.pick(&[1, 2, 20, u64::MAX]);
        count.switch(&mut pair, &Call::RunKept(kept, limit), &case);
        count.call(&mut pair, &Call::RunKept(kept, u64::MAX), &case);
    }
    count.assert_long("kept runs from late switches");
}

/// A world whose next switch takes as long as any can: the plan's pad is the least, one domain
/// has lines at every L1 index, and this window is over.
fn longest(run: u32, completed: u64, near: u16, way: usize) -> World {
    let text = format!(
        "(pad 376)\n(run {run})\n(domain 0(share 966)(may 1))\n(domain 1(share 34)(may))\n\
         (window 0(length 10))\n(window 0(length 1))\n"
    );
    let mut world = World::blank(64);
    for call in [Call::Read(text.into_bytes()), Call::FreshStart] {
        world.accept(&Reference, &call).expect("a good text");
    }
    let timeline = Timeline::of(&world.plan).expect("windows");
    let span = timeline.window(completed).expect("a window");
    world.state[..2].copy_from_slice(&[completed, span.end + 212]);
    for index in 0..16 {
        world.cache[usize::from(index)] = 32_768 + index + 1;
    }
    world.cache[12] = 32_768 + near + 1;
    for set in 60..64 {
        let mut ways = [1, 2, 3, 4].map(|above| set as u16 + 64 * above + 1);
        if let (60, Some(held)) = (set, ways.get_mut(way)) {
            *held = 61;
        }
        world.cache[16 + 4 * set..][..4].copy_from_slice(&ways);
    }
    world
}

/// With the least pad there is not a tick left, and with one tick less of it the plan is
/// refused: at each place of a run, with line 60 dirty in L1 or another line there, and with
/// it at each place of its set or at none.
#[test]
fn the_least_pad_is_tight() {
    let other = under_test();
    let mut count = Count::default();
    for (run, completed) in [(1, 0), (1, 1), (3, 0), (3, 1), (3, 2), (3, 4), (3, 5)] {
        for near in [60, 124, 12, 28, 44] {
            for way in 0..5 {
                let case = format!("{run}, {completed}, {near}, {way}");
                let world = longest(run, completed, near, way);
                let mut pair = Pair::new(&Reference, &*other, world.clone());
                count.switch(&mut pair, &Call::Step, &case);
                assert_touched(pair.world(), &case);
                assert_eq!(pair.world().state[1], world.state[1] - 212 + 376, "{case}");
                for pad in [276, 375] {
                    let mut short = world.clone();
                    short.plan[0] = pad;
                    let mut pair = Pair::new(&Reference, &*other, short);
                    for call in [Call::FreshStart, Call::Step, Call::Run(0), Call::Log(0)] {
                        let number = pair.call(&call);
                        let number = number.unwrap_or_else(|what| panic!("{case}: {what}"));
                        assert_eq!(number, 12, "{case}");
                        count.calls += 1;
                    }
                }
            }
        }
    }
    assert_eq!(count.longest, count.switches);
    count.print("the least pad");
}

/// Single steps from a fresh start to the end: behind every switch but the last a window starts
/// with line 60, at the tick that the plan gives.
#[test]
fn starts_of_windows() {
    let other = under_test();
    let mut count = Count::default();
    for (case, mut rng) in cases("starts of windows", 600) {
        let mut world = random_world(&mut rng);
        world.plan[1] = world.plan[1].min(4);
        let mut pair = Pair::new(&Reference, &*other, world);
        count.call(&mut pair, &Call::FreshStart, &case);
        assert!(pair.world().cache.iter().all(|held| *held == 0), "{case}");
        let timeline = Timeline::of(&pair.world().plan).expect("windows");
        while pair.world().state[0] < timeline.count() {
            let completed = pair.world().state[0];
            count.call(&mut pair, &Call::Step, &case);
            if pair.world().state[0] == completed {
                continue;
            }
            count.switches += 1;
            let start = match timeline.window(completed + 1) {
                Some(span) => span.start,
                None => timeline.ticks(),
            };
            assert_eq!(pair.world().state[1], start, "{case}");
            assert_touched(pair.world(), &case);
        }
    }
    count.print("starts of windows");
    assert!(count.switches > 1_000, "{count:?}");
}

/// Both boards touch line 60 by their own access, which finds nothing to put out: where the
/// next step is a switch, they leave the same.
#[test]
fn on_the_old_board() {
    for (case, mut rng) in cases("late switches on both boards", 2_000) {
        let world = late_switch_world(&mut rng);
        let mut worlds = [world.clone(), world];
        let boards: [&dyn Engine; 2] = [&Reference, &OldBoard];
        for (world, board) in worlds.iter_mut().zip(boards) {
            let made = world.accept(board, &Call::Step);
            made.unwrap_or_else(|what| panic!("{case}: {what}"));
        }
        assert_eq!(worlds[0].first_difference(&worlds[1]), None, "{case}");
        assert_touched(&worlds[0], &case);
    }
}
