//! Dirty lines that are replaced in L1 and go back through L2, on lent tables: document
//! 02, E7. Each comparison counts how often E7 shows in it, so that it cannot become
//! hollow.

use pirkvezo_differential::compare::Pair;
use pirkvezo_differential::engine::{under_test, Engine, OldBoard, Reference};
use pirkvezo_differential::generate::lists::{random_call, random_world};
use pirkvezo_differential::generate::put_out::put_out_world;
use pirkvezo_differential::generate::scatter::scatter;
use pirkvezo_differential::kept::keep;
use pirkvezo_differential::seed::cases;
use pirkvezo_differential::world::{Call, World};
use std::fmt::Display;
use std::io::Write;

/// What was compared, and in how much of it E7 showed.
#[derive(Debug, Default)]
struct Count {
    worlds: u64,
    calls: u64,
    /// The calls that the old board made too, and those in which it left something else.
    tried: u64,
    shown: u64,
}

impl Count {
    /// Makes a call with both engines, which must agree.
    fn call(&mut self, pair: &mut Pair, call: &Call, case: &dyn Display) {
        let number = pair.call(call);
        let number = number.unwrap_or_else(|difference| panic!("{case}: {difference}"));
        assert_eq!(number, 0, "{case}: {call:?} was refused");
        self.calls += 1;
    }

    /// Makes a call with both engines and with the old board.
    fn try_call(&mut self, pair: &mut Pair, call: &Call, case: &dyn Display) {
        let mut old = pair.world().clone();
        self.call(pair, call, case);
        let made = old.accept(&OldBoard, call);
        made.unwrap_or_else(|what| panic!("{case}: {what}"));
        self.tried += 1;
        self.shown += u64::from(old != *pair.world());
    }

    /// Prints what was compared, past the test harness, and asserts that E7 showed in so
    /// many hundredths of the calls that were tried.
    fn assert_shown(&self, test: &str, hundredths: u64) {
        let Count {
            worlds,
            calls,
            tried,
            shown,
        } = self;
        let _ = writeln!(
            std::io::stderr(),
            "{test}: {worlds} worlds, {calls} calls compared, E7 shows in {shown} of {tried}"
        );
        assert!(100 * shown >= hundredths * tried, "{test}: {self:?}");
    }
}

/// Up to twelve single steps, all in one window.
#[test]
fn single_steps() {
    let other = under_test();
    let mut count = Count::default();
    for (case, mut rng) in cases("single steps, put out", 6_000) {
        let mut pair = Pair::new(&Reference, &*other, put_out_world(&mut rng));
        let window = pair.world().state[0];
        count.worlds += 1;
        for _ in 0..12 {
            count.try_call(&mut pair, &Call::Step, &case);
            if pair.world().state[0] != window {
                break;
            }
        }
    }
    count.assert_shown("single steps, put out", 40);
}

/// Runs of any length, then to the end, and all logs.
#[test]
fn runs() {
    let other = under_test();
    let mut count = Count::default();
    for (case, mut rng) in cases("runs, put out", 6_000) {
        let mut pair = Pair::new(&Reference, &*other, put_out_world(&mut rng));
        count.worlds += 1;
        let limit = rng.pick(&[1, 2, 5, 16, 60, u64::MAX]);
        count.try_call(&mut pair, &Call::Run(limit), &case);
        count.call(&mut pair, &Call::Run(rng.below(30)), &case);
        count.call(&mut pair, &Call::Run(u64::MAX), &case);
        for domain in 0..pair.world().plan[2] {
            count.call(&mut pair, &Call::Log(domain), &case);
        }
    }
    count.assert_shown("runs, put out", 60);
}

/// Runs that keep one domain's log: often the log of another domain than the one that puts
/// lines out.
#[test]
fn kept_runs() {
    let other = under_test();
    let mut count = Count::default();
    for (case, mut rng) in cases("kept runs, put out", 3_000) {
        let whole = put_out_world(&mut rng);
        let (world, kept) = keep(&whole, rng.place(whole.plan[2] as usize));
        let mut pair = Pair::new(&Reference, &*other, world);
        count.worlds += 1;
        let limit = rng.pick(&[1, 2, 5, 16, 60, u64::MAX]);
        count.try_call(&mut pair, &Call::RunKept(kept, limit), &case);
        count.call(&mut pair, &Call::RunKept(kept, u64::MAX), &case);
    }
    count.assert_shown("kept runs, put out", 60);
}

/// All ways in which up to four of these lines can stand in a set.
fn arrangements(lines: &[u16]) -> Vec<Vec<u16>> {
    let one_longer = |set: &Vec<u16>| -> Vec<Vec<u16>> {
        let others = lines.iter().filter(|line| !set.contains(line));
        others.map(|line| [&set[..], &[*line]].concat()).collect()
    };
    let mut all = vec![Vec::new()];
    let mut longest = all.clone();
    for _ in 0..4 {
        longest = longest.iter().flat_map(one_longer).collect();
        all.extend(longest.clone());
    }
    all
}

/// Six lines of a set, of which one is dirty in L1, and an op that asks for a line with
/// their L1 index.
struct Meeting {
    lines: [u16; 6],
    asked: u16,
    /// The op as a script holds it.
    op: u32,
}

/// Six lines of one set.
fn of_set(set: u16) -> [u16; 6] {
    [0, 1, 2, 3, 4, 62].map(|above| set + 64 * above)
}

fn read(asked: u16) -> u32 {
    0x10_0000 | u32::from(asked)
}

fn write(asked: u16) -> u32 {
    0x20_0000 | u32::from(asked)
}

fn meetings() -> Vec<Meeting> {
    let meeting = |set, asked, op| Meeting {
        lines: of_set(set),
        asked,
        op,
    };
    let mut all = Vec::new();
    // Each line of the same set; sets 0 and 31.
    for set in [0, 31] {
        for asked in of_set(set) {
            all.push(meeting(set, asked, read(asked)));
            all.push(meeting(set, asked, write(asked)));
        }
    }
    // A line of another set, own and own; the kernel's lines and an own one.
    all.push(meeting(16, 0, read(0)));
    all.push(meeting(0, 48, write(48)));
    for index in 12..16 {
        all.push(meeting(48 + index, index, read(index)));
    }
    // A message, which is denied or not: for line 60, and for the line of box 0 to 1.
    let (denied, sent) = (0x40_0000 | 1 << 16, 0x30_0000 | 1 << 16 | 5);
    for set in [60, 12, 28, 44] {
        all.push(meeting(set, 60, denied));
        all.push(meeting(set, 60, sent));
    }
    for set in [61, 13, 29, 45] {
        all.push(meeting(set, 125, sent));
    }
    all
}

/// Domain 0, which runs, has the colours 0 to 13 and may send to domain 1.
fn two_domains(engine: &dyn Engine) -> World {
    let text = "(pad 376)\n(run 1)\n(domain 0(share 966)(may 1))\n(domain 1(share 34)(may))\n\
                (window 0(length 400))\n";
    let mut world = World::blank(64);
    for call in [Call::Read(text.as_bytes().to_vec()), Call::FreshStart] {
        world.accept(engine, &call).expect("a good text");
    }
    world
}

/// Every order of up to four of six lines in a set, and each of the six dirty in L1. The
/// line that is asked for is one of them, or is second in a set of its own.
#[test]
fn every_arrangement() {
    let other = under_test();
    let blank = two_domains(&Reference);
    let mut count = Count::default();
    for Meeting { lines, asked, op } in meetings() {
        let own_set = asked % 64 == lines[0] % 64;
        for set in arrangements(&lines) {
            for dirty in lines.into_iter().filter(|line| *line != asked) {
                let mut world = blank.clone();
                world.scripts[0] = op;
                if !own_set {
                    let ways = &mut world.cache[16 + 4 * usize::from(asked % 64)..];
                    ways[..2].copy_from_slice(&[(asked ^ 64) + 1, asked + 1]);
                }
                let ways = &mut world.cache[16 + 4 * usize::from(lines[0] % 64)..];
                for (way, line) in ways.iter_mut().zip(&set) {
                    *way = line + 1;
                }
                world.cache[usize::from(dirty % 16)] = 32_768 + dirty + 1;
                let mut pair = Pair::new(&Reference, &*other, world);
                count.worlds += 1;
                count.try_call(
                    &mut pair,
                    &Call::Step,
                    &format!("{set:?}, {dirty}, {asked}"),
                );
            }
        }
    }
    count.assert_shown("every arrangement", 70);
}

/// From a fresh start both boards leave the same after every call.
#[test]
fn from_a_fresh_start_nothing_shows() {
    for (case, mut rng) in cases("both boards from a fresh start", 3_000) {
        let mut pair = Pair::new(&Reference, &OldBoard, random_world(&mut rng));
        let mut call = Call::FreshStart;
        for _ in 0..40 {
            let number = pair.call(&call);
            number.unwrap_or_else(|difference| panic!("{case}: {difference}"));
            call = match random_call(&mut rng, pair.world()) {
                // A reading would change the plan, which stays the same in a list.
                Call::Read(_) => Call::Step,
                other => other,
            };
        }
    }
}

/// E7 shows on tables that are merely possible too, though seldom.
#[test]
fn on_scattered_tables_it_shows() {
    let mut shown = 0;
    for (case, mut rng) in cases("both boards, scattered", 4_000) {
        let mut world = random_world(&mut rng);
        scatter(&mut rng, &mut world);
        let mut old = world.clone();
        for (world, board) in [
            (&mut world, &Reference as &dyn Engine),
            (&mut old, &OldBoard),
        ] {
            let made = world.accept(board, &Call::Run(3));
            made.unwrap_or_else(|what| panic!("{case}: {what}"));
        }
        shown += u64::from(world != old);
    }
    assert!(shown > 40, "{shown}");
}
