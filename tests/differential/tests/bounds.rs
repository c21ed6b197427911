//! Bounds of a run's steps: known ones, random ones, refused ones, and runs, lists
//! of calls and windows that keep to them. Document 02, E3.

use pirkvezo_differential::bound::call::BoundCall;
use pirkvezo_differential::bound::compare::compare;
use pirkvezo_differential::bound::runs::{walk, Held, List};
use pirkvezo_differential::bound::subject::Subject;
use pirkvezo_differential::engine::{
    bounder_under_test, under_test, Bounder, Engine, Kept, Reference, ANSWER, PLAN, SCRIPTS,
};
use pirkvezo_differential::generate::bounds::{
    disturb_lengths, narrow_world, random_bound_call, roomy_world, set_lengths, spoil_plan,
    KnownBound,
};
use pirkvezo_differential::generate::disturb::disturb;
use pirkvezo_differential::generate::lists::{random_call, random_world};
use pirkvezo_differential::generate::scatter::scatter;
use pirkvezo_differential::generate::sketch::{Act, Sketch};
use pirkvezo_differential::generate::write::Style;
use pirkvezo_differential::guarded::Guarded;
use pirkvezo_differential::rng::Rng;
use pirkvezo_differential::seed::cases;
use pirkvezo_differential::tally::Tally;
use pirkvezo_differential::world::{Call, World};
use std::fmt::Display;

const REFERENCE: Subject = Subject {
    engine: &Reference,
    bounder: &Reference,
};

/// The number that stores a compute of one tick.
const RUNS: u32 = 0x50_0001;

/// The library beside the reference, and what the calls so far came to.
struct Trial {
    engine: Box<dyn Engine>,
    bounder: Box<dyn Bounder>,
    tally: Tally,
}

impl Trial {
    fn new() -> Self {
        Trial {
            engine: under_test(),
            bounder: bounder_under_test(),
            tally: Tally::default(),
        }
    }

    fn subjects(&self) -> [Subject<'_>; 2] {
        let library = Subject {
            engine: &*self.engine,
            bounder: &*self.bounder,
        };
        [REFERENCE, library]
    }

    /// Makes a call with both; gives the number that both returned, and the
    /// answer.
    fn call(&mut self, call: &BoundCall, context: &dyn Display) -> (u32, Vec<u64>) {
        match compare(self.subjects(), call) {
            Ok((number, after)) => {
                self.tally.note_kind("bound", number);
                (number, after.answer.to_vec())
            }
            Err(difference) => panic!("{context}: {difference}"),
        }
    }

    /// Makes a call that must be told this bound.
    fn tell(&mut self, call: &BoundCall, bound: u64, context: &dyn Display) {
        let told = self.call(call, context);
        assert_eq!(told, (0, vec![0, 0, bound, 0]), "{context}: {call:?}");
    }

    /// Asserts that exactly these numbers were returned, and prints how often.
    fn finish(&self, test: &str, numbers: &[u32]) {
        self.tally.assert_met("bound", numbers);
        self.tally.print(test);
    }
}

/// Two domains, a window of each, run three times; two ops of the first domain and
/// one of the second.
const TEXT: &str = "\
(run 3)
(pad 400)
(domain 0 (share 500) (may 1))
(window 0 (length 90))
(op 0 (read 9))
(op 0 (send 1 5))
(domain 1 (share 250) (may))
(window 1 (length 70))
(op 1 (compute 8))
";

/// That text's plan and scripts, as an engine reads them.
fn read(engine: &dyn Engine) -> BoundCall {
    let mut world = World::blank(0);
    let read = world.accept(engine, &Call::Read(TEXT.into()));
    read.unwrap_or_else(|what| panic!("{what}"));
    BoundCall::new(&world.plan, &world.scripts)
}

/// Asks each bounder by itself about that text with something changed.
fn assert_told(change: impl Fn(&mut BoundCall), due: [u64; ANSWER]) {
    for subject in Trial::new().subjects() {
        let mut call = read(subject.engine);
        change(&mut call);
        let (number, after) = call.made_by(subject.bounder);
        let name = subject.bounder.name();
        assert_eq!(after.answer[..], due, "{name}");
        assert_eq!(u64::from(number), due[0], "{name}");
    }
}

fn assert_bound(change: impl Fn(&mut BoundCall), bound: u64) {
    assert_told(change, [0, 0, bound, 0]);
}

fn assert_refused(change: impl Fn(&mut BoundCall), number: u64) {
    assert_told(change, [number, 0, 0, 0]);
}

#[test]
fn fixed_bounds() {
    assert_bound(|_| {}, 3 + 2 * 3);
    assert_bound(|call| call.scripts.fill(0), 6);
    assert_bound(|call| call.scripts.fill(RUNS), 2_048 + 6);
    assert_bound(|call| call.scripts.fill(u32::MAX), 6);
    // One op more; one behind the end; a script without its first op.
    assert_bound(|call| call.scripts[2] = RUNS, 4 + 6);
    assert_bound(|call| call.scripts[3] = RUNS, 3 + 6);
    assert_bound(|call| call.scripts[0] = 0, 1 + 6);
    // A whole script, one of 255, and one that lacks its first op.
    assert_bound(|call| call.scripts[..256].fill(RUNS), 256 + 1 + 6);
    assert_bound(|call| call.scripts[..255].fill(RUNS), 255 + 1 + 6);
    assert_bound(|call| call.scripts[257..512].fill(RUNS), 2 + 256 + 6);
    assert_bound(|call| call.scripts[513..768].fill(RUNS), 3 + 6);
    // Scripts of domains that the plan does not declare.
    assert_bound(|call| call.scripts[512] = RUNS, 4 + 6);
    assert_bound(|call| call.scripts[1_792..].fill(RUNS), 3 + 256 + 6);
    assert_bound(|call| call.scripts[2_047] = RUNS, 3 + 6);
    // More windows, more often.
    assert_bound(|call| call.plan[1] = 1_000, 3 + 2_000);
    let most = |call: &mut BoundCall| {
        (call.plan[1], call.plan[3]) = (1_000, 32);
        call.plan[52..84].fill(1);
        call.scripts.fill(RUNS);
    };
    assert_bound(most, 34_048);
}

#[test]
fn fixed_refusals() {
    for length in [0, 1, 256, 1_792, 2_047, 2_049, 4_096] {
        assert_refused(|call| call.scripts.set_length(length), 11);
        let both = |call: &mut BoundCall| {
            call.scripts.set_length(length);
            call.plan.fill(0);
        };
        assert_refused(both, 11);
    }
    for length in [0, 1, 91, 93, 184] {
        assert_refused(|call| call.plan.set_length(length), 11);
    }
    assert_refused(|call| call.plan.fill(0), 12);
    assert_refused(|call| call.plan[0] = 276, 12);
    assert_refused(|call| call.plan[0] = 375, 12);
    assert_bound(|call| call.plan[0] = 376, 3 + 2 * 3);
    assert_refused(|call| call.plan[1] = 1_001, 12);
    assert_refused(|call| call.plan[2] = 3, 12);
    assert_refused(|call| call.plan[3] = 33, 12);
    assert_refused(|call| call.plan[91] = 1, 12);
}

#[test]
fn known_bounds() {
    let mut trial = Trial::new();
    for (case, mut rng) in cases("known bounds", 8_000) {
        let known = KnownBound::random(&mut rng);
        trial.tell(&known.call, known.bound, &case);
    }
    trial.finish("known bounds", &[0]);
}

/// What the reader gives: an op for each line, and nothing else.
#[test]
fn bounds_of_texts() {
    let mut trial = Trial::new();
    for (case, mut rng) in cases("bounds of texts", 1_500) {
        let mut sketch = Sketch::random(&mut rng);
        let text = sketch.fitting_text(&mut rng, Style::Tight);
        let mut world = World::blank(0);
        let read = world.accept(&*trial.engine, &Call::Read(text));
        read.unwrap_or_else(|what| panic!("{case}: {what}"));
        let scripts = sketch.members.iter().map(|member| member.script.len());
        let bound = scripts.sum::<usize>() + sketch.windows.len() * sketch.run as usize;
        let call = BoundCall::new(&world.plan, &world.scripts);
        trial.tell(&call, bound as u64, &case);
    }
    trial.finish("bounds of texts", &[0]);
}

#[test]
fn an_end_at_every_place() {
    let mut trial = Trial::new();
    let plan = read(&Reference).plan;
    for place in 0..SCRIPTS {
        let mut store = [RUNS; SCRIPTS];
        store[place] = [0, 1, 0x50_00c9, u32::MAX][place % 4];
        let ops = SCRIPTS - 256 + place % 256;
        trial.tell(&BoundCall::new(&plan, &store), ops as u64 + 6, &place);
    }
    trial.finish("an end at every place", &[0]);
}

/// Every kind with every other domain, and values at their limits: as the third
/// number of a script, behind which nothing ends it.
#[test]
fn numbers_at_their_limits() {
    let mut trial = Trial::new();
    let plan = read(&Reference).plan;
    let values = [0, 1, 2, 199, 200, 201, 255, 256, 257, 456, 65_535];
    for kind in (0..=17).chain([4_095]) {
        for other in 0..16 {
            for value in values {
                let number = kind << 20 | other << 16 | value;
                let script = 256 * (other as usize % 8);
                let mut store = [0; SCRIPTS];
                store[script..script + 256].fill(RUNS);
                store[script + 2] = number;
                let ops = if Act::is_stored(number) { 256 } else { 2 };
                trial.tell(&BoundCall::new(&plan, &store), ops + 6, &number);
            }
        }
    }
    trial.finish("numbers at their limits", &[0]);
}

#[test]
fn impossible_plans() {
    let mut trial = Trial::new();
    for (case, mut rng) in cases("bounds of other plans", 6_000) {
        let mut call = KnownBound::random(&mut rng).call;
        spoil_plan(&mut rng, &mut call.plan);
        trial.call(&call, &case);
    }
    trial.finish("bounds of other plans", &[0, 12]);
}

#[test]
fn random_lengths() {
    let mut trial = Trial::new();
    for (case, mut rng) in cases("bounds, lengths of rows", 12_000) {
        let mut call = random_bound_call(&mut rng);
        disturb_lengths(&mut rng, &mut call);
        let (number, _) = trial.call(&call, &case);
        assert_eq!(number == 11, !call.has_right_lengths(), "{case}");
    }
    trial.finish("bounds, lengths of rows", &[0, 11, 12]);
}

/// Each row in turn, and several at once, shorter, longer and empty; with a plan
/// that is possible and with ones that are 12.
#[test]
fn other_lengths() {
    let mut trial = Trial::new();
    let mut rng = Rng::new(11);
    let good = read(&Reference);
    let changes: [fn(&mut Guarded<u32>); 3] = [|_| {}, |plan| plan.fill(0), |plan| plan[0] = 375];
    for (change, number) in changes.into_iter().zip([0, 12, 12]) {
        for plan in [0, 1, 91, 92, 93, 184] {
            for scripts in [0, 1, 256, 2_047, 2_048, 2_049, 4_096] {
                for answer in [0, 1, 2, 3, 4, 5, 8] {
                    let mut call = good.clone();
                    change(&mut call.plan);
                    set_lengths(&mut rng, &mut call, [plan, scripts, answer]);
                    let right = [plan, scripts, answer] == [PLAN, SCRIPTS, ANSWER];
                    let due = if right { number } else { 11 };
                    assert_eq!(trial.call(&call, &"other lengths").0, due);
                }
            }
        }
    }
    trial.finish("other lengths", &[0, 11, 12]);
}

/// A run from a fresh start, whose limit is the bound.
fn run(subject: Subject, world: &World, context: &dyn Display) -> Held {
    let held = List::start(subject, world.clone()).and_then(List::finish);
    let name = subject.bounder.name();
    held.unwrap_or_else(|what| panic!("{context}: {name}: {what}"))
}

/// The same plan and scripts with logs of several lengths, none too.
#[test]
fn runs_end_within_their_bound() {
    let trial = Trial::new();
    for (case, mut rng) in cases("runs within their bound", 1_500) {
        let mut world = random_world(&mut rng);
        let record = 8 * world.plan[2] as usize;
        let some = rng.place(300) * record + rng.place(record);
        for log in [0, record - 1, record, some, 256 * record] {
            world.log.set_length(log);
            for subject in trial.subjects() {
                run(subject, &world, &case);
            }
        }
    }
}

/// Where every script runs out, the bound is what the run takes, and one step less
/// is too little.
#[test]
fn runs_of_exactly_their_bound() {
    let trial = Trial::new();
    for (case, mut rng) in cases("runs of their bound", 1_500) {
        let mut world = roomy_world(&mut rng);
        for subject in trial.subjects() {
            let Held { bound, steps } = run(subject, &world, &case);
            assert_eq!(steps, bound, "{case}");
            for call in [Call::FreshStart, Call::Run(bound - 1)] {
                assert_eq!(world.call(subject.engine, &call), 0, "{case}");
            }
            assert_eq!(world.answer[..], [0, 0, bound - 1, 0], "{case}");
        }
    }
}

/// So does a run that keeps one domain's log, whichever domain's: document 02, E8.
#[test]
fn kept_runs_end_within_their_bound() {
    let trial = Trial::new();
    for (case, mut rng) in cases("kept runs within their bound", 1_000) {
        let mut world = random_world(&mut rng);
        let domain = rng.below(world.plan[2].into()) as u32;
        let any = rng.below(300);
        let part = rng.pick(&[0, 1, 256, any]);
        world.log.set_length(8 * part as usize);
        for subject in trial.subjects() {
            let bound = subject.bound(&world);
            let bound = bound.unwrap_or_else(|what| panic!("{case}: {what}"));
            let run = Call::RunKept(Kept { domain, part }, bound);
            for call in [Call::FreshStart, run] {
                let made = world.accept(subject.engine, &call);
                made.unwrap_or_else(|what| panic!("{case}: {what}"));
            }
            assert_eq!(world.answer[3], 1, "{case}");
        }
    }
}

/// Any calls that a list may have, with calls that are lent something else among
/// them; then a run with what is left of the bound.
#[test]
fn lists_stay_within_their_bound() {
    let trial = Trial::new();
    let mut tallies = [Tally::default(), Tally::default()];
    for (case, rng) in cases("lists within their bound", 1_500) {
        for (subject, tally) in trial.subjects().into_iter().zip(&mut tallies) {
            let listed = list(subject, &mut rng.clone(), tally);
            let name = subject.bounder.name();
            listed.unwrap_or_else(|what| panic!("{case}: {name}: {what}"));
        }
    }
    for tally in tallies {
        tally.assert_met("step", &[0, 11, 12, 13, 14]);
        tally.assert_met("run", &[0, 11, 12, 13, 14]);
        tally.assert_met("log", &[0, 4, 11, 12, 14]);
    }
}

fn list(subject: Subject, rng: &mut Rng, tally: &mut Tally) -> Result<(), String> {
    let mut list = List::start(subject, random_world(rng))?;
    for _ in 0..rng.below(40) {
        let call = random_call(rng, list.world());
        if matches!(call, Call::Read(_) | Call::FreshStart) {
            continue;
        }
        let number = match rng.one_in(3) {
            true => {
                let mut lent = list.world().clone();
                disturb(rng, &mut lent);
                list.call_with(&lent, &call)?
            }
            false => list.call(&call)?,
        };
        tally.note(&call, number);
    }
    list.finish().map(|_| ())
}

#[test]
fn windows_take_at_most_their_length_and_one() {
    let engines: [Box<dyn Engine>; 2] = [Box::new(Reference), under_test()];
    let (mut walked, mut full) = (0, 0);
    for (case, mut rng) in cases("steps of windows", 5_000) {
        let mut world = narrow_world(&mut rng);
        if rng.one_in(3) {
            scatter(&mut rng, &mut world);
        }
        for engine in &engines {
            let windows = walk(&**engine, world.clone());
            let windows = windows.unwrap_or_else(|what| {
                panic!("{case}: {}: {what}", engine.name());
            });
            walked += windows.walked;
            full += windows.full;
        }
    }
    println!("{walked} windows, {full} of them of as many steps as there can be");
    assert!(full > 0 && full < walked, "{full} of {walked}");
}
