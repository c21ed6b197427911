//! The latest end of a domain: known ones, random ones, refused ones, scripts that are
//! as late as was told, and windows that are no later. Document 02, E6, with the touch of
//! its E9.

use pirkvezo_differential::engine::{
    lateness_finder_under_test, under_test, Engine, LatenessFinder, Reference, ANSWER, PLAN, SCRIPT,
};
use pirkvezo_differential::generate::bounds::spoil_plan;
use pirkvezo_differential::generate::late_scripts::late_script;
use pirkvezo_differential::generate::latest::{
    disturb_lengths, fill, known_ticks, other_domain, random_latest_call, set_lengths,
    spoil_window, told_length, KnownLatest,
};
use pirkvezo_differential::generate::sketch::{Member, Sketch};
use pirkvezo_differential::generate::stores::random_store;
use pirkvezo_differential::guarded::Guarded;
use pirkvezo_differential::latest::call::LatestCall;
use pirkvezo_differential::latest::compare::compare;
use pirkvezo_differential::latest::subject::{Subject, Told};
use pirkvezo_differential::latest::windows::{finished_windows, Finished};
use pirkvezo_differential::rng::Rng;
use pirkvezo_differential::seed::cases;
use pirkvezo_differential::tally::Tally;
use pirkvezo_differential::world::{Call, World};
use pirkvezo_reference::flat::plan_from_flat;
use pirkvezo_reference::latest as reference;
use std::fmt::Display;

const REFERENCE: Subject = Subject {
    engine: &Reference,
    finder: &Reference,
};

/// The library beside the reference, and what the calls so far came to.
struct Trial {
    engine: Box<dyn Engine>,
    finder: Box<dyn LatenessFinder>,
    tally: Tally,
}

impl Trial {
    fn new() -> Self {
        Trial {
            engine: under_test(),
            finder: lateness_finder_under_test(),
            tally: Tally::default(),
        }
    }

    fn subjects(&self) -> [Subject<'_>; 2] {
        let library = Subject {
            engine: &*self.engine,
            finder: &*self.finder,
        };
        [REFERENCE, library]
    }

    /// Makes a call with both; gives the number that both returned, and the answer.
    fn call(&mut self, call: &LatestCall, context: &dyn Display) -> (u32, Vec<u64>) {
        match compare(self.subjects(), call) {
            Ok((number, after)) => {
                self.tally.note_kind("latest", number);
                (number, after.answer.to_vec())
            }
            Err(difference) => panic!("{context}: {difference}"),
        }
    }

    /// Makes a call that must be answered so.
    fn answer(&mut self, call: &LatestCall, due: [u64; ANSWER], context: &dyn Display) {
        let told = self.call(call, context);
        assert_eq!(told, (due[0] as u32, due.to_vec()), "{context}: {call:?}");
    }

    /// Asserts that exactly these numbers were returned, and prints how often.
    fn finish(&self, test: &str, numbers: &[u32]) {
        self.tally.assert_met("latest", numbers);
        self.tally.print(test);
    }
}

/// Domains 0 and 1 with colours 0 to 13 and 14, and a right to send from one to the
/// other; then windows of both, one of them of no told length.
const TEXT: &str = "\
(pad 376)
(run 2)
(domain 0 (share 966) (may 1))
(domain 1 (share 34) (may))
(window 0 (length 4000))
(window 1 (length 3999))
(window 0 (length 20000))
";

/// That text's plan, as an engine reads it, and domain 0.
fn read(engine: &dyn Engine) -> LatestCall {
    let mut world = World::blank(0);
    let read = world.accept(engine, &Call::Read(TEXT.into()));
    read.unwrap_or_else(|what| panic!("{what}"));
    LatestCall::new(&world.plan, 0)
}

/// Asks each finder by itself about that text with something changed.
fn assert_told(change: impl Fn(&mut LatestCall), due: [u64; ANSWER]) {
    for subject in Trial::new().subjects() {
        let mut call = read(subject.engine);
        change(&mut call);
        let (number, after) = call.made_by(subject.finder);
        let name = subject.finder.name();
        assert_eq!(after.answer[..], due, "{name}");
        assert_eq!(u64::from(number), due[0], "{name}");
        assert_eq!(after.script == call.script, number != 0, "{name}");
    }
}

fn assert_ticks(change: impl Fn(&mut LatestCall), ticks: u64) {
    assert_told(change, [0, 0, ticks, 0]);
}

#[test]
fn fixed_answers() {
    // The papers' own figure, with the touch: domain 0 has the run's first window.
    assert_ticks(|_| {}, 212 + 10 + 38 + 100);
    assert_ticks(|_| {}, 360);
    // Domain 1 with a window of a told length, which is not the run's first; and its right
    // to receive taken away.
    let second = |call: &mut LatestCall| (call.domain, call.plan[53]) = (1, 4_000);
    assert_ticks(second, 199 + 10 + 18 + 100);
    let bare = |call: &mut LatestCall| {
        second(call);
        call.plan[12] = 0;
    };
    assert_ticks(bare, 199 + 9 + 16 + 100);
    assert_ticks(|call| call.plan[12] = 0, 199 + 9 + 40 + 100);
    // A right to receive is as good as one to send.
    let received = |call: &mut LatestCall| call.plan[12..14].copy_from_slice(&[0, 1]);
    assert_ticks(received, 360);
    // Neither pad nor run nor the lengths matter.
    let wide = |call: &mut LatestCall| {
        call.plan[..2].copy_from_slice(&[1_000_000, 1_000]);
        call.plan[52] = 12_345;
    };
    assert_ticks(wide, 360);
}

/// Whose the run's first window is does matter, for a domain with a right. Which of its
/// windows is the run's last does not: that one's switch makes its touch too.
#[test]
fn fixed_answers_by_the_runs_first_window() {
    let led_by_second = |call: &mut LatestCall| call.plan[20..22].copy_from_slice(&[1, 0]);
    let lengths = |call: &mut LatestCall| call.plan[52..55].fill(4_000);
    let behind = |call: &mut LatestCall| {
        lengths(call);
        led_by_second(call);
    };
    assert_ticks(behind, 199 + 10 + 40 + 100);
    let leading = |call: &mut LatestCall| {
        behind(call);
        call.domain = 1;
    };
    assert_ticks(leading, 204 + 10 + 18 + 100);
    // A right in each direction is two boxes, of which the first window uses one.
    let two = |call: &mut LatestCall| {
        behind(call);
        call.plan[13] = 1;
    };
    assert_ticks(two, 199 + 11 + 40 + 100);
    let two_leading = |call: &mut LatestCall| {
        lengths(call);
        call.plan[13] = 1;
    };
    assert_ticks(two_leading, 360);
    // The run's only window.
    let only = |call: &mut LatestCall| {
        call.plan[1] = 1;
        call.plan[3] = 1;
        call.plan[21..23].fill(0);
        call.plan[53..55].fill(0);
    };
    assert_ticks(only, 360);
}

#[test]
fn fixed_refusals() {
    for length in [0, 1, 255, 257, 2_048] {
        assert_told(|call| call.script.set_length(length), [11, 0, 0, 0]);
        let all = |call: &mut LatestCall| {
            call.script.set_length(length);
            call.plan.fill(0);
            call.domain = 9;
        };
        assert_told(all, [11, 0, 0, 0]);
    }
    for length in [0, 1, 91, 93, 184] {
        assert_told(|call| call.plan.set_length(length), [11, 0, 0, 0]);
    }
    // 12 before 18.
    let impossible = |call: &mut LatestCall| (call.plan[0], call.domain) = (375, 9);
    assert_told(impossible, [12, 0, 0, 0]);
    for pad in [276, 375] {
        assert_told(|call| call.plan[0] = pad, [12, 0, 0, 0]);
    }
    assert_told(|call| call.plan.fill(0), [12, 0, 0, 0]);
    assert_told(|call| call.plan[1] = 1_001, [12, 0, 0, 0]);
    assert_told(|call| call.plan[3] = 33, [12, 0, 0, 0]);
    assert_told(|call| call.plan[91] = 1, [12, 0, 0, 0]);
    // No such domain; a window that is too short; no window.
    for domain in [2, 7, 8, 9, 256, 65_536, u32::MAX] {
        let due = [18, u64::from(domain), 0, 0];
        assert_told(|call| call.domain = domain, due);
    }
    assert_told(|call| call.domain = 1, [18, 1, 0, 0]);
    let without = |call: &mut LatestCall| (call.domain, call.plan[21]) = (1, 0);
    assert_told(without, [18, 1, 0, 0]);
    assert_told(|call| call.plan[21] = 0, [18, 0, 0, 0]);
}

#[test]
fn known_answers() {
    let mut trial = Trial::new();
    for (case, mut rng) in cases("known latest ends", 1_500) {
        let known = KnownLatest::random(&mut rng);
        trial.answer(&known.call, [0, 0, known.ticks, 0], &case);
    }
    trial.finish("known latest ends", &[0]);
}

/// A plan of domains with these numbers of colours and these recipients, a window of
/// 4,000 ticks for each, that of one domain in front of all others.
fn plan_of(domains: &[(u32, Vec<u32>)], first: u32) -> [u32; PLAN] {
    let members = domains.iter().map(|(colours, may)| Member {
        share: colours * 200 / 3,
        may: may.clone(),
        script: Vec::new(),
    });
    let mut sketch = Sketch {
        pad: 376,
        run: 1,
        members: members.collect(),
        windows: (0..domains.len() as u32).map(|d| (d, 4_000)).collect(),
    };
    sketch.windows.rotate_left(first as usize);
    sketch.flat()
}

/// A domain with so many colours from this one on, beside one of the colours before
/// it or, where there are none, of a colour behind it. It may send to that one or not, and
/// has the run's first window or not. None where there should be another domain and it has
/// all colours for itself.
fn span_of_colours(first: u32, holding: u32, may_send: bool, leads: bool) -> Option<LatestCall> {
    let may = |to: u32| if may_send { vec![to] } else { vec![] };
    let (domains, domain) = match (first, holding) {
        (0, 15) if may_send || !leads => return None,
        (0, 15) => (vec![(15, vec![])], 0),
        (0, _) => (vec![(holding, may(1)), (1, vec![])], 0),
        _ => (vec![(first, vec![]), (holding, may(0))], 1),
    };
    let leader = if leads { domain } else { 1 - domain };
    Some(LatestCall::new(&plan_of(&domains, leader), domain))
}

/// Every first colour with every number of colours, with a right and without, in the run's
/// first window and behind it.
#[test]
fn every_span_of_colours() {
    let mut trial = Trial::new();
    for first in 0..15 {
        for holding in 1..=15 - first {
            let bare = 316 + 8 * u64::from(holding.min(4));
            let meets = (first..first + holding).any(|colour| colour % 4 == 3);
            // One box: a line more in the kernel's sets, and dirty if no own line is there.
            let [leading, behind] = if meets { [12, 1] } else { [8, 3] };
            for (may_send, leads, ticks) in [
                (false, true, bare),
                (false, false, bare),
                (true, true, bare + leading),
                (true, false, bare + behind),
            ] {
                if let Some(call) = span_of_colours(first, holding, may_send, leads) {
                    let context = format!("{holding} colours from {first} on, {leads}");
                    trial.answer(&call, [0, 0, ticks, 0], &context);
                }
            }
        }
    }
    trial.finish("every span of colours", &[0]);
}

/// Every number of boxes to send through with every number to receive through. They count
/// up to the fourth where the domain has not the run's first window, whoever has it.
#[test]
fn every_number_of_boxes() {
    let mut trial = Trial::new();
    for sent in 0..8 {
        for received in 0..8 {
            let may = |other| if other <= received { vec![0] } else { vec![] };
            let mut domains = vec![(5, (1..=sent).collect())];
            domains.extend((1..8).map(|other| (1, may(other))));
            let boxes = u64::from(sent + received);
            let leading = if boxes > 0 { 360 } else { 348 };
            let behind = 348 + boxes.min(4);
            for (first, ticks) in [(0, leading), (1, behind), (7, behind)] {
                let call = LatestCall::new(&plan_of(&domains, first), 0);
                let context = format!("{sent} and {received}, {first}");
                trial.answer(&call, [0, 0, ticks, 0], &context);
            }
        }
    }
    trial.finish("every number of boxes", &[0]);
}

/// Each of the domain's windows at the limits, and one of another domain's.
#[test]
fn limits_of_windows() {
    let mut trial = Trial::new();
    let good = read(&Reference);
    let lengths = [
        1, 3_998, 3_999, 4_000, 4_001, 19_999, 20_000, 20_001, 20_002,
    ];
    for length in lengths.into_iter().chain([65_536 + 4_000, 1_000_000]) {
        for place in 0..3 {
            let mut call = good.clone();
            call.plan[52 + place] = length;
            let refused = place != 1 && !(4_000..=20_000).contains(&length);
            let due = if refused {
                [18, 0, 0, 0]
            } else {
                [0, 0, 360, 0]
            };
            trial.answer(&call, due, &length);
        }
    }
    trial.finish("limits of windows", &[0, 18]);
}

#[test]
fn domains_that_are_not_told_of() {
    let mut trial = Trial::new();
    for (case, mut rng) in cases("domains not told of", 2_000) {
        let mut call = KnownLatest::random(&mut rng).call;
        match rng.one_in(2) {
            true => call.domain = other_domain(&mut rng, call.domain),
            false => spoil_window(&mut rng, &mut call),
        }
        let (number, _) = trial.call(&call, &case);
        assert!(number == 0 || number == 18, "{case}");
    }
    trial.finish("domains not told of", &[0, 18]);
}

#[test]
fn impossible_plans() {
    let mut trial = Trial::new();
    for (case, mut rng) in cases("latest ends of other plans", 3_000) {
        let mut call = KnownLatest::random(&mut rng).call;
        spoil_plan(&mut rng, &mut call.plan);
        trial.call(&call, &case);
    }
    trial.finish("latest ends of other plans", &[0, 12, 18]);
}

#[test]
fn random_lengths() {
    let mut trial = Trial::new();
    for (case, mut rng) in cases("latest ends, lengths of rows", 3_000) {
        let mut call = random_latest_call(&mut rng);
        disturb_lengths(&mut rng, &mut call);
        let (number, _) = trial.call(&call, &case);
        assert_eq!(number == 11, !call.has_right_lengths(), "{case}");
    }
    trial.finish("latest ends, lengths of rows", &[0, 11, 12, 18]);
}

/// Each row in turn, and several at once, shorter, longer and empty; with a plan that
/// is told of, with one that is 12, and with a domain that is 18.
#[test]
fn other_lengths() {
    let mut trial = Trial::new();
    let mut rng = Rng::new(11);
    let good = read(&Reference);
    let changes: [fn(&mut LatestCall); 3] =
        [|_| {}, |call| call.plan.fill(0), |call| call.domain = 8];
    for (change, number) in changes.into_iter().zip([0, 12, 18]) {
        for plan in [0, 1, 91, 92, 93, 184] {
            for script in [0, 1, 92, 255, 256, 257, 2_048] {
                for answer in [0, 1, 2, 3, 4, 5, 8] {
                    let mut call = good.clone();
                    change(&mut call);
                    set_lengths(&mut rng, &mut call, [plan, script, answer]);
                    let right = [plan, script, answer] == [PLAN, SCRIPT, ANSWER];
                    let due = if right { number } else { 11 };
                    assert_eq!(trial.call(&call, &"other lengths").0, due);
                }
            }
        }
    }
    trial.finish("other lengths", &[0, 11, 12, 18]);
}

/// The script is the same whatever the buffer and the answer held before.
#[test]
fn what_the_buffer_held() {
    let trial = Trial::new();
    for (case, mut rng) in cases("scripts over other scripts", 1_000) {
        let mut call = KnownLatest::random(&mut rng).call;
        for subject in trial.subjects() {
            let (_, first) = call.made_by(subject.finder);
            fill(&mut rng, &mut call);
            let (_, second) = call.made_by(subject.finder);
            assert_eq!(first, second, "{case}: {}", subject.finder.name());
        }
    }
}

/// A plan with few windows, so that a whole run does not take long.
fn short_known(rng: &mut Rng) -> KnownLatest {
    let mut known = KnownLatest::random(rng);
    let own = |window: &&(u32, u32)| window.0 == known.call.domain;
    let first = *known.sketch.windows.iter().find(own).expect("a window");
    known.sketch.windows.truncate(6);
    let place = rng.place(known.sketch.windows.len() + 1);
    known.sketch.windows.insert(place, first);
    known.sketch.run = rng.within(1..=3);
    known.call.plan = Guarded::new(&known.sketch.flat());
    // Another domain may have the run's first window now.
    known.ticks = known_ticks(&known.sketch, known.call.domain as usize);
    known
}

/// What one subject is told of a domain that is told of.
fn told(subject: Subject, call: &LatestCall, context: &dyn Display) -> Told {
    let told = subject.told(&call.plan, call.domain);
    told.unwrap_or_else(|| panic!("{context}: {} refuses", subject.finder.name()))
}

/// The windows of a run by this engine, which must be those of the reference's own
/// machine.
fn windows_of(engine: &dyn Engine, world: &World, context: &dyn Display) -> Vec<Finished> {
    let windows = finished_windows(engine, world.clone(), |_| false);
    let windows = windows.unwrap_or_else(|what| panic!("{context}: {}: {what}", engine.name()));
    let plan = world.plan[..].try_into().ok().and_then(plan_from_flat);
    let plan = plan.expect("a possible plan");
    let own = reference::finished_windows(&plan, &world.scripts, world.log.len());
    let own = own.expect("a run").into_iter();
    let own = own.map(|reference::Finished { domain, late }| Finished { domain, late });
    assert!(own.eq(windows.iter().copied()), "{context}");
    windows
}

/// Each subject's script on each engine, beside any scripts of others and with any log
/// that has room for it, is as late as was told in the domain's first window.
#[test]
fn scripts_reach_what_is_told() {
    let trial = Trial::new();
    for (case, mut rng) in cases("scripts as late as told", 600) {
        let known = short_known(&mut rng);
        let domain = known.call.domain as usize;
        let record = 8 * known.sketch.members.len();
        let some = rng.place(300) * record + rng.place(record);
        let log = rng.pick(&[256 * record, 257 * record - 1, 256 * record + some]);
        let mut store = random_store(&mut rng, &known.sketch);
        for subject in trial.subjects() {
            let Told { ticks, script } = told(subject, &known.call, &case);
            assert_eq!(ticks, known.ticks, "{case}");
            store[SCRIPT * domain..][..SCRIPT].copy_from_slice(&script);
            let world = World::new(&known.sketch.flat(), &store, log);
            for engine in [&Reference, &*trial.engine] {
                let mut windows = windows_of(engine, &world, &case).into_iter();
                let first = windows.find(|window| window.domain == domain);
                let late = first.expect("a window").late;
                let name = subject.finder.name();
                assert_eq!(late, ticks, "{case}: the script of {name}");
            }
        }
    }
}

/// Scripts that try to be later, of every domain at once, with logs of any length.
#[test]
fn no_window_is_later() {
    let trial = Trial::new();
    let (mut walked, mut reached) = (0, 0);
    for (case, mut rng) in cases("windows no later than told", 1_500) {
        let known = short_known(&mut rng);
        let plan = known.sketch.flat();
        let mut store = random_store(&mut rng, &known.sketch);
        let mut most = [u64::MAX; 8];
        for (domain, most) in most.iter_mut().enumerate() {
            let told = trial.subjects().map(|it| it.told(&plan, domain as u32));
            let [Some(here), Some(there)] = told else {
                continue;
            };
            assert_eq!(here.ticks, there.ticks, "{case}");
            *most = here.ticks;
            if rng.one_in(4) {
                continue;
            }
            let script = rng.pick(&[&here, &there]).script.clone();
            let script = late_script(&mut rng, &plan, domain as u32, &script);
            store[SCRIPT * domain..][..SCRIPT].copy_from_slice(&script);
        }
        let room = rng.pick(&[256, 256, 256, 100, 20]);
        let world = World::new(&plan, &store, 8 * known.sketch.members.len() * room);
        for window in windows_of(&*trial.engine, &world, &case) {
            let most = most[window.domain];
            assert!(window.late <= most, "{case}: {window:?} of {most}");
            walked += 1;
            reached += u64::from(window.late == most);
        }
    }
    println!("{walked} windows, {reached} of them as late as there can be");
    assert!(reached > 0 && reached < walked, "{reached} of {walked}");
}

/// Windows of one domain alone, so many and so long that its script goes on from one
/// to the next. All but the run's first are no later than where another domain has that
/// one.
#[test]
fn no_later_window_is_later() {
    let trial = Trial::new();
    let mut reached = [0; 3];
    for (case, mut rng) in cases("later windows", 1_000) {
        let mut known = short_known(&mut rng);
        let domain = known.call.domain;
        let mut window = || (domain, told_length(&mut rng).min(4_500));
        known.sketch.windows = (0..6).map(|_| window()).collect();
        let plan = known.sketch.flat();
        let Told { ticks, script } = told(REFERENCE, &LatestCall::new(&plan, domain), &case);
        let later = match known.sketch.members.len() as u32 {
            1 => ticks,
            count => {
                let mut behind = known.sketch.clone();
                behind.windows.insert(0, ((domain + 1) % count, 1));
                told(REFERENCE, &LatestCall::new(&behind.flat(), domain), &case).ticks
            }
        };
        let script = late_script(&mut rng, &plan, domain, &script);
        let mut store = vec![0; 8 * SCRIPT];
        store[SCRIPT * domain as usize..][..SCRIPT].copy_from_slice(&script);
        let world = World::new(&plan, &store, 8 * SCRIPT * known.sketch.members.len());
        let windows = windows_of(&*trial.engine, &world, &case);
        let (first, others) = windows.split_first().expect("windows");
        assert!(first.late <= ticks && later <= ticks, "{case}");
        assert!(others.iter().all(|window| window.late <= later), "{case}");
        reached[0] += u32::from(first.late == ticks);
        reached[1] += others.iter().filter(|it| it.late == later).count() as u32;
        reached[2] += u32::from(later < ticks && others.iter().any(|it| it.late == later));
    }
    assert!(reached.iter().all(|count| *count > 0), "{reached:?}");
}
