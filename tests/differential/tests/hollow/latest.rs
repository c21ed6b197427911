//! Lateness finders that look right but are not: document 02, E6. Each is found out by
//! the laws alone, wherever it differs from the reference in what is not free and also
//! where its script alone is wrong.

use crate::engines::{Fault, Hollow};
use crate::lateness_faults::LatenessFault;
use crate::lateness_finders::HollowFinder;
use pirkvezo_differential::engine::{Engine, LatenessFinder, Reference, SCRIPT, SCRIPTS};
use pirkvezo_differential::generate::late_scripts::late_script;
use pirkvezo_differential::generate::latest::{random_latest_call, KnownLatest};
use pirkvezo_differential::latest::call::LatestCall;
use pirkvezo_differential::latest::compare::{compare, without_free};
use pirkvezo_differential::latest::laws;
use pirkvezo_differential::latest::subject::Subject;
use pirkvezo_differential::latest::windows::finished_windows;
use pirkvezo_differential::rng::Rng;
use pirkvezo_differential::seed::cases;
use pirkvezo_differential::world::World;

/// A finder that speaks of the reference's windows.
fn subject(finder: &dyn LatenessFinder) -> Subject<'_> {
    Subject {
        engine: &Reference,
        finder,
    }
}

#[test]
fn a_whole_finder_agrees() {
    let whole = HollowFinder(LatenessFault::None);
    let subjects = [&Reference as &dyn LatenessFinder, &whole].map(subject);
    for (case, mut rng) in cases("whole lateness finder", 2_000) {
        let agreed = compare(subjects, &random_latest_call(&mut rng));
        agreed.unwrap_or_else(|difference| panic!("{case}: {difference}"));
    }
}

/// A fault that was found out so often is not looked for any more.
const ENOUGH: u32 = 40;

#[test]
fn hollow_finders_are_found_out() {
    let mut found = [0; LatenessFault::HOLLOW.len()];
    for (case, mut rng) in cases("hollow lateness finders", 6_000) {
        let call = random_latest_call(&mut rng);
        let due = laws::due(&Reference, &call).unwrap_or_else(|what| panic!("{case}: {what}"));
        let (number, right) = call.made_by(&Reference);
        let whole = call.made_by(&HollowFinder(LatenessFault::None));
        let right = without_free(number, right);
        let faults = LatenessFault::HOLLOW.iter().zip(&mut found);
        for (fault, found) in faults.filter(|(_, found)| **found < ENOUGH) {
            let made = call.made_by(&HollowFinder(*fault));
            if made == whole {
                continue;
            }
            let broken = laws::judge(&Reference, due, &call, &made.1, made.0);
            let differs = made.0 != number || without_free(number, made.1) != right;
            assert!(
                broken.is_err() || !differs,
                "{fault:?}, {case}: no law was broken"
            );
            *found += u32::from(broken.is_err());
        }
    }
    for (fault, found) in LatenessFault::HOLLOW.iter().zip(found) {
        assert!(found > 0, "{fault:?} was not found out");
    }
}

/// How late the first window of a domain is with this script.
fn first_window(engine: &dyn Engine, known: &KnownLatest, script: &[u32]) -> Option<u64> {
    let domain = known.call.domain as usize;
    let mut store = [0; SCRIPTS];
    store[SCRIPT * domain..][..SCRIPT].copy_from_slice(script);
    let log = 8 * SCRIPT * known.sketch.members.len();
    let world = World::new(&known.sketch.flat(), &store, log);
    let windows = finished_windows(engine, world, |window| window.domain == domain).ok()?;
    windows.last().map(|window| window.late)
}

/// Scripts that try to be later than the one that was handed back are later than what
/// was told, if that is too little.
#[test]
fn low_ticks_are_found_out_by_runs() {
    for fault in LatenessFault::TOO_LOW {
        let mut tried = cases(&format!("low ticks, {fault:?}"), 3_000);
        let found = tried.any(|(_, mut rng)| {
            let known = KnownLatest::random(&mut rng);
            let (_, told) = known.call.made_by(&HollowFinder(fault));
            let LatestCall { plan, domain, .. } = &known.call;
            let script = late_script(&mut rng, plan, *domain, &told.script);
            first_window(&Reference, &known, &script).is_some_and(|late| late > told.answer[2])
        });
        assert!(found, "{fault:?} was not found out");
    }
}

/// Whether the first window of a domain, with the script that the reference hands back,
/// is as late as was told.
fn holds(engine: &dyn Engine, rng: &mut Rng) -> bool {
    let known = KnownLatest::random(rng);
    let (_, told) = known.call.made_by(&Reference);
    first_window(engine, &known, &told.script) == Some(known.ticks)
}

/// What is told does not hold of every machine: one whose ops take no time, one that
/// leaves its tables as lent, and one whose scripts do not go on.
#[test]
fn engines_that_break_the_promise_are_found_out() {
    let mut whole = cases("windows of a whole engine", 100);
    assert!(whole.all(|(_, mut rng)| holds(&Hollow(Fault::None), &mut rng)));
    for fault in [
        Fault::StopsTheClock,
        Fault::LeavesTables,
        Fault::StaysInPlace,
    ] {
        let mut tried = cases(&format!("windows, {fault:?}"), 100);
        let found = tried.any(|(_, mut rng)| !holds(&Hollow(fault), &mut rng));
        assert!(found, "{fault:?} was not found out");
    }
}
