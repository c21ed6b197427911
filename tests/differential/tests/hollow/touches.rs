//! Engines that touch line 60 wrongly, judge it wrongly or take shorter pads: document 02, E9.
//! Each that can be told from a right one is found out.

use crate::isolate;
use crate::touch_faults::TouchFault;
use crate::touchers::Toucher;
use pirkvezo_differential::compare::{Difference, Pair};
use pirkvezo_differential::engine::{Engine, Reference};
use pirkvezo_differential::generate::disturb::disturb;
use pirkvezo_differential::generate::late_switch::late_switch_world;
use pirkvezo_differential::generate::lists::{random_call, random_world};
use pirkvezo_differential::generate::put_out::put_out_world;
use pirkvezo_differential::generate::scatter::scatter;
use pirkvezo_differential::generate::sketch::Sketch;
use pirkvezo_differential::generate::write::Style;
use pirkvezo_differential::rng::Rng;
use pirkvezo_differential::seed::cases;
use pirkvezo_differential::world::{Call, World};

/// What two engines are held against each other by.
#[derive(Clone, Copy, Debug, PartialEq, Eq)]
enum Inputs {
    /// Texts with a pad near the least.
    Texts,
    /// Lists of calls from a fresh start.
    Fresh,
    /// Worlds whose switch takes long.
    LateSwitches,
    /// Worlds that are merely possible, and ones whose ops put lines out.
    Lent,
    /// Worlds with something changed.
    Disturbed,
}

const ALL: [Inputs; 5] = [
    Inputs::Texts,
    Inputs::Fresh,
    Inputs::LateSwitches,
    Inputs::Lent,
    Inputs::Disturbed,
];

fn compare(engines: [&dyn Engine; 2], inputs: Inputs, rng: &mut Rng) -> Result<(), Difference> {
    let pair = |world| Pair::new(engines[0], engines[1], world);
    match inputs {
        Inputs::Texts => {
            let mut sketch = Sketch::random(rng);
            let short = rng.within(276..=375);
            sketch.pad = rng.pick(&[275, 276, 375, 375, 376, 377, short]);
            let text = sketch.fitting_text(rng, Style::Tight);
            pair(World::blank(0)).call(&Call::Read(text))?;
        }
        Inputs::Fresh => {
            let mut pair = pair(random_world(rng));
            pair.call(&Call::FreshStart)?;
            for _ in 0..12 {
                // A reading would change the plan, which stays the same in a list.
                match random_call(rng, pair.world()) {
                    Call::Read(_) => pair.call(&Call::Step)?,
                    call => pair.call(&call)?,
                };
            }
        }
        Inputs::LateSwitches => {
            let mut pair = pair(late_switch_world(rng));
            pair.call(&Call::Step)?;
            let limit = rng.pick(&[1, 20, u64::MAX]);
            pair.call(&Call::Run(limit))?;
        }
        Inputs::Lent => {
            let mut world = match rng.one_in(2) {
                true => put_out_world(rng),
                false => random_world(rng),
            };
            scatter(rng, &mut world);
            let mut pair = pair(world);
            for _ in 0..4 {
                pair.call(&Call::Step)?;
            }
            let limit = rng.pick(&[1, 20, u64::MAX]);
            pair.call(&Call::Run(limit))?;
        }
        Inputs::Disturbed => {
            let mut pair = pair(random_world(rng));
            scatter(rng, pair.world_mut());
            for _ in 0..12 {
                let before = pair.world().clone();
                disturb(rng, pair.world_mut());
                let call = random_call(rng, pair.world());
                pair.call(&call)?;
                *pair.world_mut() = before;
            }
        }
    }
    Ok(())
}

/// Whether one of so many cases of such inputs tells an engine from the reference.
fn is_found(fault: TouchFault, inputs: Inputs, count: u64) -> bool {
    let toucher = Toucher(fault);
    let mut tried = cases(&format!("toucher, {fault:?}, {inputs:?}"), count);
    tried.any(|(_, mut rng)| compare([&Reference, &toucher], inputs, &mut rng).is_err())
}

#[test]
fn a_whole_toucher_agrees() {
    let whole = Toucher(TouchFault::None);
    for inputs in ALL {
        for (case, mut rng) in cases(&format!("whole toucher, {inputs:?}"), 600) {
            let agreed = compare([&Reference, &whole], inputs, &mut rng);
            agreed.unwrap_or_else(|difference| panic!("{case}: {difference}"));
        }
    }
}

#[test]
fn faulty_touchers_are_found_out() {
    for fault in TouchFault::HOLLOW.iter().filter(|fault| !fault.is_silent()) {
        let mut inputs = ALL.into_iter();
        let found = inputs.any(|inputs| is_found(*fault, inputs, 1_000));
        assert!(found, "{fault:?} was not found out");
    }
}

/// Nothing tells these from a right one, whatever they are lent. If something did, their
/// place would be among the others.
#[test]
fn cheaper_touches_show_nowhere() {
    for fault in TouchFault::SILENT {
        let toucher = Toucher(*fault);
        for inputs in ALL {
            for (case, mut rng) in cases(&format!("silent, {fault:?}, {inputs:?}"), 600) {
                let agreed = compare([&Reference, &toucher], inputs, &mut rng);
                agreed.unwrap_or_else(|difference| panic!("{fault:?}, {case}: {difference}"));
            }
        }
    }
}

/// Why lent worlds are needed: from a fresh start these leave no trace. A switch there is
/// over some ticks before the least pad is, line 60 is never dirty nor missing, and no other
/// line of its set is ever used.
#[test]
fn some_leave_no_trace_from_a_fresh_start() {
    let judged = |fault: &&TouchFault| !fault.is_silent() && !TouchFault::PADS.contains(fault);
    for fault in TouchFault::HOLLOW.iter().filter(judged) {
        let is_lent = TouchFault::LENT.contains(fault);
        let count = if is_lent { 100 } else { 1_000 };
        let found = is_found(*fault, Inputs::Fresh, count);
        assert_eq!(found, !is_lent, "{fault:?}");
    }
}

/// Why worlds are needed whose switch takes long: one tick more shows in them, also where it
/// is the run's last switch alone that takes it.
#[test]
fn one_tick_more_shows_in_late_switches() {
    for fault in [
        TouchFault::ChargesOneMore,
        TouchFault::ChargesForDirt,
        TouchFault::ChargesAMessage,
        TouchFault::LastChargesATick,
        TouchFault::LastChargesFlushes,
    ] {
        assert!(is_found(fault, Inputs::LateSwitches, 400), "{fault:?}");
    }
}

/// Each way in that takes a plan, and the reader, knows the least pad.
#[test]
fn short_pads_are_found_out() {
    for fault in TouchFault::PADS {
        let inputs = match fault {
            TouchFault::ReadsOneTickLess | TouchFault::ReadsOldPads => Inputs::Texts,
            _ => Inputs::Disturbed,
        };
        assert!(is_found(*fault, inputs, 1_000), "{fault:?}");
    }
}

/// No second engine is needed for those that leave something else at a window's start or
/// after the end, or start a window late.
#[test]
fn most_break_a_law() {
    let judged = |fault: &&TouchFault| !TouchFault::PADS.contains(fault);
    for fault in TouchFault::HOLLOW.iter().filter(judged) {
        let toucher = Toucher(*fault);
        let is_unlawful = fault.is_unlawful();
        let count = if is_unlawful { 1_000 } else { 100 };
        let found = ALL.iter().any(|inputs| {
            let mut tried = cases(&format!("law, {fault:?}, {inputs:?}"), count);
            tried.any(|(_, mut rng)| compare([&toucher, &toucher], *inputs, &mut rng).is_err())
        });
        assert_eq!(found, is_unlawful, "{fault:?}");
    }
}

/// Where a touch hangs on what the domain before did, the next one learns of it.
#[test]
fn leaks_are_found_out() {
    for fault in TouchFault::LEAKS {
        let toucher = Toucher(*fault);
        let mut tried = cases(&format!("leaking toucher, {fault:?}"), 1_000);
        let found = tried.any(|(_, mut rng)| isolate(&toucher, &mut rng).is_err());
        assert!(found, "{fault:?} was not found out");
    }
}
