//! Boards that write lines back wrongly: document 02, E7. Each is found out on lent
//! worlds; most of them leave no trace in a run from a fresh start.

use crate::board_faults::BoardFault;
use crate::boards::Board;
use pirkvezo_differential::compare::{Difference, Pair};
use pirkvezo_differential::engine::{Engine, OldBoard, Reference};
use pirkvezo_differential::generate::lists::{random_call, random_world};
use pirkvezo_differential::generate::put_out::put_out_world;
use pirkvezo_differential::generate::rivals::WorldPair;
use pirkvezo_differential::isolation::{hold_together, Observer, Trail};
use pirkvezo_differential::rng::Rng;
use pirkvezo_differential::seed::cases;
use pirkvezo_differential::timeline::Timeline;
use pirkvezo_differential::world::Call;

/// Single steps in a window, or a run, on a world whose ops put lines out.
fn compare(engine: &dyn Engine, rng: &mut Rng) -> Result<(), Difference> {
    let mut pair = Pair::new(&Reference, engine, put_out_world(rng));
    if rng.one_in(2) {
        for _ in 0..8 {
            pair.call(&Call::Step)?;
        }
    }
    let limit = rng.pick(&[1, 2, 20, 100]);
    pair.call(&Call::Run(limit))?;
    Ok(())
}

#[test]
fn a_whole_board_agrees() {
    let board = Board(BoardFault::None);
    for (case, mut rng) in cases("whole board", 2_000) {
        let agreed = compare(&board, &mut rng);
        agreed.unwrap_or_else(|difference| panic!("{case}: {difference}"));
    }
}

/// The board before E7 is one of the faulty ones.
#[test]
fn the_old_board() {
    let board = Board(BoardFault::WritesNothing);
    for (case, mut rng) in cases("old board", 1_000) {
        let mut pair = Pair::new(&OldBoard, &board, put_out_world(&mut rng));
        let agreed = pair.call(&Call::Run(100));
        agreed.unwrap_or_else(|difference| panic!("{case}: {difference}"));
    }
}

#[test]
fn faulty_boards_are_found_out() {
    for fault in BoardFault::HOLLOW {
        let board = Board(*fault);
        let mut tried = cases(&format!("faulty board, {fault:?}"), 400);
        let found = tried.any(|(_, mut rng)| compare(&board, &mut rng).is_err());
        assert!(found, "{fault:?} was not found out");
    }
}

/// A list of calls from a fresh start.
fn compare_fresh(engine: &dyn Engine, rng: &mut Rng) -> Result<(), Difference> {
    let mut pair = Pair::new(&Reference, engine, random_world(rng));
    pair.call(&Call::FreshStart)?;
    for _ in 0..12 {
        let call = random_call(rng, pair.world());
        pair.call(&call)?;
    }
    Ok(())
}

/// Why lent worlds are needed: in lists of calls from a fresh start these faults show, and
/// none of the others ever does.
#[test]
fn most_leave_no_trace_from_a_fresh_start() {
    let shown = [
        BoardFault::WritesAfterSearch,
        BoardFault::WritesToTheBack,
        BoardFault::WritesToAskedSet,
        BoardFault::ChargesForClean,
        BoardFault::ChargesTwice,
        BoardFault::ChargesNothing,
        BoardFault::FlushWrites,
        BoardFault::SoughtStays,
        BoardFault::KeepsMark,
        BoardFault::LeavesDirt,
        BoardFault::CrossesColours,
    ];
    for fault in BoardFault::HOLLOW {
        let is_shown = shown.contains(fault);
        let count = if is_shown { 1_000 } else { 100 };
        let mut tried = cases(&format!("fresh start, {fault:?}"), count);
        let found = tried.any(|(_, mut rng)| compare_fresh(&Board(*fault), &mut rng).is_err());
        assert_eq!(found, is_shown, "{fault:?}");
    }
}

/// By what a domain has at its points, a board that changes other sets is found out
/// without a second engine.
#[test]
fn leaks_are_found_out() {
    let mut found = [0; 2];
    let boards = [BoardFault::None, BoardFault::CrossesColours].map(Board);
    for (_, mut rng) in cases("leaking board", 200) {
        let WorldPair { observer, worlds } = WorldPair::random(&mut rng);
        let timeline = Timeline::of(&worlds[0].plan).expect("windows");
        for (board, found) in boards.iter().zip(&mut found) {
            let [first, second] = [0, 1].map(|at| {
                let watched = Observer::Asking(observer);
                let trail = Trail::walk_on(board, worlds[at].clone(), watched);
                trail.unwrap_or_else(|what| panic!("no step is refused: {what}"))
            });
            let held = hold_together(&first, &second, &timeline, observer);
            *found += u32::from(held.is_err());
        }
    }
    assert!(found[0] == 0 && found[1] > 0, "{found:?}");
}
