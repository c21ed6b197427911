//! Runs that keep one domain's log, beside the same runs with everyone's: a caller who lends
//! one part is not to wait longer than one who lends all.

use crate::peer::Peer;
use crate::subjects::{LIBRARY, PEER, REFERENCE};
use crate::table::{Cell, Table};
use crate::timing::{measure, Settings, Times};
use crate::workloads;
use pirkvezo_differential::engine::{under_test, Engine, Kept, Reference};
use pirkvezo_differential::generate::sketch::Sketch;
use pirkvezo_differential::kept::cut;
use pirkvezo_differential::world::{Call, World};

/// The records that each part holds: one for every op of a script.
const PART: usize = 256;

/// The domain whose log is kept.
const KEPT: Kept = Kept {
    domain: 0,
    part: PART as u64,
};

/// Where the runs with everyone's log stand in the list of all, behind the kept ones.
const LIBRARY_WHOLE: usize = 3;
const PEER_WHOLE: usize = 4;

/// What takes turns: a run that one engine makes again and again from a fresh start.
struct Runner<'e> {
    engine: &'e dyn Engine,
    world: World,
    run: Call,
}

/// The times of kept runs, and those of the library and of the peer beside their own runs
/// with everyone's log.
pub fn tables(settings: &Settings) -> [Table; 2] {
    let columns = ["steps", "reference", "library", "peer", "ratio", "to peer"];
    let mut kept = Table::new("one log kept: nanoseconds a step", &columns);
    let columns = [
        "steps",
        "library",
        "kept",
        "peer",
        "peer, kept",
        "to its run",
        "peer's",
    ];
    let mut beside = Table::new(
        "one log kept beside everyone's: nanoseconds a step",
        &columns,
    );
    let library = under_test();
    for workload in workloads::runs() {
        let mut runners = runners(&*library, &workload.sketch);
        let steps = agreed(&workload.name, &mut runners);
        let times = measure(
            settings,
            &mut runners,
            Runner::fresh_start,
            Runner::run_to_the_end,
        );
        kept.row(&workload.name, kept_cells(steps, &times));
        beside.row(&workload.name, beside_cells(steps, &times));
    }
    [kept, beside]
}

fn kept_cells(steps: u64, times: &Times) -> Vec<Cell> {
    let mut cells = vec![Cell::Units(steps)];
    let engines = [REFERENCE, LIBRARY, PEER];
    cells.extend(engines.map(|engine| Cell::Time(times.median(engine))));
    cells.extend([REFERENCE, PEER].map(|other| Cell::Ratio(times.ratio(LIBRARY, other))));
    cells
}

fn beside_cells(steps: u64, times: &Times) -> Vec<Cell> {
    let pairs = [[LIBRARY_WHOLE, LIBRARY], [PEER_WHOLE, PEER]];
    let mut cells = vec![Cell::Units(steps)];
    let all = pairs.as_flattened().iter();
    cells.extend(all.map(|engine| Cell::Time(times.median(*engine))));
    cells.extend(pairs.map(|[whole, kept]| Cell::Ratio(times.ratio(kept, whole))));
    cells
}

/// The kept runs of all three engines, then the two with everyone's log.
fn runners<'e>(library: &'e dyn Engine, sketch: &Sketch) -> [Runner<'e>; 5] {
    let whole = 8 * PART * sketch.members.len();
    let runner = |engine: &'e dyn Engine, log, run| Runner {
        engine,
        world: World::new(&sketch.flat(), &sketch.store(), log),
        run,
    };
    let kept = |engine| runner(engine, 8 * PART, Call::RunKept(KEPT, u64::MAX));
    let everyones = |engine| runner(engine, whole, Call::Run(u64::MAX));
    [
        kept(&Reference),
        kept(library),
        kept(&Peer),
        everyones(library),
        everyones(&Peer),
    ]
}

impl Runner<'_> {
    fn fresh_start(&mut self) {
        let number = self.world.call(self.engine, &Call::FreshStart);
        assert_eq!(number, 0, "a good world");
    }

    /// Gives the steps done.
    fn run_to_the_end(&mut self) -> u64 {
        let number = self.world.call(self.engine, &self.run);
        assert_eq!(number, 0, "a good world");
        self.world.answer[2]
    }
}

/// Makes each run once; gives its steps. One that did less than its work would be a quick one,
/// so nothing is timed before all have left the same: of everyone's log the kept part.
fn agreed(name: &str, runners: &mut [Runner]) -> u64 {
    for runner in runners.iter_mut() {
        runner.fresh_start();
        runner.run_to_the_end();
    }
    let due = &runners[REFERENCE].world;
    for runner in runners.iter() {
        let left = match runner.run {
            Call::Run(_) => cut(&runner.world, KEPT.domain as usize, PART),
            _ => runner.world.clone(),
        };
        let row = left.first_difference(due);
        assert_eq!(row, None, "{name}: {}", runner.engine.name());
    }
    due.answer[2]
}

#[cfg(test)]
mod tests {
    use super::{agreed, runners, KEPT};
    use crate::peer::Peer;
    use crate::workloads;
    use pirkvezo_differential::engine::{Engine, Kept, Reference, Tables};

    /// There is something to keep, and something that is not kept.
    #[test]
    fn kept_runs_and_whole_ones_leave_the_same() {
        for workload in workloads::runs() {
            let mut runners = runners(&Peer, &workload.sketch);
            let steps = agreed(&workload.name, &mut runners);
            let records = &runners[0].world.state[10..];
            let own = records[KEPT.domain as usize];
            let others = records.iter().sum::<u64>() - own;
            assert!(steps == 1 || own > 0 && others > own, "{}", workload.name);
        }
    }

    /// The reference with one fault in its kept runs.
    #[derive(Clone, Copy, Debug)]
    enum Faulty {
        StoresNothing,
        StopsEarly,
    }

    impl Engine for Faulty {
        fn name(&self) -> &'static str {
            "faulty keeper"
        }

        fn read_plan(
            &self,
            text: &[u8],
            scripts: &mut [u32],
            plan: &mut [u32],
            answer: &mut [u64],
        ) -> u32 {
            Reference.read_plan(text, scripts, plan, answer)
        }

        fn fresh_start(
            &self,
            plan: &[u32],
            state: &mut [u64],
            cache: &mut [u16],
            boxes: &mut [u32],
            answer: &mut [u64],
        ) -> u32 {
            Reference.fresh_start(plan, state, cache, boxes, answer)
        }

        fn step(&self, tables: Tables, answer: &mut [u64]) -> u32 {
            Reference.step(tables, answer)
        }

        fn run(&self, tables: Tables, limit: u64, answer: &mut [u64]) -> u32 {
            Reference.run(tables, limit, answer)
        }

        fn run_kept(&self, tables: Tables, kept: Kept, limit: u64, answer: &mut [u64]) -> u32 {
            match self {
                Faulty::StoresNothing => {
                    let mut log = tables.log.to_vec();
                    let other = Tables {
                        log: &mut log,
                        ..tables
                    };
                    Reference.run_kept(other, kept, limit, answer)
                }
                Faulty::StopsEarly => Reference.run_kept(tables, kept, 2_000, answer),
            }
        }

        fn log(
            &self,
            plan: &[u32],
            state: &[u64],
            log: &[u8],
            domain: u32,
            answer: &mut [u64],
        ) -> u32 {
            Reference.log(plan, state, log, domain, answer)
        }
    }

    #[test]
    fn a_faulty_keeper_is_not_timed() {
        for fault in [Faulty::StoresNothing, Faulty::StopsEarly] {
            let sketch = &workloads::runs()[0].sketch;
            let outcome = std::panic::catch_unwind(|| {
                agreed("faulty", &mut runners(&fault, sketch));
            });
            assert!(outcome.is_err(), "{fault:?}");
        }
    }
}
