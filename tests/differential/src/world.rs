//! Everything that is lent to an engine, and the calls made with it.

use crate::engine::{Engine, Kept, Tables, ANSWER, BOXES, CACHE, PLAN, SCRIPTS, STATE};
use crate::guarded::Guarded;

/// The seven rows that calls are lent.
#[derive(Clone, Debug, PartialEq, Eq)]
pub struct World {
    pub plan: Guarded<u32>,
    pub scripts: Guarded<u32>,
    pub state: Guarded<u64>,
    pub cache: Guarded<u16>,
    pub boxes: Guarded<u32>,
    pub log: Guarded<u8>,
    pub answer: Guarded<u64>,
}

/// One call of an entry point.
#[derive(Clone, Debug, PartialEq, Eq)]
pub enum Call {
    Read(Vec<u8>),
    FreshStart,
    Step,
    Run(u64),
    /// The world's log is one domain's part then.
    RunKept(Kept, u64),
    Log(u32),
}

impl World {
    /// A plan and scripts, and all else 0, with a log of so many bytes.
    pub fn new(plan: &[u32; PLAN], scripts: &[u32], log: usize) -> Self {
        World {
            plan: Guarded::new(plan),
            scripts: Guarded::new(scripts),
            state: Guarded::zeros(STATE),
            cache: Guarded::zeros(CACHE),
            boxes: Guarded::zeros(BOXES),
            log: Guarded::zeros(log),
            answer: Guarded::zeros(ANSWER),
        }
    }

    /// A world that nothing was read into yet.
    pub fn blank(log: usize) -> Self {
        World::new(&[0; PLAN], &[0; SCRIPTS], log)
    }

    /// Makes a call; gives the refusal's number that the engine returned.
    pub fn call(&mut self, engine: &dyn Engine, call: &Call) -> u32 {
        match call {
            Call::Read(text) => {
                engine.read_plan(text, &mut self.scripts, &mut self.plan, &mut self.answer)
            }
            Call::FreshStart => engine.fresh_start(
                &self.plan,
                &mut self.state,
                &mut self.cache,
                &mut self.boxes,
                &mut self.answer,
            ),
            Call::Step => {
                let (tables, answer) = self.lend();
                engine.step(tables, answer)
            }
            Call::Run(limit) => {
                let (tables, answer) = self.lend();
                engine.run(tables, *limit, answer)
            }
            Call::RunKept(kept, limit) => {
                let (tables, answer) = self.lend();
                engine.run_kept(tables, *kept, *limit, answer)
            }
            Call::Log(domain) => {
                let World {
                    plan,
                    state,
                    log,
                    answer,
                    ..
                } = self;
                engine.log(plan, state, log, *domain, answer)
            }
        }
    }

    /// Makes a call that must not be refused.
    pub fn accept(&mut self, engine: &dyn Engine, call: &Call) -> Result<(), String> {
        match self.call(engine, call) {
            0 => Ok(()),
            number => Err(format!("{call:?} was refused with {number}")),
        }
    }

    /// The first row in which two worlds differ.
    pub fn first_difference(&self, other: &World) -> Option<&'static str> {
        if self == other {
            return None;
        }
        let rows = [
            ("plan", self.plan == other.plan),
            ("scripts", self.scripts == other.scripts),
            ("state", self.state == other.state),
            ("cache", self.cache == other.cache),
            ("boxes", self.boxes == other.boxes),
            ("log", self.log == other.log),
            ("answer", self.answer == other.answer),
        ];
        rows.into_iter().find(|(_, same)| !same).map(|(row, _)| row)
    }

    /// Whether nothing was written past any row's ends.
    pub fn is_intact(&self) -> bool {
        self.plan.is_intact()
            && self.scripts.is_intact()
            && self.state.is_intact()
            && self.cache.is_intact()
            && self.boxes.is_intact()
            && self.log.is_intact()
            && self.answer.is_intact()
    }

    fn lend(&mut self) -> (Tables<'_>, &mut [u64]) {
        let tables = Tables {
            plan: &self.plan,
            scripts: &self.scripts,
            state: &mut self.state,
            cache: &mut self.cache,
            boxes: &mut self.boxes,
            log: &mut self.log,
        };
        (tables, &mut self.answer)
    }
}
