//! What is timed: the reference, the library and the C peer behind the plain
//! interface, and the reference with its own types.

use crate::peer::Peer;
use pirkvezo_differential::engine::{Engine, Reference, BOXES, CACHE, SCRIPTS};
use pirkvezo_differential::generate::sketch::Sketch;
use pirkvezo_differential::world::{Call, World};
use pirkvezo_reference::flat::plan_from_flat;
use pirkvezo_reference::{self as reference, Lent, Outcome, Plan, State};

/// Bytes in the log: room for a record of every op of eight domains.
const LOG: usize = 8 * 256 * 8;

pub trait Subject {
    fn name(&self) -> String;
    /// Reads a text and forgets it; gives the returned number.
    fn read(&mut self, text: &[u8]) -> u32;
    /// Takes up a plan and its scripts.
    fn load(&mut self, sketch: &Sketch);
    fn fresh_start(&mut self);
    /// Gives the steps done.
    fn run(&mut self, limit: u64) -> u64;
    /// So many single steps, or fewer if the run ends; gives the steps done.
    fn steps(&mut self, most: u64) -> u64;
}

/// Where each stands in the list of all.
pub const REFERENCE: usize = 0;
pub const LIBRARY: usize = 1;
pub const PEER: usize = 2;

/// All that are timed, in the order of their turns.
pub fn all(library: Box<dyn Engine>) -> Vec<Box<dyn Subject>> {
    vec![
        Box::new(Plain::new(Box::new(Reference))),
        Box::new(Plain::new(library)),
        Box::new(Plain::new(Box::new(Peer))),
        Box::new(Native::new()),
    ]
}

struct Native {
    plan: Plan,
    scripts: Vec<u32>,
    /// For readings that are only timed.
    spare: Vec<u32>,
    state: State,
    cache: Vec<u16>,
    boxes: Vec<u32>,
    log: Vec<u8>,
}

impl Native {
    fn new() -> Self {
        Native {
            plan: Plan::default(),
            scripts: vec![0; SCRIPTS],
            spare: vec![0; SCRIPTS],
            state: State::default(),
            cache: vec![0; CACHE],
            boxes: vec![0; BOXES],
            log: vec![0; LOG],
        }
    }
}

impl Subject for Native {
    fn name(&self) -> String {
        "own types".into()
    }

    fn read(&mut self, text: &[u8]) -> u32 {
        reference::read_plan(text, &mut self.spare).0
    }

    fn load(&mut self, sketch: &Sketch) {
        self.plan = plan_from_flat(&sketch.flat()).expect("a good plan");
        self.scripts = sketch.store();
    }

    fn fresh_start(&mut self) {
        let (cache, boxes) = (&mut self.cache, &mut self.boxes);
        reference::fresh_start(&self.plan, &mut self.state, cache, boxes).expect("a good plan");
    }

    fn run(&mut self, limit: u64) -> u64 {
        let lent = Lent {
            cache: &mut self.cache,
            boxes: &mut self.boxes,
            log: &mut self.log,
        };
        reference::run(&self.plan, &self.scripts, &mut self.state, lent, limit)
            .expect("a good world")
            .steps
    }

    fn steps(&mut self, most: u64) -> u64 {
        for done in 0..most {
            let lent = Lent {
                cache: &mut self.cache,
                boxes: &mut self.boxes,
                log: &mut self.log,
            };
            let step = reference::step(&self.plan, &self.scripts, &mut self.state, lent);
            if step.expect("a good world").outcome == Outcome::Ended {
                return done + 1;
            }
        }
        most
    }
}

struct Plain {
    engine: Box<dyn Engine>,
    world: World,
    spare: World,
}

impl Plain {
    fn new(engine: Box<dyn Engine>) -> Self {
        Plain {
            engine,
            world: World::blank(LOG),
            spare: World::blank(0),
        }
    }

    fn accept(&mut self, call: &Call) {
        let number = self.world.call(&*self.engine, call);
        assert_eq!(number, 0, "a good world");
    }
}

impl Subject for Plain {
    fn name(&self) -> String {
        self.engine.name().into()
    }

    fn read(&mut self, text: &[u8]) -> u32 {
        let World {
            scripts,
            plan,
            answer,
            ..
        } = &mut self.spare;
        self.engine.read_plan(text, scripts, plan, answer)
    }

    fn load(&mut self, sketch: &Sketch) {
        self.world = World::new(&sketch.flat(), &sketch.store(), LOG);
    }

    fn fresh_start(&mut self) {
        self.accept(&Call::FreshStart);
    }

    fn run(&mut self, limit: u64) -> u64 {
        self.accept(&Call::Run(limit));
        self.world.answer[2]
    }

    fn steps(&mut self, most: u64) -> u64 {
        for done in 0..most {
            self.accept(&Call::Step);
            if self.world.answer[3] == 1 {
                return done + 1;
            }
        }
        most
    }
}
