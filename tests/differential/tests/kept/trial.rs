//! The library beside the reference, on worlds whose log is one domain's part.

use pirkvezo_differential::compare::Pair;
use pirkvezo_differential::engine::{under_test, Engine, Kept, Reference};
use pirkvezo_differential::tally::Tally;
use pirkvezo_differential::world::{Call, World};
use std::fmt::Display;

/// The library, and what the calls so far came to.
pub struct Trial {
    library: Box<dyn Engine>,
    tally: Tally,
}

impl Trial {
    pub fn new() -> Self {
        Trial {
            library: under_test(),
            tally: Tally::default(),
        }
    }

    /// Makes a call with both on a world, which is then as both have left it. Gives the
    /// number that both returned.
    pub fn call(&mut self, world: &mut World, call: &Call, context: &dyn Display) -> u32 {
        let mut pair = Pair::new(&Reference, &*self.library, world.clone());
        let number = pair.call(call);
        let number = number.unwrap_or_else(|difference| panic!("{context}: {difference}"));
        self.tally.note(call, number);
        *world = pair.into_world();
        number
    }

    /// Makes a call that must not be refused.
    pub fn accept(&mut self, world: &mut World, call: &Call, context: &dyn Display) {
        let number = self.call(world, call, context);
        assert_eq!(number, 0, "{context}: {call:?} was refused");
    }

    /// Makes runs of several limits, each on a copy of a world, of which each must return this
    /// number. What a refused one leaves is judged by the laws.
    pub fn runs(&mut self, world: &World, kept: Kept, number: u32, context: &dyn Display) {
        for limit in [0, 1, u64::MAX] {
            let call = Call::RunKept(kept, limit);
            let returned = self.call(&mut world.clone(), &call, context);
            assert_eq!(returned, number, "{context}: {call:?}");
        }
    }

    /// Asserts that exactly these numbers were returned by kept runs, and prints how many
    /// calls there were.
    pub fn finish(&self, test: &str, numbers: &[u32]) {
        self.tally.assert_met("run kept", numbers);
        self.tally.print(test);
    }
}
