//! Two engines, each with its own world, that get the same calls.

use crate::engine::Engine;
use crate::laws;
use crate::world::{Call, World};
use std::fmt;

/// The engines and the world that both have reached.
pub struct Pair<'e> {
    engines: [&'e dyn Engine; 2],
    world: World,
}

/// Two engines, frame makers, bounders, writers or lateness finders that do not agree,
/// or one that breaks a law.
#[derive(Clone, Debug)]
pub struct Difference(pub(crate) String);

/// What two of them returned and left, given where it is the same; where not, each
/// by its name and as the scene shows it.
pub(crate) fn agreed<Left: PartialEq>(
    names: [&str; 2],
    made: [(u32, Left); 2],
    scene: impl Fn(u32, &Left) -> String,
) -> Result<(u32, Left), Difference> {
    let [(first, here), (second, there)] = made;
    if first == second && here == there {
        return Ok((first, here));
    }
    Err(Difference(format!(
        "{} and {} differ\nfirst: {}\nsecond: {}",
        names[0],
        names[1],
        scene(first, &here),
        scene(second, &there),
    )))
}

impl<'e> Pair<'e> {
    pub fn new(first: &'e dyn Engine, second: &'e dyn Engine, world: World) -> Self {
        Pair {
            engines: [first, second],
            world,
        }
    }

    /// The world as the calls so far have left it.
    pub fn world(&self) -> &World {
        &self.world
    }

    pub fn into_world(self) -> World {
        self.world
    }

    /// For changes from outside, which both engines meet.
    pub fn world_mut(&mut self) -> &mut World {
        &mut self.world
    }

    /// Makes a call with both engines. Gives the number that both returned if
    /// they agree in everything.
    pub fn call(&mut self, call: &Call) -> Result<u32, Difference> {
        // What an answer held before must not matter, so it is not 0.
        self.world.answer.fill(0x0123_4567_89ab_cdef);
        let before = self.world.clone();
        let mut other = before.clone();
        let numbers = [
            self.world.call(self.engines[0], call),
            other.call(self.engines[1], call),
        ];
        for ((engine, number), world) in self.engines.iter().zip(numbers).zip([&self.world, &other])
        {
            laws::judge(call, &before, world, number).map_err(|what| {
                let name = engine.name();
                Difference(format!("{name}: {what}\n{}", scene(call, &before, world)))
            })?;
        }
        let row = self.world.first_difference(&other);
        if numbers[0] == numbers[1] && row.is_none() {
            return Ok(numbers[0]);
        }
        Err(Difference(format!(
            "{} and {} differ: numbers {} and {}, first in {}\nfirst: {}\nsecond: {}",
            self.engines[0].name(),
            self.engines[1].name(),
            numbers[0],
            numbers[1],
            row.unwrap_or("nothing lent"),
            scene(call, &before, &self.world),
            scene(call, &before, &other),
        )))
    }
}

/// A call and what it changed, for the message.
fn scene(call: &Call, before: &World, after: &World) -> String {
    let call = match call {
        Call::Read(text) => format!("Read({:?})", String::from_utf8_lossy(text)),
        other => format!("{other:?}"),
    };
    format!(
        "{call}: plan {:?} state {:?} log of {} bytes gives answer {:?} state {:?}",
        before.plan,
        before.state,
        before.log.len(),
        after.answer,
        after.state
    )
}

impl fmt::Display for Difference {
    fn fmt(&self, f: &mut fmt::Formatter) -> fmt::Result {
        f.write_str(&self.0)
    }
}
