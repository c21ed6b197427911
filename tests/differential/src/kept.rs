//! Runs that keep one domain's log beside the same runs with everyone's: document 02, E8.

use crate::engine::{Engine, Kept, ANSWER, PLAN};
use crate::generate::sketch::Act;
use crate::guarded::Guarded;
use crate::laws;
use crate::world::{Call, World};

/// How many records each part of a world's whole log holds; none where its plan tells no
/// number of domains.
pub fn room(world: &World) -> Option<usize> {
    let domains = world.plan[..].get(2).filter(|_| world.plan.len() == PLAN);
    match domains.copied() {
        Some(domains @ 1..=8) => Some(world.log.len() / (8 * domains as usize)),
        _ => None,
    }
}

/// The same world with one domain's part for its log, where each part holds so many records.
pub fn cut(world: &World, domain: usize, room: usize) -> World {
    let part = &world.log[8 * room * domain..][..8 * room];
    let mut cut = world.clone();
    cut.log = Guarded::new(part);
    cut
}

/// The same world with one declared domain's part for its log, and what keeps it.
pub fn keep(world: &World, domain: usize) -> (World, Kept) {
    let room = room(world).expect("a number of domains");
    let kept = Kept {
        domain: domain as u32,
        part: room as u64,
    };
    (cut(world, domain, room), kept)
}

/// The domains that have ops left but no room for their records, where each part holds so
/// many.
pub fn idle_domains(world: &World, part: u64) -> Vec<usize> {
    let declared = 0..world.plan[2] as usize;
    let has_op = |domain: usize| {
        let position = world.state[2 + domain] as usize;
        position < 256 && Act::is_stored(world.scripts[256 * domain + position])
    };
    let is_full = |domain: usize| world.state[10 + domain] == part;
    declared
        .filter(|domain| is_full(*domain) && has_op(*domain))
        .collect()
}

/// A world with everyone's log and, for each of its domains, the same world with that
/// domain's part alone. All of them get the same runs.
pub struct Beside<'e> {
    engine: &'e dyn Engine,
    whole: World,
    room: usize,
    parts: Vec<World>,
}

impl<'e> Beside<'e> {
    /// None where the plan tells no number of domains.
    pub fn new(engine: &'e dyn Engine, whole: World) -> Option<Self> {
        let room = room(&whole)?;
        let domains = 0..whole.plan[2] as usize;
        Some(Beside {
            engine,
            room,
            parts: domains.map(|domain| cut(&whole, domain, room)).collect(),
            whole,
        })
    }

    /// The world with everyone's log, as the runs so far have left it.
    pub fn whole(&self) -> &World {
        &self.whole
    }

    /// How many records each part holds.
    pub fn part(&self) -> u64 {
        self.room as u64
    }

    pub fn fresh_start(&mut self) -> Result<(), String> {
        let worlds = self.parts.iter_mut().chain([&mut self.whole]);
        for world in worlds {
            world.accept(self.engine, &Call::FreshStart)?;
        }
        Ok(())
    }

    /// Makes a run with everyone's log, and once for each domain the same run that keeps its
    /// log. All must return the same, and leave the same but for the other parts. Gives the
    /// number that they returned.
    pub fn run(&mut self, limit: u64) -> Result<u32, String> {
        let number = call(self.engine, &mut self.whole, &Call::Run(limit))?;
        for (domain, world) in self.parts.iter_mut().enumerate() {
            let kept = Kept {
                domain: domain as u32,
                part: self.room as u64,
            };
            let returned = call(self.engine, world, &Call::RunKept(kept, limit))?;
            let due = cut(&self.whole, domain, self.room);
            let row = world.first_difference(&due);
            if (returned, row) != (number, None) {
                return Err(format!(
                    "{kept:?}, limit {limit}: {returned} and not {number} was returned, or the \
                     whole log's run left something else: {row:?}\nkept: {world:?}\nwhole: {due:?}"
                ));
            }
        }
        Ok(number)
    }

    /// For how many of the domains another one is idle now for want of room.
    pub fn idle_beside(&self) -> u64 {
        match idle_domains(&self.whole, self.part()).len() {
            0 => 0,
            1 => self.parts.len() as u64 - 1,
            _ => self.parts.len() as u64,
        }
    }
}

/// Makes a call, and judges it by the laws of one engine alone.
fn call(engine: &dyn Engine, world: &mut World, call: &Call) -> Result<u32, String> {
    if world.answer.len() == ANSWER {
        // What an answer held before must not matter, so it is not 0.
        world.answer.fill(0x0123_4567_89ab_cdef);
    }
    let before = world.clone();
    let number = world.call(engine, call);
    laws::judge(call, &before, world, number)?;
    Ok(number)
}
