//! Demand 3 by trial: what the others do shows nowhere in what a domain has.
//! Document 01, "Two lists of calls", and document 02: also where lines that others put
//! out go back through L2 (E7), and where the domain's own log is all that is kept (E8).

use pirkvezo_differential::engine::{under_test, Engine, OldBoard, Reference};
use pirkvezo_differential::generate::pairs::StorePair;
use pirkvezo_differential::generate::rivals::WorldPair;
use pirkvezo_differential::isolation::{hold_together, Compared, Observer, Trail};
use pirkvezo_differential::kept::keep;
use pirkvezo_differential::rng::Rng;
use pirkvezo_differential::seed::cases;
use pirkvezo_differential::timeline::Timeline;
use pirkvezo_differential::world::{Call, World};

/// Runs both stores and holds the two runs against each other.
fn try_pair(engine: &dyn Engine, rng: &mut Rng) -> Result<Compared, String> {
    let pair = StorePair::random(rng);
    let records = rng.pick(&[256, 256, 256, 40, 3, 0]);
    let log = 8 * pair.sketch.members.len() * records + rng.place(8);
    try_stores(engine, &pair, log, Observer::Asking(pair.observer))
}

/// The same where the observer's part is all that is lent of the log.
fn try_kept_pair(engine: &dyn Engine, rng: &mut Rng) -> Result<Compared, String> {
    let pair = StorePair::random(rng);
    let records = rng.pick(&[256, 256, 40, 9, 3, 0]);
    try_stores(engine, &pair, 8 * records, Observer::Keeping(pair.observer))
}

fn try_stores(
    engine: &dyn Engine,
    pair: &StorePair,
    log: usize,
    observer: Observer,
) -> Result<Compared, String> {
    let plan = pair.sketch.flat();
    let timeline = Timeline::of(&plan).expect("windows");
    let [first, second] = [0, 1].map(|at| {
        // What the log held before the run is nobody's business either.
        let mut world = World::new(&plan, &pair.stores[at], log);
        world.log.fill(0x55 << at);
        Trail::walk(engine, world, observer)
    });
    hold_together(&first?, &second?, &timeline, pair.observer)
}

/// What all pairs of one engine came to.
#[derive(Clone, Copy, Debug, Default)]
struct Sum {
    pairs: u64,
    whole: u64,
    windows: u64,
    points: u64,
}

impl Sum {
    fn add(&mut self, compared: Compared) {
        self.pairs += 1;
        self.whole += u64::from(compared.to_the_end);
        self.windows += compared.own_windows;
        self.points += compared.points;
    }

    fn assert_enough(self) {
        println!("{self:?}");
        assert!(2 * self.whole > self.pairs, "too few pairs had equal boxes");
        assert!(
            self.windows > self.pairs,
            "too few windows were held together"
        );
    }
}

/// Tries so many pairs with the reference and with the library.
fn try_both(
    test: &str,
    count: u64,
    try_one: impl Fn(&dyn Engine, &mut Rng) -> Result<Compared, String>,
) {
    let engines: [Box<dyn Engine>; 2] = [Box::new(Reference), under_test()];
    let mut sums = [Sum::default(); 2];
    for (case, rng) in cases(test, count) {
        for (engine, sum) in engines.iter().zip(&mut sums) {
            let compared = try_one(&**engine, &mut rng.clone());
            sum.add(compared.unwrap_or_else(|what| {
                panic!("{case}: {}: {what}", engine.name());
            }));
        }
    }
    sums.into_iter().for_each(Sum::assert_enough);
}

#[test]
fn nothing_shows_of_the_others() {
    try_both("isolation", 2_000, try_pair);
}

#[test]
fn nothing_shows_of_the_others_in_a_kept_log() {
    try_both("isolation, kept", 2_000, try_kept_pair);
}

/// Runs on from two lent worlds and holds the two runs against each other.
fn try_worlds(engine: &dyn Engine, rng: &mut Rng) -> Result<Compared, String> {
    let WorldPair { observer, worlds } = WorldPair::random(rng);
    let timeline = Timeline::of(&worlds[0].plan).expect("windows");
    let [first, second] =
        worlds.map(|world| Trail::walk_on(engine, world, Observer::Asking(observer)));
    hold_together(&first?, &second?, &timeline, observer)
}

#[test]
fn nothing_shows_of_the_others_on_lent_tables() {
    try_both("isolation, lent", 2_000, try_worlds);
}

/// The same where the observer's part is all that is lent of each world's log.
fn try_kept_worlds(engine: &dyn Engine, rng: &mut Rng) -> Result<Compared, String> {
    let WorldPair { observer, worlds } = WorldPair::random(rng);
    let timeline = Timeline::of(&worlds[0].plan).expect("windows");
    let [first, second] = worlds.map(|world| {
        let (world, _) = keep(&world, observer);
        Trail::walk_on(engine, world, Observer::Keeping(observer))
    });
    hold_together(&first?, &second?, &timeline, observer)
}

#[test]
fn nothing_shows_of_the_others_in_a_kept_log_on_lent_tables() {
    try_both("isolation, kept, lent", 2_000, try_kept_worlds);
}

/// E7 shows in most of those pairs, in both worlds, and nearly all differ in their caches.
#[test]
fn lent_worlds_differ_in_what_they_put_out() {
    let (mut shown, mut apart, mut count) = (0, 0, 0);
    for (_, mut rng) in cases("isolation, worlds", 1_000) {
        let WorldPair { worlds, .. } = WorldPair::random(&mut rng);
        count += 1;
        apart += u32::from(worlds[0].cache != worlds[1].cache);
        shown += u32::from(worlds.iter().all(|world| {
            let after = |engine: &dyn Engine| {
                let mut world = world.clone();
                let made = world.accept(engine, &Call::Run(5));
                made.map(|()| world)
            };
            after(&Reference) != after(&OldBoard)
        }));
    }
    assert!(2 * shown > count, "{shown} of {count}");
    assert!(10 * apart > 9 * count, "{apart} of {count}");
}
