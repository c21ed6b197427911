//! Fixed calls with the answers that document 01 settles, asked of every engine
//! by itself: "Settled numbers" and "The plan text", with the shares of document
//! 02, E2, with lines that go back through L2 by its E7, with one domain's log kept by its
//! E8, and with the line that a switch touches by its E9.

use pirkvezo_differential::engine::{under_test, Engine, Kept, Reference};
use pirkvezo_differential::world::{Call, World};

const WORKED: &str = "\
(pad 376)
(domain 0 (share 400) (may 1))
(domain 1 (share 300) (may))
(window 0 (length 400))
(window 1 (length 300))
(run 1)
(op 0 (write 3))
(op 0 (read 3))
(op 0 (send 1 77))
(op 1 (receive 0))
(op 1 (read 100))
";

fn engines() -> [Box<dyn Engine>; 2] {
    [Box::new(Reference), under_test()]
}

/// The answer to a call.
fn ask(engine: &dyn Engine, world: &mut World, call: Call) -> [u64; 4] {
    let number = world.call(engine, &call);
    let answer = world.answer[..].try_into().expect("four numbers");
    assert_eq!(u64::from(number), world.answer[0], "{}", engine.name());
    answer
}

fn worked(engine: &dyn Engine) -> World {
    let mut world = World::blank(16_384);
    let text = WORKED.as_bytes().to_vec();
    assert_eq!(ask(engine, &mut world, Call::Read(text)), [0; 4]);
    assert_eq!(ask(engine, &mut world, Call::FreshStart), [0; 4]);
    world
}

/// The records of the worked run, by domain, as bytes.
fn worked_records() -> [Vec<u8>; 2] {
    let first = [
        [3, 0, 3, 0, 100, 0, 0, 0],
        [1, 0, 3, 0, 101, 0, 0, 0],
        [4, 0, 1, 0, 50, 1, 0, 0],
    ];
    // 882 and 982: the second window starts at 776 with line 60 in L1.
    let second = [[5, 0, 77, 0, 114, 3, 0, 0], [3, 0, 100, 0, 214, 3, 0, 0]];
    [first.concat(), second.concat()]
}

#[test]
fn the_worked_run() {
    for engine in engines() {
        let mut world = worked(&*engine);
        assert_eq!(world.plan[..6], [376, 1, 2, 2, 400, 300]);
        assert_eq!(world.plan[84..86], [0b111111, 0b11111000000]);
        let answer = ask(&*engine, &mut world, Call::Run(u64::MAX));
        assert_eq!(answer, [0, 0, 7, 1]);
        assert_eq!(world.state[..4], [2, 1_452, 3, 2]);
        let first = ask(&*engine, &mut world, Call::Log(0));
        let second = ask(&*engine, &mut world, Call::Log(1));
        assert_eq!((first, second), ([0, 0, 0, 24], [0, 0, 8_192, 16]));
        let [first, second] = worked_records();
        assert_eq!(world.log[..24], first);
        assert_eq!(world.log[8_192..8_208], second);
        assert_eq!(ask(&*engine, &mut world, Call::Log(2)), [4, 0, 0, 0]);
        assert_eq!(ask(&*engine, &mut world, Call::Step), [0, 0, 0, 1]);
        assert_eq!(ask(&*engine, &mut world, Call::Run(0)), [0, 0, 0, 1]);
    }
}

#[test]
fn limits_of_a_run() {
    for engine in engines() {
        let mut world = worked(&*engine);
        assert_eq!(ask(&*engine, &mut world, Call::Run(0)), [0, 0, 0, 0]);
        assert_eq!(ask(&*engine, &mut world, Call::Step), [0, 0, 1, 0]);
        assert_eq!(ask(&*engine, &mut world, Call::Run(5)), [0, 0, 5, 0]);
        assert_eq!(ask(&*engine, &mut world, Call::Run(1)), [0, 0, 1, 1]);
    }
}

#[test]
fn readings() {
    let opening = "(pad 376)\n(run 1)\n(domain 0(share 400)(may))\n(window 0(length 400))\n";
    let after = |rest: &str| format!("{opening}{rest}");
    let at = opening.len() as u64;
    let texts = [
        (String::new(), 5, 0),
        ("pad(376".into(), 2, 0),
        ("(pad(376))".into(), 2, 4),
        ("(pad 276)".into(), 3, 5),
        ("(pad 375)".into(), 3, 5),
        ("(pad 376)".into(), 5, 9),
        ("(pad 376)(run 1)".into(), 2, 9),
        ("(pad 376)\n(pad 376) x".into(), 2, 20),
        ("(pad 376)\n(pad 5)".into(), 3, 15),
        ("(pad 376)\n(pad 376)".into(), 5, 10),
        ("(12345678901 376)".into(), 2, 1),
        ("(pad 12345678901)".into(), 3, 5),
        ("(pad 00000000376)".into(), 3, 5),
        ("(pad 376 12345678901)".into(), 2, 9),
        ("(pad 376".into(), 2, 8),
        ("(pad 376  \n".into(), 2, 10),
        ("(pad 376\r)".into(), 2, 5),
        ("(pad 1a)".into(), 2, 5),
        ("(pad -1)".into(), 2, 5),
        ("(Pad 376)".into(), 2, 1),
        ("(domain 0 (share 400) (may 1 1))".into(), 8, 29),
        ("(domain 0 (share 400) (may 9 9))".into(), 3, 27),
        ("(domain 0 (share 400) (may 0 9))".into(), 8, 27),
        ("(domain 0 (may) (share 400))".into(), 2, 11),
        ("(domain 1 (share 400) (may))".into(), 4, 8),
        (after("(op 5 (foo 1))"), 4, at + 4),
        (after("(op 9 (read 1))"), 3, at + 4),
        (after("(window 9 (length 1))"), 3, at + 8),
        (
            after(&"(window 0(length 1))\n".repeat(32)),
            10,
            at + 31 * 21,
        ),
        (after(&"(op 0(read 1))\n".repeat(257)), 10, at + 256 * 15),
        (opening.replace("400)(may)", "33)(may)"), 6, 0),
        (opening.replace("400)(may)", "34)(may)"), 0, 0),
        (opening.replace("(may)", "(may 1)"), 4, 43),
        (after("(domain 1(share 601)(may))"), 7, 1_001),
        (opening.replace("(pad 376)", ""), 5, at - 9),
        (" ".repeat(32_768), 5, 32_768),
        (" ".repeat(32_769), 1, 0),
        (format!("{opening:32768}"), 0, 0),
        (opening.replace('(', " ( ").replace(')', " ) "), 0, 0),
    ];
    for engine in engines() {
        for (text, number, companion) in &texts {
            let mut world = World::blank(0);
            let answer = ask(&*engine, &mut world, Call::Read(text.clone().into_bytes()));
            assert_eq!(answer, [*number, *companion, 0, 0], "{text}");
        }
    }
}

/// A text of these shares that is good but for them.
fn divided(shares: &[u32]) -> Vec<u8> {
    let mut text = String::from("(pad 376)\n(run 1)\n");
    for (own, share) in shares.iter().enumerate() {
        text += &format!("(domain {own}(share {share})(may))\n");
    }
    (text + "(window 0(length 400))\n").into_bytes()
}

#[test]
fn colours_of_shares() {
    let divisions = [
        (&[34][..], &[0b1][..]),
        (&[99, 100], &[0b1, 0b110]),
        (&[100, 300], &[0b11, 0b1111100]),
        (&[966, 34], &[0x3fff, 0x4000]),
        (&[500, 499], &[0x00ff, 0x7f00]),
        (&[300, 300, 300], &[0x001f, 0x03e0, 0x7c00]),
        (&[1_000], &[0x7fff]),
    ];
    for engine in engines() {
        for (shares, masks) in divisions {
            let mut world = World::blank(0);
            let answer = ask(&*engine, &mut world, Call::Read(divided(shares)));
            assert_eq!(answer, [0; 4], "{shares:?}");
            assert_eq!(world.plan[84..84 + masks.len()], *masks, "{shares:?}");
        }
    }
}

#[test]
fn too_many_colours() {
    let divisions = [
        (&[125; 8][..], 16, 16),
        (&[100; 8], 16, 16),
        (&[500, 500], 16, 16),
        (&[600, 100, 100, 100, 100], 16, 17),
        (&[100, 100, 100, 100, 100, 500], 16, 18),
        (&[100, 100, 300, 100, 100, 100, 100, 100], 16, 19),
        // Over the whole as well; then a share without a colour as well.
        (&[600, 500], 7, 1_100),
        (&[33, 500, 100, 100, 100, 100], 16, 16),
    ];
    for engine in engines() {
        for (shares, number, companion) in divisions {
            let mut world = World::blank(0);
            let answer = ask(&*engine, &mut world, Call::Read(divided(shares)));
            assert_eq!(answer, [number, companion, 0, 0], "{shares:?}");
            assert_eq!(world.plan[..], [0; 92], "{shares:?}");
        }
    }
}

#[test]
fn refusals_of_a_step() {
    for engine in engines() {
        let engine = &*engine;
        let refused = |change: &dyn Fn(&mut World), number| {
            let mut world = worked(engine);
            change(&mut world);
            for call in [Call::Step, Call::Run(0), Call::Run(u64::MAX)] {
                let mut after = world.clone();
                assert_eq!(ask(engine, &mut after, call), [number, 0, 0, 0]);
                after.answer = world.answer.clone();
                assert_eq!(after, world);
            }
        };
        refused(&|world| world.cache.set_length(271), 11);
        refused(&|world| world.boxes.set_length(65), 11);
        refused(&|world| world.scripts.set_length(2_047), 11);
        refused(&|world| world.plan.set_length(93), 11);
        refused(&|world| world.state.set_length(17), 11);
        refused(&|world| world.plan.fill(0), 12);
        refused(&|world| world.plan[0] = 276, 12);
        refused(&|world| world.plan[0] = 375, 12);
        refused(&|world| world.plan[84] |= 1 << 16, 12);
        refused(&|world| world.plan[91] = 1, 12);
        refused(&|world| world.plan[85] = 0b1111000000, 12);
        for second in [0x7f00, 0xff00] {
            let crowd = move |world: &mut World| {
                world.plan[4..6].copy_from_slice(&[500, 500]);
                world.plan[84..86].copy_from_slice(&[0x00ff, second]);
            };
            refused(&crowd, 12);
        }
        refused(&|world| world.cache[0] = 32_768, 13);
        refused(&|world| world.cache[271] = 64, 13);
        refused(&|world| world.boxes[1] = 65_537, 13);
        refused(&|world| world.boxes[8] = 1, 13);
        refused(&|world| world.state[0] = 3, 14);
        refused(&|world| world.state[1] = 613, 14);
        refused(&|world| world.state[1] = 1 << 32, 14);
        refused(&|world| world.state[2] = 257, 14);
        refused(&|world| world.state[4] = 1, 14);
        refused(&|world| world.state[10] = 1_025, 14);
        refused(&|world| world.state[17] = 1, 14);
    }
}

/// The worked world with a log that is one part of so many records.
fn worked_part(engine: &dyn Engine, records: usize) -> World {
    let mut world = worked(engine);
    world.log.set_length(8 * records);
    world.log.fill(0xa5);
    world
}

#[test]
fn refusals_of_a_kept_run() {
    for engine in engines() {
        let engine = &*engine;
        let refused = |change: &dyn Fn(&mut World), domain, part, number| {
            let mut world = worked_part(engine, 4);
            change(&mut world);
            for limit in [0, 1, u64::MAX] {
                let mut after = world.clone();
                let call = Call::RunKept(Kept { domain, part }, limit);
                assert_eq!(ask(engine, &mut after, call), [number, 0, 0, 0]);
                after.answer = world.answer.clone();
                assert_eq!(after, world);
            }
        };
        refused(&|world| world.log.set_length(31), 0, 4, 11);
        refused(&|world| world.log.set_length(33), 0, 4, 11);
        refused(&|world| world.log.set_length(64), 0, 4, 11);
        refused(&|_| {}, 0, 3, 11);
        refused(&|_| {}, 0, 5, 11);
        refused(&|_| {}, 0, 4 + (1 << 61), 11);
        refused(&|_| {}, 2, u64::MAX, 11);
        refused(&|world| world.log.set_length(0), 0, 1 << 61, 11);
        refused(&|world| world.log.set_length(0), 0, 1 << 63, 11);
        refused(&|world| world.plan.set_length(91), 0, 4, 11);
        refused(&|world| world.scripts.set_length(2_049), 0, 4, 11);
        refused(&|world| world.state.set_length(19), 0, 4, 11);
        refused(&|world| world.cache.set_length(271), 0, 4, 11);
        refused(&|world| world.boxes.set_length(63), 0, 4, 11);
        refused(&|world| world.plan.fill(0), 2, 5, 11);
        // Each beside all that comes later.
        refused(&|world| world.plan.fill(0), 2, 4, 12);
        let damaged = |world: &mut World| {
            world.cache[0] = 32_768;
            world.state[11] = 5;
        };
        refused(&damaged, 2, 4, 13);
        for domain in [0, 1, 2] {
            refused(&|world| world.state[10] = 5, domain, 4, 14);
            refused(&|world| world.state[11] = 5, domain, 4, 14);
        }
        for domain in [2, 7, 8, 256, u32::MAX] {
            refused(&|_| {}, domain, 4, 4);
            refused(&|world| world.log.set_length(0), domain, 0, 4);
        }
    }
}

#[test]
fn the_worked_run_kept() {
    for engine in engines() {
        for (domain, seen) in (0..).zip(worked_records()) {
            let mut world = worked_part(&*engine, 4);
            let run = |limit| Call::RunKept(Kept { domain, part: 4 }, limit);
            assert_eq!(ask(&*engine, &mut world, run(0)), [0, 0, 0, 0]);
            assert_eq!(ask(&*engine, &mut world, run(6)), [0, 0, 6, 0]);
            assert_eq!(ask(&*engine, &mut world, run(u64::MAX)), [0, 0, 1, 1]);
            assert_eq!(ask(&*engine, &mut world, run(1)), [0, 0, 0, 1]);
            assert_eq!(world.state[..4], [2, 1_452, 3, 2]);
            assert_eq!(world.state[10..12], [3, 2]);
            let (new, old) = world.log.split_at(seen.len());
            assert_eq!(new, seen, "{}", engine.name());
            assert!(old.iter().all(|byte| *byte == 0xa5), "{}", engine.name());
        }
    }
}

/// Domain 0 has room for two records, kept or not, and so it never sends.
#[test]
fn an_idle_domain_beside_the_kept_one() {
    for engine in engines() {
        let [first, _] = worked_records();
        let second = [[6, 0, 0, 0, 114, 3, 0, 0], [3, 0, 100, 0, 214, 3, 0, 0]];
        for (domain, seen) in [(0, &first[..16]), (1, second.as_flattened())] {
            let mut world = worked_part(&*engine, 2);
            let run = Call::RunKept(Kept { domain, part: 2 }, u64::MAX);
            assert_eq!(ask(&*engine, &mut world, run), [0, 0, 6, 1]);
            assert_eq!(world.state[..4], [2, 1_452, 2, 2]);
            assert_eq!(world.state[10..12], [2, 2]);
            assert_eq!(world.log[..], *seen, "{}", engine.name());
        }
        let mut world = worked_part(&*engine, 0);
        let run = Call::RunKept(Kept { domain: 1, part: 0 }, u64::MAX);
        assert_eq!(ask(&*engine, &mut world, run), [0, 0, 2, 1]);
        assert_eq!(world.state[..4], [2, 1_452, 0, 0]);
    }
}

/// A lent table, one op on it, and what it comes to.
struct PutOut {
    /// Numbers of L1 by index, and L2 sets by number.
    near: &'static [(usize, u16)],
    sets: &'static [(usize, [u16; 4])],
    /// The op as a script holds it.
    op: u32,
    /// Its record's kind, and the ticks that it takes.
    kind: u8,
    ticks: u64,
    /// What is then in L1 and in L2.
    left_near: &'static [(usize, u16)],
    left_sets: &'static [(usize, [u16; 4])],
}

const READ: u32 = 1 << 20;
const SEND: u32 = 3 << 20;

const PUT_OUT: [PutOut; 7] = [
    // Line 0 drops line 256, which is then sought.
    PutOut {
        near: &[(0, 32_769)],
        sets: &[(0, [65, 129, 193, 257])],
        op: READ | 256,
        kind: 3,
        ticks: 104,
        left_near: &[(0, 257)],
        left_sets: &[(0, [257, 1, 65, 129])],
    },
    // The set has room.
    PutOut {
        near: &[(0, 32_769)],
        sets: &[(0, [65, 129, 193, 0])],
        op: READ | 64,
        kind: 2,
        ticks: 14,
        left_near: &[(0, 65)],
        left_sets: &[(0, [65, 1, 129, 193])],
    },
    // Line 16 is of another set than line 0.
    PutOut {
        near: &[(0, 32_785)],
        sets: &[(16, [81, 145, 209, 273])],
        op: READ,
        kind: 3,
        ticks: 104,
        left_near: &[(0, 1)],
        left_sets: &[(0, [1, 0, 0, 0]), (16, [17, 81, 145, 209])],
    },
    // Line 125 is the kernel's.
    PutOut {
        near: &[(13, 32_894)],
        sets: &[(61, [62, 126, 190, 254])],
        op: READ | 13,
        kind: 3,
        ticks: 104,
        left_near: &[(13, 14)],
        left_sets: &[(13, [14, 0, 0, 0]), (61, [126, 62, 190, 254])],
    },
    // A clean line is not put out.
    PutOut {
        near: &[(0, 1)],
        sets: &[(0, [65, 129, 193, 257])],
        op: READ | 256,
        kind: 2,
        ticks: 10,
        left_near: &[(0, 257)],
        left_sets: &[(0, [257, 65, 129, 193])],
    },
    // Nor is one that is hit.
    PutOut {
        near: &[(0, 32_769)],
        sets: &[(0, [65, 1, 129, 0])],
        op: READ,
        kind: 1,
        ticks: 1,
        left_near: &[(0, 32_769)],
        left_sets: &[(0, [65, 1, 129, 0])],
    },
    // A message of which both accesses put a line out: 12 and 13.
    PutOut {
        near: &[(12, 32_781), (13, 32_782)],
        sets: &[(12, [77, 13, 0, 0]), (13, [78, 142, 206, 270])],
        op: SEND | 1 << 16 | 5,
        kind: 4,
        ticks: 213,
        left_near: &[(12, 61), (13, 32_894)],
        left_sets: &[
            (12, [13, 77, 0, 0]),
            (13, [14, 78, 142, 206]),
            (60, [61, 0, 0, 0]),
            (61, [126, 0, 0, 0]),
        ],
    },
];

/// A cache table with these numbers in it and 0 elsewhere.
fn table(near: &[(usize, u16)], sets: &[(usize, [u16; 4])]) -> [u16; 272] {
    let mut table = [0; 272];
    near.iter().for_each(|(index, held)| table[*index] = *held);
    for (set, ways) in sets {
        table[16 + 4 * set..][..4].copy_from_slice(ways);
    }
    table
}

/// Domain 0 has the colours 0 to 13 and may send to domain 1.
fn wide(engine: &dyn Engine) -> World {
    let text = "(pad 376)\n(run 1)\n(domain 0(share 966)(may 1))\n(domain 1(share 34)(may))\n\
                (window 0(length 4000))\n";
    let mut world = World::blank(16);
    let text = text.as_bytes().to_vec();
    assert_eq!(ask(engine, &mut world, Call::Read(text)), [0; 4]);
    assert_eq!(ask(engine, &mut world, Call::FreshStart), [0; 4]);
    world
}

#[test]
fn lines_put_out() {
    for engine in engines() {
        for case in PUT_OUT {
            let mut world = wide(&*engine);
            world.cache[..].copy_from_slice(&table(case.near, case.sets));
            world.scripts[0] = case.op;
            assert_eq!(ask(&*engine, &mut world, Call::Step), [0, 0, 1, 0]);
            assert_eq!((world.log[0], world.state[1]), (case.kind, case.ticks));
            let left = table(case.left_near, case.left_sets);
            assert_eq!(world.cache[..], left, "{}", engine.name());
        }
    }
}

/// What a switch finds in L1, in a domain's own sets and in the kernel's.
const NEAR: [(usize, u16); 3] = [(0, 32_769), (1, 32_786), (13, 32_894)];
const OWN: [(usize, [u16; 4]); 2] = [(0, [65, 1, 0, 0]), (17, [82, 146, 210, 274])];
const KERNEL: [(usize, [u16; 4]); 2] = [(60, [61, 0, 0, 0]), (61, [62, 126, 0, 0])];

/// A switch empties L1 and the kernel's sets, and writes nothing to the others. This one is
/// the run's last.
#[test]
fn a_flush_puts_nothing_out() {
    for engine in engines() {
        let mut world = wide(&*engine);
        let lent = table(&NEAR, &[OWN, KERNEL].concat());
        world.cache[..].copy_from_slice(&lent);
        assert_eq!(ask(&*engine, &mut world, Call::Step), [0, 0, 1, 1]);
        assert_eq!(world.state[..2], [1, 4_376]);
        assert_eq!(world.cache[..], table(&[], &OWN), "{}", engine.name());
    }
}

/// The caches that the next window finds.
fn touched(own: &[(usize, [u16; 4])]) -> [u16; 272] {
    table(&[(12, 61)], &[own, &[(60, [61, 0, 0, 0])]].concat())
}

/// Any other switch leaves line 60, which neither is dirty nor has others behind it, also
/// where the window is the last of its pass.
#[test]
fn a_switch_leaves_line_60() {
    for engine in engines() {
        let mut world = wide(&*engine);
        world.plan[1] = 3;
        let lent = table(&NEAR, &[OWN, KERNEL].concat());
        world.cache[..].copy_from_slice(&lent);
        for completed in [1, 2] {
            assert_eq!(ask(&*engine, &mut world, Call::Step), [0, 0, 1, 0]);
            assert_eq!(world.state[..2], [completed, 4_376 * completed]);
            assert_eq!(world.cache[..], touched(&OWN), "{}", engine.name());
        }
        assert_eq!(ask(&*engine, &mut world, Call::Step), [0, 0, 1, 1]);
        assert_eq!(world.state[..2], [3, 3 * 4_376]);
        assert_eq!(world.cache[..], table(&[], &OWN), "{}", engine.name());
        // The run's first window of another run starts without it.
        assert_eq!(ask(&*engine, &mut world, Call::FreshStart), [0; 4]);
        assert_eq!(world.cache[..], [0; 272], "{}", engine.name());
    }
}

/// A dirty line 60, behind others in its set, is clean and alone behind the switch.
#[test]
fn a_switch_does_not_keep_line_60() {
    for engine in engines() {
        let mut world = wide(&*engine);
        world.plan[1] = 2;
        let lent = table(&[(12, 32_768 + 61)], &[(60, [125, 189, 61, 253])]);
        world.cache[..].copy_from_slice(&lent);
        assert_eq!(ask(&*engine, &mut world, Call::Step), [0, 0, 1, 0]);
        assert_eq!(world.cache[..], touched(&[]), "{}", engine.name());
    }
}

/// Messages in a window behind another: line 60 is in L1, or in L2 where a write has put it
/// out.
#[test]
fn a_message_behind_a_switch() {
    for engine in engines() {
        let mut world = wide(&*engine);
        world.plan[1] = 2;
        world.log.set_length(3 * 2 * 8);
        assert_eq!(ask(&*engine, &mut world, Call::Step), [0, 0, 1, 0]);
        let send = SEND | 1 << 16 | 5;
        let write = 2 << 20 | 12;
        world.scripts[..3].copy_from_slice(&[send, write, send]);
        let [first, second] = [5 + 1 + 100, 100];
        for ticks in [first, second, 5 + (10 + 4) + 1] {
            let before = world.state[1];
            assert_eq!(ask(&*engine, &mut world, Call::Step), [0, 0, 1, 0]);
            assert_eq!(world.state[1], before + ticks, "{}", engine.name());
        }
    }
}

/// Sixteen dirty lines, sixteen lines in the kernel's sets, and an op that has gone on for
/// 212 ticks: 24 + 40 + 100 more, and the least pad is over. The next window starts when the
/// plan says, and the run ends then.
#[test]
fn the_longest_switch() {
    for engine in engines() {
        for run in [1, 2, 1_000] {
            let mut world = wide(&*engine);
            world.plan[1] = run;
            for index in 0..16 {
                world.cache[usize::from(index)] = 32_768 + index + 1;
            }
            for set in 60..64 {
                let ways = [0, 64, 128, 192].map(|above| set as u16 + above + 1);
                world.cache[16 + 4 * set..][..4].copy_from_slice(&ways);
            }
            for completed in [0, u64::from(run) - 1] {
                let mut world = world.clone();
                let end = 4_376 * completed + 4_000;
                world.state[..2].copy_from_slice(&[completed, end + 212]);
                let ended = u64::from(completed + 1 == u64::from(run));
                assert_eq!(ask(&*engine, &mut world, Call::Step), [0, 0, 1, ended]);
                assert_eq!(world.state[..2], [completed + 1, end + 376]);
                let due = if ended == 1 { [0; 272] } else { touched(&[]) };
                assert_eq!(world.cache[..], due, "{}", engine.name());
                // A tick later there is no such state.
                world.state[..2].copy_from_slice(&[completed, end + 213]);
                assert_eq!(ask(&*engine, &mut world, Call::Step), [14, 0, 0, 0]);
            }
        }
    }
}

/// Line 60 in L1 and in its set is no damage while a window runs, dirty or clean, and need
/// not be there. After the end it is none in L2 alone.
#[test]
fn line_60_is_allowed() {
    for engine in engines() {
        for completed in [0, 1] {
            for near in [0, 61, 32_768 + 61] {
                for far in [[0; 4], [61, 0, 0, 0], [125, 189, 253, 61]] {
                    let mut world = wide(&*engine);
                    world.plan[1] = 2;
                    world.state[..2].copy_from_slice(&[completed, 4_376 * completed]);
                    let lent = table(&[(12, near)], &[(60, far)]);
                    world.cache[..].copy_from_slice(&lent);
                    assert_eq!(ask(&*engine, &mut world, Call::Run(0)), [0; 4]);
                    assert_eq!(world.cache[..], lent);
                }
            }
        }
        let mut world = wide(&*engine);
        world.state[..2].copy_from_slice(&[1, 4_376]);
        world.cache[16 + 4 * 60] = 61;
        assert_eq!(ask(&*engine, &mut world, Call::Step), [0, 0, 0, 1]);
        world.cache[12] = 61;
        assert_eq!(ask(&*engine, &mut world, Call::Step), [13, 0, 0, 0]);
    }
}
