//! Bounds worked out by hand: document 02, E3.

use super::desk::{Desk, OPENING, WORKED};
use super::stored_ops::NO_OPS;
use crate::op::Op;
use crate::{step_bound, Plan, Refusal, StepBound};

/// The worked plan, two windows run once, with nothing stored.
fn bare() -> Desk {
    let mut desk = Desk::of(WORKED);
    desk.scripts.fill(0);
    desk
}

fn bound(desk: &Desk) -> StepBound {
    step_bound(&desk.plan, &desk.scripts).expect("a bound")
}

/// The ops that count in a store.
fn ops(desk: &Desk) -> u64 {
    bound(desk).ops
}

#[test]
fn the_worked_run() {
    let desk = Desk::of(WORKED);
    let parts = StepBound {
        ops: 5,
        switches: 2,
    };
    assert_eq!(bound(&desk), parts);
    assert_eq!(parts.steps(), 7);
}

#[test]
fn an_empty_store() {
    let desk = bare();
    assert_eq!((ops(&desk), bound(&desk).steps()), (0, 2));
}

#[test]
fn op_lines_of_a_text() {
    for lines in [0, 1, 2, 255, 256] {
        let text = format!("{OPENING}{}", "(op 0(receive 7))\n".repeat(lines));
        assert_eq!(ops(&Desk::of(&text)), lines as u64);
    }
}

#[test]
fn what_stands_behind_an_end() {
    for end in 0..256 {
        let mut desk = bare();
        desk.put_ops(1, &[Op::Compute(1); 256]);
        desk.scripts[256 + end] = 0;
        assert_eq!(ops(&desk), end as u64);
        // A second end changes nothing, wherever it stands.
        for later in [end + 1, 255] {
            desk.scripts[256 + later.min(255)] = u32::MAX;
            assert_eq!(ops(&desk), end as u64);
        }
    }
}

#[test]
fn full_scripts() {
    let mut desk = bare();
    for domain in 0..8 {
        desk.put_ops(domain, &[Op::Read(65_535); 256]);
        assert_eq!(ops(&desk), 256 * (domain as u64 + 1));
    }
    desk.scripts[2_047] = 0;
    assert_eq!(ops(&desk), 2_047);
    desk.scripts[0] = 0;
    assert_eq!(ops(&desk), 2_047 - 256);
}

#[test]
fn each_script_has_an_end_of_its_own() {
    let mut desk = bare();
    let lengths = [3, 0, 256, 1, 0, 255, 17, 2];
    for (domain, length) in lengths.into_iter().enumerate() {
        desk.put_ops(domain, &vec![Op::Write(9); length]);
    }
    assert_eq!(ops(&desk), 3 + 256 + 1 + 255 + 17 + 2);
}

#[test]
fn scripts_of_undeclared_domains() {
    for domain in 2..8 {
        let mut desk = bare();
        desk.put_ops(domain, &[Op::Compute(7); 4]);
        assert_eq!((ops(&desk), bound(&desk).steps()), (4, 6), "{domain}");
    }
}

#[test]
fn every_op_at_its_limits() {
    let words = [0, 1, 4_095, 4_096, 65_534, 65_535];
    let lines = words.into_iter().flat_map(|n| [Op::Read(n), Op::Write(n)]);
    let mail = (0..8).flat_map(|other| {
        let sent = words.map(|word| Op::Send { to: other, word });
        sent.into_iter().chain([Op::Receive { from: other }])
    });
    let computes = [1, 2, 199, 200].map(Op::Compute);
    let all: Vec<Op> = lines.chain(mail).chain(computes).collect();
    for place in 0..8 {
        let mut desk = bare();
        desk.put_ops(place, &all);
        assert_eq!(ops(&desk), all.len() as u64);
    }
}

#[test]
fn numbers_that_no_op_gives() {
    for number in NO_OPS {
        for (domain, place) in [(0, 0), (0, 1), (1, 255), (7, 0), (7, 128), (7, 255)] {
            let mut desk = bare();
            desk.put_ops(domain, &[Op::Compute(200); 256]);
            desk.scripts[256 * domain + place] = number;
            assert_eq!(ops(&desk), place as u64, "{number}");
        }
    }
}

/// So many windows of domain 0, one tick each.
fn windows(count: usize, run: u32) -> Desk {
    let domain = "(domain 0(share 1000)(may))\n";
    let windows = "(window 0(length 1))\n".repeat(count);
    Desk::of(&format!("(pad 376)\n(run {run})\n{domain}{windows}"))
}

#[test]
fn switches_are_windows_times_run() {
    for count in [1, 2, 3, 31, 32] {
        for run in [1, 2, 3, 999, 1_000] {
            let mut desk = windows(count, run);
            let switches = count as u64 * u64::from(run);
            assert_eq!(bound(&desk), StepBound { ops: 0, switches });
            desk.put_ops(5, &[Op::Compute(1); 9]);
            assert_eq!(bound(&desk), StepBound { ops: 9, switches });
        }
    }
}

/// Lengths, pads and shares do not count.
#[test]
fn nothing_else_of_a_plan_counts() {
    let mut desk = Desk::of(WORKED);
    desk.plan.pad = 1_000_000;
    desk.plan.domains[0].share = 433;
    desk.plan.domains[0].may.0 = 0;
    for window in &mut desk.plan.windows {
        (window.domain, window.length) = (1, 1_000_000);
    }
    assert_eq!(bound(&desk), bound(&Desk::of(WORKED)));
}

#[test]
fn the_largest_bound() {
    let mut desk = windows(32, 1_000);
    for domain in 0..8 {
        desk.put_ops(domain, &[Op::Send { to: 7, word: 3 }; 256]);
    }
    let parts = StepBound {
        ops: 2_048,
        switches: 32_000,
    };
    assert_eq!((bound(&desk), parts.steps()), (parts, 34_048));
}

#[test]
fn refusals() {
    let good = Desk::of(WORKED).plan;
    let mut short = good.clone();
    short.pad = 375;
    for length in [0, 1, 256, 2_047, 2_049, 2_304, 4_096] {
        for plan in [&good, &short, &Plan::default()] {
            let refused = step_bound(plan, &vec![0; length]);
            assert_eq!(refused, Err(Refusal::TableLength), "{length}");
        }
    }
    for store in [[0; 2_048], [Op::Read(0).stored(); 2_048], [u32::MAX; 2_048]] {
        assert!(step_bound(&good, &store).is_ok());
        for plan in [&short, &Plan::default()] {
            assert_eq!(step_bound(plan, &store), Err(Refusal::Plan));
        }
    }
}
