//! The eleven figures that document 01 marks P under "Settled numbers": that of the
//! shares as document 02, E2, changes it, those of the run and of the pad as its E9 does.

use super::desk::{reading, Desk, WORKED};
use crate::cache::Cache;
use crate::colours::colours_for;
use crate::geometry::Line;
use crate::machine::{Outcome, Progress};
use crate::op::Op;
use crate::planrun::planrun;

/// The first window is the run's first, so its message misses line 60: 5 + 100 + 100
/// behind 101. It ends at 400, and the second starts at 776 with line 60 in L1: 5 + 1 +
/// 100 for the receive, 100 for the read. It ends at 1,076, and the run 376 later.
#[test]
fn p01_the_worked_run() {
    let output = "\
(seen 0 100 (miss 3))
(seen 0 101 (hit1 3))
(seen 0 306 (sent 1))
(seen 1 882 (got 77))
(seen 1 982 (miss 100))
(end 2 1452)
";
    assert_eq!(planrun(WORKED.as_bytes()), output);
}

#[test]
fn p02_shares_to_the_nearest_colour() {
    assert_eq!([33, 34, 100, 300].map(colours_for), [0, 1, 2, 5]);
    let desk = Desk::of(WORKED);
    let holdings: Vec<_> = desk
        .plan
        .domains
        .iter()
        .map(|domain| domain.colours.holding())
        .collect();
    assert_eq!(holdings, [6, 5]);
}

#[test]
fn p03_line_100() {
    let line = Line::new(100).unwrap();
    assert_eq!((line.set(), line.colour(), line.index()), (36, 9, 4));
}

#[test]
fn p04_lines_of_boxes() {
    assert_eq!(Line::of_box(0, 1).number(), 125);
    assert_eq!(Line::of_box(7, 6).number(), 4_029);
}

#[test]
fn p05_the_least_pad() {
    let text = |pad: u32| format!("(pad {pad})\n{}", &WORKED[10..]);
    assert_eq!([276, 375].map(|pad| reading(text(pad))), [(3, 5); 2]);
    assert_eq!(reading(text(376)), (0, 0));
}

#[test]
fn p06_flushing_l1() {
    let mut table = vec![0; 272];
    assert_eq!(Cache::over(&mut table).unwrap().flush_l1(), 8);
    for (index, held) in table[..16].iter_mut().enumerate() {
        *held = 32_768 + index as u16 + 1;
    }
    assert_eq!(Cache::over(&mut table).unwrap().flush_l1(), 40);
    assert_eq!(table, vec![0; 272]);
}

#[test]
fn p07_five_lines_of_one_set_and_p08_the_fourth_again() {
    let ops = [0, 64, 128, 192, 256, 64].map(Op::Read);
    let mut desk = Desk::alone(&ops);
    desk.run(5).unwrap();
    assert!(desk.seen(0).iter().all(|(kind, ..)| *kind == "miss"));
    assert_eq!(desk.set(0), [256, 192, 128, 64]);
    desk.step().unwrap();
    assert_eq!(desk.seen(0)[5], ("hit2", 64, 510));
    assert_eq!(desk.set(0), [64, 256, 192, 128]);
}

#[test]
fn p09_an_op_at_the_last_tick_begins_and_p10_at_the_end_none_does() {
    let text = "(pad 376)\n(run 1)\n(domain 0(share 1000)(may))\n(window 0(length 400))\n\
                (op 0(compute 200))\n(op 0(compute 199))\n(op 0(compute 200))\n(op 0(compute 1))";
    let mut desk = Desk::of(text);
    desk.run(2).unwrap();
    assert_eq!(desk.state.clock, 399);
    desk.step().unwrap();
    assert_eq!((desk.state.clock, desk.state.completed), (599, 0));
    desk.step().unwrap();
    assert_eq!((desk.state.clock, desk.state.completed), (776, 1));
    assert_eq!(desk.seen(0).len(), 3);

    let text = text.replace("199", "200");
    let mut desk = Desk::of(&text);
    desk.run(2).unwrap();
    assert_eq!(desk.state.clock, 400);
    let last = Progress {
        steps: 1,
        outcome: Outcome::Ended,
    };
    assert_eq!(desk.step(), Ok(last));
    assert_eq!((desk.state.clock, desk.seen(0).len()), (776, 2));
}

#[test]
fn p11_the_empty_text() {
    assert_eq!(reading(""), (5, 0));
}
