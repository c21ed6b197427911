//! The numbers that stand for ops: document 01, "The plan text".

use super::desk::{Desk, OPENING};
use crate::op::Op;

const KIND: u32 = 1_048_576;
const OTHER: u32 = 65_536;

/// Numbers of every kind that no op gives.
pub const NO_OPS: [u32; 20] = [
    0,
    1,
    65_535,
    KIND - 1,
    KIND + OTHER,
    KIND + 15 * OTHER + 3,
    2 * KIND + OTHER,
    3 * KIND + 8 * OTHER,
    3 * KIND + 15 * OTHER + 1,
    4 * KIND + 1,
    4 * KIND + 8 * OTHER,
    5 * KIND,
    5 * KIND + 201,
    5 * KIND + OTHER + 1,
    6 * KIND,
    7 * KIND + 1,
    16 * KIND + 1,
    17 * KIND + 3,
    4_095 * KIND,
    u32::MAX,
];

#[test]
fn a_script_as_it_is_stored() {
    let ops = "(op 0(read 65535))\n(op 0(write 3))\n(op 0(send 7 65535))\n(op 0(send 0 0))\n\
               (op 0(receive 6))\n(op 0(compute 200))\n";
    let desk = Desk::of(&format!("{OPENING}{ops}"));
    let expected = [
        KIND + 65_535,
        2 * KIND + 3,
        3 * KIND + 7 * OTHER + 65_535,
        3 * KIND,
        4 * KIND + 6 * OTHER,
        5 * KIND + 200,
    ];
    assert_eq!(desk.scripts[..6], expected);
    assert!(desk.scripts[6..].iter().all(|number| *number == 0));
}

#[test]
fn every_op_comes_back() {
    let words = (0..=65_535).flat_map(|value| [Op::Read(value), Op::Write(value)]);
    let others = (0..8).flat_map(|other| {
        let sent = [0, 1, 65_535].map(|word| Op::Send { to: other, word });
        sent.into_iter().chain([Op::Receive { from: other }])
    });
    for op in words.chain(others).chain((1..=200).map(Op::Compute)) {
        assert_eq!(Op::from_stored(op.stored()), Some(op));
    }
}

#[test]
fn numbers_that_no_op_gives() {
    for number in NO_OPS {
        assert_eq!(Op::from_stored(number), None, "{number}");
        let mut desk = Desk::alone(&[Op::Compute(1), Op::Compute(2), Op::Compute(3)]);
        desk.scripts[1] = number;
        desk.run(u64::MAX).unwrap();
        assert_eq!(desk.seen(0), [("ran", 1, 1)], "{number}");
    }
}

#[test]
fn a_position_is_decoded_whatever_stands_before_it() {
    let mut desk = Desk::alone(&[]);
    desk.scripts[200] = Op::Compute(9).stored();
    desk.state.counts[0].position = 200;
    desk.step().unwrap();
    assert_eq!(desk.seen(0), [("ran", 9, 9)]);
    assert_eq!(desk.state.counts[0].position, 201);
}

#[test]
fn position_256_ends_the_script() {
    let text = "(pad 376)\n(run 1)\n(domain 0(share 500)(may))\n(domain 1(share 400)(may))\n\
                (window 0(length 1000000))";
    let mut desk = Desk::of(text);
    desk.put_ops(0, &[Op::Compute(1); 256]);
    desk.put_ops(1, &[Op::Compute(1); 256]);
    desk.log = vec![0; 8 * 2 * 300];
    let progress = desk.run(u64::MAX).unwrap();
    assert_eq!(progress.steps, 257);
    assert_eq!(desk.seen(0).len(), 256);
    assert_eq!(desk.seen(1).len(), 0);
}
