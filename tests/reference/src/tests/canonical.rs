//! Plans written back, worked out by hand: document 02, E4. What is refused comes
//! first.

use super::desk::{reading, Desk, OPENING, WORKED};
use super::stored_ops::NO_OPS;
use crate::op::Op;
use crate::{write_plan, Plan, Refusal};

/// The worked run in the single form: 203 bytes.
const WORKED_BACK: &str = "\
(pad 376)
(domain 0(share 400)(may 1))
(domain 1(share 300)(may))
(window 0(length 400))
(window 1(length 300))
(run 1)
(op 0(write 3))
(op 0(read 3))
(op 0(send 1 77))
(op 1(receive 0))
(op 1(read 100))";

/// A buffer in which every byte can be told from text and from 0.
fn buffer(length: usize) -> Vec<u8> {
    (0..length).map(|at| 0x80 | at as u8).collect()
}

/// What a desk's plan and scripts are written as. The buffer is longer, and must
/// stay behind the text.
fn back(desk: &Desk) -> Result<String, Refusal> {
    let before = buffer(40_000);
    let mut out = before.clone();
    let written = write_plan(&desk.plan, &desk.scripts, &mut out);
    let kept = written.unwrap_or(0);
    assert_eq!(out[kept..], before[kept..]);
    written?;
    Ok(String::from_utf8(out[..kept].to_vec()).expect("a text"))
}

/// Every length of a buffer gives this refusal, and nothing is written.
fn assert_refused(plan: &Plan, scripts: &[u32], refusal: Refusal) {
    for length in [0, 1, 202, 203, 204, 32_767, 32_768, 32_769, 65_536] {
        let before = buffer(length);
        let mut out = before.clone();
        let refused = write_plan(plan, scripts, &mut out);
        assert_eq!((refused, out == before), (Err(refusal), true), "{length}");
    }
}

fn assert_no_text(desk: &Desk) {
    assert_refused(&desk.plan, &desk.scripts, Refusal::Plan);
}

/// The worked plan with something changed, which no text gives any more.
fn assert_impossible(change: impl FnOnce(&mut Plan)) {
    let mut desk = Desk::of(WORKED);
    change(&mut desk.plan);
    assert_no_text(&desk);
}

/// The worked scripts with a number put somewhere, which no text gives any more.
fn assert_damaged(place: usize, number: u32) {
    let mut desk = Desk::of(WORKED);
    desk.scripts[place] = number;
    assert_no_text(&desk);
}

#[test]
fn stores_of_another_length() {
    let good = Desk::of(WORKED).plan;
    for length in [0, 1, 256, 2_047, 2_049, 4_096] {
        for number in [0, 1, Op::Read(3).stored()] {
            for plan in [&good, &Plan::default()] {
                assert_refused(plan, &vec![number; length], Refusal::TableLength);
            }
        }
    }
}

#[test]
fn impossible_plans() {
    assert_impossible(|plan| *plan = Plan::default());
    assert_impossible(|plan| plan.pad = 375);
    assert_impossible(|plan| plan.pad = 1_000_001);
    assert_impossible(|plan| plan.run = 0);
    assert_impossible(|plan| plan.run = 1_001);
    assert_impossible(|plan| plan.windows.clear());
    assert_impossible(|plan| plan.windows = vec![plan.windows[0]; 33]);
    assert_impossible(|plan| plan.windows[1].domain = 2);
    assert_impossible(|plan| plan.windows[1].length = 0);
    assert_impossible(|plan| plan.windows[1].length = 1_000_001);
    assert_impossible(|plan| plan.domains[1].share = 33);
    assert_impossible(|plan| plan.domains[1].share = 601);
    assert_impossible(|plan| plan.domains[1].may.0 = 0b10);
    assert_impossible(|plan| plan.domains[1].may.0 = 0b100);
    assert_impossible(|plan| plan.domains[0].may.0 = 1 << 31 | 0b10);
}

/// Masks do not stand in the text, but they are judged.
#[test]
fn masks_that_the_shares_do_not_give() {
    assert_impossible(|plan| plan.domains[0].colours.0 = 0);
    assert_impossible(|plan| plan.domains[0].colours.0 = 0b11_1110);
    assert_impossible(|plan| plan.domains[1].colours.0 |= 1 << 16);
    assert_impossible(|plan| plan.domains[1].colours.0 |= 1 << 15);
    // 434 thousandths give a seventh colour.
    assert_impossible(|plan| plan.domains[0].share = 434);
}

/// Domain 0 has three ops and domain 1 has two. Any number but 0 at their ends that
/// is no op of theirs, or behind their ends, came from no text.
#[test]
fn numbers_at_and_after_an_end() {
    for number in NO_OPS.into_iter().filter(|number| *number != 0) {
        for place in [3, 4, 255, 256 + 2, 256 + 3, 256 + 255] {
            assert_damaged(place, number);
        }
    }
    for op in [Op::Read(0), Op::Receive { from: 7 }, Op::Compute(200)] {
        for place in [4, 5, 128, 255, 256 + 3, 256 + 255] {
            assert_damaged(place, op.stored());
        }
    }
}

#[test]
fn an_op_taken_out() {
    for place in [0, 1, 256] {
        for number in NO_OPS {
            assert_damaged(place, number);
        }
    }
}

#[test]
fn numbers_of_undeclared_domains() {
    for domain in 2..8 {
        for place in [0, 1, 127, 255] {
            for number in [1, 1 << 31, u32::MAX, Op::Read(0).stored()] {
                assert_damaged(256 * domain + place, number);
            }
        }
    }
}

/// Eight domains, a window and a full script each. All ops but these have the
/// shortest line. Without their last LF these are bytes: pad 10, domains 8 × 26,
/// window 21, run 8, ops 2,048 × 15 and one more for each of these, less one.
fn full_desk(longer: usize) -> Desk {
    let domains = (0..8).map(|domain| format!("(domain {domain}(share 99)(may))\n"));
    let domains: String = domains.collect();
    let mut desk = Desk::of(&format!(
        "(pad 376)\n{domains}(window 0(length 1))\n(run 1)"
    ));
    desk.scripts.fill(Op::Read(3).stored());
    desk.scripts[..longer].fill(Op::Read(10).stored());
    desk
}

#[test]
fn texts_that_would_be_too_long() {
    let most = 32_768 - (10 + 8 * 26 + 21 + 8 + 2_048 * 15 - 1);
    assert_eq!(most, 1_802);
    for longer in [most + 1, most + 2, 2_048] {
        assert_no_text(&full_desk(longer));
    }
    let mut desk = full_desk(0);
    let longest = Op::Send {
        to: 7,
        word: 65_535,
    };
    desk.scripts.fill(longest.stored());
    assert_no_text(&desk);

    for longer in [0, 1, most - 1, most] {
        let text = back(&full_desk(longer)).expect("a text that fits");
        assert_eq!(text.len(), 30_966 + longer);
        assert_eq!(reading(&text), (0, 0));
    }
    let longest = full_desk(most);
    let needed = Refusal::Room { needed: 32_768 };
    for length in [0, 1, 32_767] {
        let refused = write_plan(&longest.plan, &longest.scripts, &mut vec![0; length]);
        assert_eq!(refused, Err(needed));
    }
}

#[test]
fn buffers_that_are_too_short() {
    let desk = Desk::of(WORKED);
    for length in 0..203 {
        let before = buffer(length);
        let mut out = before.clone();
        let refused = write_plan(&desk.plan, &desk.scripts, &mut out);
        let refusal = refused.expect_err("no room");
        assert_eq!((refusal.number(), refusal.companion()), (17, 203));
        assert_eq!(out, before);
    }
}

#[test]
fn buffers_with_room() {
    let desk = Desk::of(WORKED);
    for length in [203, 204, 205, 300, 32_768, 40_000] {
        let before = buffer(length);
        let mut out = before.clone();
        assert_eq!(write_plan(&desk.plan, &desk.scripts, &mut out), Ok(203));
        assert_eq!(out[..203], *WORKED_BACK.as_bytes());
        assert_eq!(out[203..], before[203..]);
    }
}

#[test]
fn the_worked_run() {
    assert_eq!(WORKED_BACK.len(), 203);
    assert_eq!(back(&Desk::of(WORKED)), Ok(WORKED_BACK.into()));
}

/// The text is read as what it was written from, and written as itself.
fn assert_same(text: &str, expected: &str) {
    let desk = Desk::of(text);
    assert_eq!(back(&desk), Ok(expected.into()), "{text}");
    let again = Desk::of(expected);
    assert_eq!((&again.plan, &again.scripts), (&desk.plan, &desk.scripts));
    assert_eq!(back(&again), Ok(expected.into()));
    assert!(expected.len() <= text.len());
}

#[test]
fn spaces_zeros_and_lines() {
    let text = "\n  (  run  0000000001 )\n( domain 00( share 0400)(may 1 ) )\n\n\
                (op 0 (write 0003))\n(domain 1 (share 300)(may  ))   \n(window 0 (length 400))\n\
                (op 1 (receive 000))\n(op 0 (read 3) )\n(op 1 (read 100))\n\
                (window 01 (length 300) )\n(pad 0376)\n(op 0 (send 1 077))\n\n  \n";
    assert_same(text, WORKED_BACK);
    assert_same(WORKED_BACK, WORKED_BACK);
    assert_same(&format!("{WORKED_BACK}\n"), WORKED_BACK);
}

/// The shortest text that there is.
#[test]
fn no_ops_and_no_recipients() {
    let shortest = "(pad 376)\n(domain 0(share 34)(may))\n(window 0(length 1))\n(run 1)";
    assert_eq!(shortest.len(), 10 + 26 + 21 + 7);
    assert_same(shortest, shortest);
}

#[test]
fn recipients_rise() {
    let text = "(pad 376)\n(run 1)\n(domain 0(share 34)(may 7 2 1 4 3 6 5))\n\
                (domain 1(share 34)(may 7 0))\n(domain 2(share 34)(may 1 0))\n\
                (domain 3(share 34)(may 4 2))\n(domain 4(share 34)(may))\n\
                (domain 5(share 34)(may 7))\n(domain 6(share 34)(may 5 3 1))\n\
                (domain 7(share 34)(may 6 0))\n(window 7(length 9))\n";
    let expected = "(pad 376)\n(domain 0(share 34)(may 1 2 3 4 5 6 7))\n\
                    (domain 1(share 34)(may 0 7))\n(domain 2(share 34)(may 0 1))\n\
                    (domain 3(share 34)(may 2 4))\n(domain 4(share 34)(may))\n\
                    (domain 5(share 34)(may 7))\n(domain 6(share 34)(may 1 3 5))\n\
                    (domain 7(share 34)(may 0 6))\n(window 7(length 9))\n(run 1)";
    assert_same(text, expected);
}

/// Windows stay in their order; ops go to their domain's, and keep their order
/// there.
#[test]
fn the_order_of_windows_and_ops() {
    let text = "(domain 0(share 500)(may))\n(domain 1(share 400)(may))\n(op 1(read 9))\n\
                (window 1(length 7))\n(op 0(read 8))\n(op 1(read 7))\n(window 0(length 9))\n\
                (op 0(read 6))\n(window 1(length 8))\n(run 2)\n(pad 400)";
    let expected = "(pad 400)\n(domain 0(share 500)(may))\n(domain 1(share 400)(may))\n\
                    (window 1(length 7))\n(window 0(length 9))\n(window 1(length 8))\n(run 2)\n\
                    (op 0(read 8))\n(op 0(read 6))\n(op 1(read 9))\n(op 1(read 7))";
    assert_same(text, expected);
}

/// Ops name domains that are not declared, and lines that nobody may touch.
#[test]
fn every_op_at_its_limits() {
    let ops = [
        "read 0",
        "read 65535",
        "write 0",
        "write 65535",
        "send 0 0",
        "send 7 65535",
        "receive 0",
        "receive 7",
        "compute 1",
        "compute 200",
    ];
    let lines: String = ops.iter().map(|op| format!("\n(op 0({op}))")).collect();
    let before = "(pad 376)\n(domain 0(share 400)(may))\n(window 0(length 400))\n(run 1)";
    assert_same(
        &format!("{OPENING}{}", &lines[1..]),
        &format!("{before}{lines}"),
    );
}

#[test]
fn numbers_of_a_plan_at_their_limits() {
    let long = "(window 0(length 1000000))\n".repeat(2);
    let domain = "(domain 0(share 1000)(may))\n";
    let largest = format!("(pad 1000000)\n{domain}{long}(run 1000)");
    assert_same(&largest, &largest);
    let all = "(window 0(length 10))\n".repeat(32);
    let many = format!("(pad 376)\n{domain}{all}(run 100)");
    assert_same(&many, &many);
}

/// Shares that give the same colours stay apart.
#[test]
fn shares_as_read() {
    for share in [367, 368, 399, 400, 401, 433] {
        let text = WORKED.replace("share 400", &format!("share {share}"));
        let expected = WORKED_BACK.replace("share 400", &format!("share {share}"));
        assert_same(&text, &expected);
    }
}

#[test]
fn scripts_of_every_length() {
    for length in [0, 1, 2, 255, 256] {
        let ops = "\n(op 0(compute 7))".repeat(length);
        let before = "(pad 376)\n(domain 0(share 400)(may))\n(window 0(length 400))\n(run 1)";
        let expected = format!("{before}{ops}");
        assert_same(&expected, &expected);
    }
}

/// One thing changed is seen.
#[test]
fn different_plans_have_different_texts() {
    let changes = [
        ("pad 376", "pad 377"),
        ("run 1)", "run 2)"),
        ("(may 1)", "(may)"),
        ("(may))", "(may 0))"),
        ("share 300", "share 301"),
        ("window 1 (length 300", "window 0 (length 300"),
        ("length 400", "length 300"),
        ("write 3", "read 3"),
        ("write 3", "write 30"),
        ("send 1 77", "send 1 7"),
        ("send 1 77", "send 0 77"),
        ("receive 0", "receive 1"),
        ("op 0 (read 3", "op 1 (read 3"),
    ];
    for (old, new) in changes {
        assert!(WORKED.contains(old), "{old}");
        let changed = Desk::of(&WORKED.replacen(old, new, 1));
        let text = back(&changed).expect("a text");
        assert_ne!(text, WORKED_BACK, "{new}");
    }
}
