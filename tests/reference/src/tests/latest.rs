//! Latest ends worked out by hand, and scripts that try to be later: document 02, E6,
//! with the touch of its E9.
//!
//! The figures below are sums of: the last op's ticks less the one in which it
//! begins; 8 ticks and 1 for each line of the kernel's L2 sets; 8 ticks and 2 for
//! each dirty line of L1; 100 for the touch. A domain that has the run's first window
//! finds empty caches there, and leads; any other finds line 60 in both.

use super::desk::{Desk, WORKED};
use super::drawn::Drawn;
use crate::latest::{finished_windows, stored, timed, Finished};
use crate::op::Op;
use crate::search::{found_for, search, switch, Start};
use crate::tenant::Tenant;
use crate::{latest, write_latest, Plan, Refusal};
use std::collections::BTreeSet;

/// Bytes of a log with room for 256 records of each of eight domains.
const LOG: usize = 8 * 256 * 8;

/// A plan of domains with these shares and recipients, a window of 4,000 ticks for
/// each.
fn plan(domains: &[(u32, &str)]) -> Plan {
    let mut text = "(pad 376)\n(run 2)\n".to_string();
    for (number, (share, may)) in domains.iter().enumerate() {
        text += &format!("(domain {number}(share {share})(may {may}))\n");
    }
    for number in 0..domains.len() {
        text += &format!("(window {number}(length 4000))\n");
    }
    Desk::of(&text).plan
}

fn ticks(plan: &Plan, domain: u32) -> u64 {
    latest(plan, domain).expect("a latest end").ticks
}

/// The same windows, with one of this domain's in front of all others.
fn led_by(plan: &Plan, domain: u32) -> Plan {
    let mut plan = plan.clone();
    let mut windows = plan.windows.iter();
    let place = windows.position(|window| window.domain == domain);
    plan.windows.rotate_left(place.expect("a window"));
    plan
}

/// The ticks of a domain where it leads, and where another one does.
fn both(plan: &Plan, domain: u32) -> [u64; 2] {
    let other = if domain == 0 { 1 } else { 0 };
    [domain, other].map(|first| ticks(&led_by(plan, first), domain))
}

/// The two figures of a domain without a right, which has so many lines in L1: a
/// denied message brings line 60 into L2 where it is not there, and a compute is the
/// last op.
fn without(dirty: u64) -> u64 {
    199 + (8 + 1) + (8 + 2 * dirty) + 100
}

/// The figure of a domain that does not lead: line 60 is in L2 before its first message,
/// so that no message takes more than 5 + 14 + 104. The last op is a compute then, and
/// before that it uses as many boxes as their L2 set has room for.
fn behind(boxes: u64, dirty: u64) -> u64 {
    199 + (8 + 1 + boxes.min(4)) + (8 + 2 * dirty) + 100
}

/// A share that gives so many colours.
fn share_of(colours: u32) -> u32 {
    colours * 200 / 3
}

/// A store in which one domain has this script and the others have none.
fn store(domain: u32, script: &[u32]) -> Vec<u32> {
    let mut store = vec![0; 2_048];
    store[256 * domain as usize..][..256].copy_from_slice(script);
    store
}

/// How late the windows of one domain are, first to last.
fn late(plan: &Plan, scripts: &[u32], domain: u32) -> Vec<u64> {
    let windows = finished_windows(plan, scripts, LOG).expect("a run");
    let own = windows.into_iter();
    let own = own.filter(|window| window.domain == domain as usize);
    own.map(|window| window.late).collect()
}

/// The example of document 02, whose domain leads. A message is the last op: both of its
/// lines are in neither cache and replace a dirty line each. It leaves 15 dirty lines,
/// since the kernel entry line is clean.
#[test]
fn the_papers_own_figure() {
    let plan = plan(&[(966, "1"), (34, "")]);
    assert_eq!(plan.domains[0].colours.0, 0x3fff);
    let leading = 212 + (8 + 2) + (8 + 30) + 100;
    assert_eq!(leading, 360);
    assert_eq!(both(&plan, 0), [leading, behind(1, 16)]);
    assert_eq!(behind(1, 16), 349);
    // Colour 14 alone, and a right to receive: four dirty lines and the box.
    let leading = 204 + (8 + 2) + (8 + 10) + 100;
    assert_eq!(both(&plan, 1), [leading, behind(1, 5)]);
}

/// Without a right the last op is a compute. Before it a denied message leaves the
/// kernel entry line in L2; a line in its place in L1 can be made dirty again. Whether
/// the domain leads is the same then.
#[test]
fn without_rights() {
    let lines = [(1, 4), (2, 8), (3, 12), (4, 16), (5, 16), (14, 16)];
    for (holding, dirty) in lines {
        let plan = plan(&[(share_of(holding), ""), (34, "")]);
        assert_eq!(plan.domains[0].colours.holding(), holding);
        assert_eq!(both(&plan, 0), [without(dirty); 2]);
    }
    let alone = plan(&[(1_000, "")]);
    assert_eq!(alone.domains[0].colours.holding(), 15);
    assert_eq!(ticks(&alone, 0), without(16));
    assert_eq!(without(16), 348);
}

/// With rights a message is the last op of a domain that leads, however many they are. It
/// is the window's only one, since the kernel entry line stays in L2 behind the first.
#[test]
fn with_rights() {
    let figures = [
        (1, 332, 5),
        (2, 340, 9),
        (3, 348, 13),
        (4, 360, 16),
        (9, 360, 16),
        (14, 360, 16),
    ];
    for (holding, leading, dirty) in figures {
        let sender = plan(&[(share_of(holding), "1"), (34, "")]);
        let receiver = plan(&[(share_of(holding), ""), (34, "0")]);
        let linked = plan(&[(share_of(holding), "1"), (34, "0")]);
        for (plan, boxes) in [(sender, 1), (receiver, 1), (linked, 2)] {
            let figures = [leading, behind(boxes, dirty)];
            assert_eq!(both(&plan, 0), figures, "{holding}, {boxes}");
        }
    }
    for others in 1..8 {
        let recipients: String = (1..=others).map(|other| format!(" {other}")).collect();
        let mut domains = vec![(34, recipients.as_str())];
        domains.extend(vec![(34, "0"); others]);
        let boxes = 2 * others as u64;
        assert_eq!(both(&plan(&domains), 0), [332, behind(boxes, 5)]);
    }
}

/// Each box that there is counts for a domain that does not lead, up to the fourth,
/// whether it sends through it or receives.
#[test]
fn by_number_of_boxes() {
    for sent in 0..8 {
        for received in 0..8 {
            let recipients: String = (1..=sent).map(|other| format!(" {other}")).collect();
            let may = |other| if other <= received { "0" } else { "" };
            let mut domains = vec![(share_of(5), recipients.as_str())];
            domains.extend((1..8).map(|other| (34, may(other))));
            let leading = if sent + received > 0 { 360 } else { 348 };
            let figures = [leading, behind(sent + received, 16)];
            assert_eq!(both(&plan(&domains), 0), figures, "{sent}, {received}");
        }
    }
    assert_eq!(
        [0, 1, 3, 4, 5].map(|k| behind(k, 16)),
        [348, 349, 351, 352, 352]
    );
}

/// Colours 3, 7 and 11 alone have the L1 indexes that messages use. With them both
/// lines of the last message replace dirty ones, for 8 ticks; without them the box
/// is one dirty line more, for 2, and none is lost to the kernel entry line. Where the
/// domain does not lead, the box is one dirty line more or takes the place of one.
#[test]
fn by_first_colour() {
    let leading = [332, 332, 332, 336];
    for first in 1..15 {
        let plan = plan(&[(share_of(first), "1"), (34, "")]);
        let colours = plan.domains[1].colours;
        assert_eq!(colours.0, 1 << first);
        let place = first as usize % 4;
        let dirty = if place == 3 { 4 } else { 5 };
        let figures = [leading[place], behind(1, dirty)];
        assert_eq!(both(&plan, 1), figures, "{first}");
    }
    // Two and three colours from each first one, with a right and without.
    let pairs = [(340, 9), (340, 9), (344, 8), (344, 8)];
    let triples = [(348, 13), (352, 12), (352, 12), (352, 12)];
    for first in 1..12 {
        for (holding, figures, bare) in [(2, pairs, 332), (3, triples, 340)] {
            let linked = plan(&[(share_of(first), "1"), (share_of(holding), "")]);
            let apart = plan(&[(share_of(first), ""), (share_of(holding), "")]);
            let (leading, dirty) = figures[first as usize % 4];
            assert_eq!(both(&linked, 1), [leading, behind(1, dirty)]);
            assert_eq!(both(&apart, 1), [bare; 2]);
        }
    }
}

/// Plans and a domain of each: with every number of colours before the domain and of
/// its own, and with every number of boxes to send through and to receive through; each
/// led by that domain and, where there is one, by another.
pub fn many_plans() -> Vec<(Plan, u32)> {
    let led = |(plan, domain): (Plan, u32)| {
        let leaders = 0..plan.domains.len().min(2) as u32;
        let plans = leaders.map(|first| (led_by(&plan, first), domain));
        plans.collect::<Vec<_>>()
    };
    unled_plans().into_iter().flat_map(led).collect()
}

fn unled_plans() -> Vec<(Plan, u32)> {
    let spans = (0..15).flat_map(|first| (1..=15 - first).map(move |holding| (first, holding)));
    let by_colours = spans.flat_map(|(first, holding)| {
        let rights = [["", ""], ["1", ""], ["1", "0"]].into_iter();
        rights.map(move |[one, two]| match (first, holding) {
            (0, 15) => (plan(&[(1_000, "")]), 0),
            (0, _) => (plan(&[(share_of(holding), one), (34, two)]), 0),
            _ => (plan(&[(share_of(first), one), (share_of(holding), two)]), 1),
        })
    });
    let counts = (0..8).flat_map(|sent| (0..8).map(move |received| (sent, received)));
    let by_boxes = counts.map(|(sent, received)| {
        let recipients: String = (1..=sent).map(|other| format!(" {other}")).collect();
        let may = |other| if other <= received { "0" } else { "" };
        let mut domains = vec![(share_of(5), recipients.as_str())];
        domains.extend((1..8).map(|other| (34, may(other))));
        (plan(&domains), 0)
    });
    by_colours.chain(by_boxes).collect()
}

/// Each script that is handed back is as late as was told, in the domain's first
/// window, and is one that a text can give.
#[test]
fn scripts_reach_what_is_told() {
    for (mut plan, domain) in many_plans() {
        for (own, other) in [(4_000, 20_000), (4_001, 4_000), (7_777, 9), (20_000, 1)] {
            for window in &mut plan.windows {
                let is_own = window.domain == domain;
                window.length = if is_own { own } else { other };
            }
            let told = latest(&plan, domain).unwrap();
            let scripts = store(domain, &told.script);
            assert_eq!(late(&plan, &scripts, domain)[0], told.ticks);
            let (ops, rest) = told.script.split_at(ops_in(&told.script));
            assert!(ops.len() > 1 && rest.iter().all(|number| *number == 0));
        }
    }
}

/// How many ops stand before a script's end.
fn ops_in(script: &[u32]) -> usize {
    let ops = script.iter();
    ops.take_while(|number| Op::from_stored(**number).is_some())
        .count()
}

/// What was found for one domain holds of every other of its reach.
#[test]
fn each_domain_by_itself() {
    for (plan, domain) in unled_plans() {
        let tenant = Tenant::of(&plan, domain as usize);
        for start in [Start::Bare, Start::Touched] {
            assert_eq!(search(&tenant, start), found_for(&tenant, start));
        }
    }
}

/// A denied message makes the run's first window one like the others, so no other is
/// ever later. With a right the first is always later than the others.
#[test]
fn the_runs_first_window_is_the_latest() {
    for (plan, domain) in unled_plans() {
        let tenant = Tenant::of(&plan, domain as usize);
        let mut bare = Start::Bare.caches();
        tenant.play(&mut bare, Op::Receive { from: domain as u8 });
        assert_eq!(bare, Start::Touched.caches());
        let [first, later] = [Start::Bare, Start::Touched].map(|it| found_for(&tenant, it).ticks);
        let has_right = (0..8).any(|other| {
            let own = domain as usize;
            plan.allows(own, other) || plan.allows(other, own)
        });
        assert_eq!((first >= later, first > later), (true, has_right));
    }
}

/// The script fits the first of a domain's windows, and no other of their lengths. The
/// others have no ops: they take 8 for the kernel's sets with line 60 in them, 8 for L1,
/// and the touch. The last of them is the run's last window.
#[test]
fn the_first_of_several_windows() {
    let text = "(pad 400)\n(run 2)\n(domain 0(share 300)(may 1))\n(domain 1(share 300)(may))\n\
                (window 1(length 1))\n(window 0(length 5000))\n(window 1(length 1000000))\n\
                (window 0(length 19999))\n";
    let plan = Desk::of(text).plan;
    for (plan, figure) in [(led_by(&plan, 0), 360), (plan, 349)] {
        let told = latest(&plan, 0).unwrap();
        assert_eq!(told.ticks, figure);
        let late = late(&plan, &store(0, &told.script), 0);
        let idle = 8 + 1 + 8 + 100;
        assert_eq!(late, [figure, idle, idle, idle]);
    }
}

/// Whose window it is decides, not which domain is the first: where the run's first
/// window is another domain's, domain 0 does not lead; where it is the run's only one, it
/// is the last as well, and its switch makes the touch all the same.
#[test]
fn who_leads() {
    let mut plan = plan(&[(300, "1"), (300, ""), (300, "")]);
    assert_eq!(
        [0, 1, 2].map(|domain| ticks(&plan, domain)),
        [360, 349, 348]
    );
    plan.windows.rotate_left(1);
    assert_eq!(
        [0, 1, 2].map(|domain| ticks(&plan, domain)),
        [349, 360, 348]
    );
    plan.windows.truncate(1);
    for run in [1, 2, 1_000] {
        plan.run = run;
        assert_eq!(ticks(&plan, 1), 360);
    }
    plan.run = 1;
    let told = latest(&plan, 1).unwrap();
    assert_eq!(late(&plan, &store(1, &told.script), 1), [360]);
    assert_eq!(late(&plan, &[0; 2_048], 1), [8 + 8 + 100]);
}

/// What the other scripts hold changes nothing.
#[test]
fn beside_other_scripts() {
    let plan = plan(&[(300, "1 2"), (300, "0"), (300, "0 1")]);
    for domain in 0..3 {
        let told = latest(&plan, domain).unwrap();
        for other in [Op::Write(9), Op::Compute(200), Op::Send { to: 0, word: 3 }] {
            let mut scripts = vec![other.stored(); 2_048];
            scripts[256 * domain as usize..][..256].copy_from_slice(&told.script);
            assert_eq!(late(&plan, &scripts, domain)[0], told.ticks);
        }
    }
}

/// Lengths of the domain's windows alone count, each of them, at both limits.
#[test]
fn limits_of_windows() {
    let good = plan(&[(400, "1"), (300, ""), (200, "")]);
    for (length, taken) in [
        (1, false),
        (3_999, false),
        (4_000, true),
        (4_001, true),
        (19_999, true),
        (20_000, true),
        (20_001, false),
        (1_000_000, false),
    ] {
        let mut plan = good.clone();
        plan.windows[1].length = length;
        let refused = Err(Refusal::Latest { domain: 1 });
        assert_eq!(latest(&plan, 1).is_ok(), taken, "{length}");
        assert!(taken || latest(&plan, 1) == refused);
        assert!([0, 2].into_iter().all(|other| latest(&plan, other).is_ok()));
        // As a later window of domain 0 it counts there.
        plan.windows[1].domain = 0;
        assert_eq!(latest(&plan, 0).is_ok(), taken, "{length}");
        // And domain 1 has none any more.
        assert_eq!(latest(&plan, 1), refused);
    }
}

#[test]
fn undeclared_domains() {
    let plan = plan(&[(400, "1"), (300, "")]);
    for domain in [2, 3, 7, 8, 9, 255, 256, 65_536, u32::MAX] {
        assert_eq!(latest(&plan, domain), Err(Refusal::Latest { domain }));
    }
    let refusal = Refusal::Latest { domain: u32::MAX };
    assert_eq!((refusal.number(), refusal.companion()), (18, 4_294_967_295));
}

/// 11, then 12, then 18; the buffer stays beside each of them.
#[test]
fn refusals_in_order() {
    let good = plan(&[(400, "1"), (300, "")]);
    let mut short = good.clone();
    short.pad = 375;
    for length in [0, 1, 92, 255, 257, 512] {
        for plan in [&good, &short, &Plan::default()] {
            for domain in [0, 2] {
                let mut buffer = vec![7; length];
                let refused = write_latest(plan, domain, &mut buffer);
                assert_eq!(refused, Err(Refusal::TableLength));
                assert_eq!(buffer, vec![7; length]);
            }
        }
    }
    let mut buffer = [7; 256];
    for domain in [0, 2, u32::MAX] {
        for plan in [&short, &Plan::default()] {
            assert_eq!(write_latest(plan, domain, &mut buffer), Err(Refusal::Plan));
        }
    }
    let refused = write_latest(&good, 2, &mut buffer);
    assert_eq!(refused, Err(Refusal::Latest { domain: 2 }));
    assert_eq!(buffer, [7; 256]);
    assert_eq!(write_latest(&good, 0, &mut buffer), Ok(360));
    assert_eq!(buffer, latest(&good, 0).unwrap().script);
}

/// The machine's own account of its windows: the worked run, whose lines are told
/// in document 01.
#[test]
fn windows_of_the_worked_run() {
    let desk = Desk::of(WORKED);
    let windows = finished_windows(&desk.plan, &desk.scripts, desk.log.len());
    // Line 3 and the box are dirty, lines 60 and 125 in the kernel's sets; then the
    // box alone. The first domain is done at 306 of 400, the second at 982 of 1,076.
    let expected = [(0, 8 + 2 + 8 + 4 + 100), (1, 8 + 2 + 8 + 2 + 100)];
    let expected = expected.map(|(domain, late)| Finished { domain, late });
    assert_eq!(windows, Ok(expected.to_vec()));
}

/// Ops of a domain with colour 3, whose lines meet those of messages in L1, and with
/// rights to send to domain 0 and to receive from domain 2.
const OPS: [Op; 10] = [
    Op::Write(12),
    Op::Write(13),
    Op::Read(12),
    Op::Read(64 + 13),
    Op::Write(64 + 12),
    Op::Send { to: 0, word: 1 },
    Op::Send { to: 2, word: 1 },
    Op::Receive { from: 2 },
    Op::Receive { from: 1 },
    Op::Compute(200),
];

/// A plan with windows of such a domain, which is domain 1, and its start: alone, or with
/// one of domain 0 in front of them.
fn plans_of_colour_3() -> [(Plan, Start); 2] {
    let plan = plan(&[(share_of(3), ""), (share_of(1), "0"), (34, "1")]);
    let [mut leading, mut behind] = [plan.clone(), plan];
    leading.windows.retain(|window| window.domain == 1);
    behind.windows.retain(|window| window.domain != 2);
    [(leading, Start::Bare), (behind, Start::Touched)]
}

/// All choices of three of these ops, then computing up to the last tick, then each
/// of them as the last op.
#[test]
fn no_short_script_is_later() {
    // Indexes 14 and 15 stay clean: no op here is to a line of theirs. Where the domain
    // does not lead, two boxes take two of the three ops.
    let figures = [(332, 336), (322, 326)];
    for ((plan, start), figures) in plans_of_colour_3().into_iter().zip(figures) {
        let tenant = Tenant::of(&plan, 1);
        let mut latest = 0;
        for choice in 0..10_000 {
            let [first, second, third, last] =
                [1_000, 100, 10, 1].map(|power| OPS[choice / power % 10]);
            let ops = timed(&tenant, start, &[first, second, third], last, 4_000);
            let window = late(&plan, &store(1, &stored(&ops)), 1)[0];
            latest = latest.max(window);
        }
        assert_eq!((latest, ticks(&plan, 1)), figures);
    }
}

/// Everything that these ops and a few more can make of the caches, in any number and
/// order: whole tables are told apart, and each op is tried as the last one on each.
#[test]
fn no_table_is_later() {
    for (plan, start) in plans_of_colour_3() {
        let tenant = Tenant::of(&plan, 1);
        let more = [14, 15, 64 + 13, 128 + 12].map(Op::Write);
        let mut met = BTreeSet::from([start.caches()]);
        let mut tables = vec![start.caches()];
        let mut latest = 0;
        while let Some(table) = tables.pop() {
            for op in OPS.iter().chain(&more) {
                let mut after = table;
                let busy = tenant.play(&mut after, *op).ticks;
                latest = latest.max(busy - 1 + switch(&after));
                if met.insert(after) {
                    tables.push(after);
                }
            }
        }
        assert!(met.len() > 5_000, "{}", met.len());
        assert_eq!(latest, ticks(&plan, 1));
    }
}

/// Scripts of any of these ops, of lines with the other indexes, and of computes of
/// a few ticks, so that the last op begins at any time.
#[test]
fn no_random_script_is_later() {
    for (plan, _) in plans_of_colour_3() {
        assert_no_random_script_is_later(plan);
    }
}

fn assert_no_random_script_is_later(mut plan: Plan) {
    plan.run = 9;
    let told = ticks(&plan, 1);
    let mut drawn = Drawn(6);
    let mut latest = 0;
    for _ in 0..2_000 {
        let ops: Vec<Op> = (0..256)
            .map(|_| match drawn.below(4) {
                0 => Op::Write(14 + drawn.below(2)),
                1 => Op::Compute(1 + drawn.below(200)),
                _ => OPS[usize::from(drawn.below(10))],
            })
            .collect();
        let windows = late(&plan, &store(1, &stored(&ops)), 1);
        latest = latest.max(windows.into_iter().max().unwrap());
    }
    assert!(latest > 300 && latest <= told, "{latest} of {told}");
}
