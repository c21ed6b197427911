//! Texts that are good but for one fault, with the number that must be
//! returned: document 01, "The plan text", and document 02, E2.

use super::shares::{crowded_shares, BARE};
use super::sketch::{Act, Member, Sketch};
use super::write::{Style, LONGEST};
use crate::rng::Rng;

/// A text with one fault, and its refusal's number, 1 to 10 or 16.
pub fn faulty_text(rng: &mut Rng) -> (Vec<u8>, u32) {
    let mut sketch = Sketch::random(rng);
    shorten(&mut sketch);
    let style = rng.pick(&[Style::Plain, Style::Tight, Style::Loose]);
    let number = rng.pick(&[1, 2, 3, 4, 5, 6, 7, 8, 9, 10, 16]);
    match number {
        1 => {
            let mut text = sketch.text(rng, style);
            let length = LONGEST + 1 + rng.place(3);
            text.resize(length, rng.pick(b" \n("));
            return (text, 1);
        }
        2 => {
            let mut text = sketch.text(rng, style);
            let odd = [&b"x"[..], b"(", b")", b"7", b"\r", b"\0", b"\xff", b"(pad"];
            text.push(b'\n');
            text.extend(rng.pick(&odd));
            return (text, 2);
        }
        3 => outside_limits(rng, &mut sketch),
        4 => undeclared(rng, &mut sketch),
        5 => return (missing_or_twice(rng, &sketch, style), 5),
        6 => {
            let domain = rng.place(sketch.members.len());
            sketch.members[domain].share = rng.within(BARE);
        }
        7 => {
            let domain = rng.place(sketch.members.len());
            let others: u32 = sketch.members.iter().map(|member| member.share).sum();
            let rest = others - sketch.members[domain].share;
            if rest == 0 {
                sketch.members.push(Member {
                    share: 1_000,
                    may: Vec::new(),
                    script: Vec::new(),
                });
            } else {
                sketch.members[domain].share = rng.within(1_001 - rest..=1_000);
            }
        }
        8 => {
            let domain = rng.place(sketch.members.len());
            let may = &mut sketch.members[domain].may;
            let wrong = match may.is_empty() || rng.one_in(2) {
                true => domain as u32,
                false => rng.pick(may),
            };
            may.insert(rng.place(may.len() + 1), wrong);
        }
        9 => break_ticks(rng, &mut sketch),
        10 => match rng.one_in(2) {
            true => sketch.windows.resize(33, (0, 1)),
            false => sketch.members[0].script.resize(257, Act::Compute(1)),
        },
        _ => {
            let count = rng.within(2..=8);
            let shares = crowded_shares(rng, count);
            sketch = Sketch::of_shares(rng, &shares);
            shorten(&mut sketch);
        }
    }
    (sketch.text(rng, style), number)
}

/// Cuts scripts so that there is room for one thing more and the text is not too
/// long.
pub(super) fn shorten(sketch: &mut Sketch) {
    for member in &mut sketch.members {
        member.script.truncate(20);
    }
}

/// Makes the run take too many ticks: by a little, or by far.
pub(super) fn break_ticks(rng: &mut Rng, sketch: &mut Sketch) {
    if rng.one_in(2) {
        sketch.stretch_to_the_limit(rng);
        let shortest = sketch.windows.iter_mut().min_by_key(|window| window.1);
        shortest.expect("a window").1 += 1;
        return;
    }
    sketch.pad = 1_000_000;
    sketch.run = 1_000;
    while sketch.run as u64 * sketch.pass() <= u64::from(u32::MAX) {
        sketch.windows.push((0, 1_000_000));
    }
}

fn outside_limits(rng: &mut Rng, sketch: &mut Sketch) {
    let domain = rng.place(sketch.members.len());
    let member = &mut sketch.members[domain];
    match rng.below(7) {
        0 => sketch.pad = rng.pick(&[0, 276, 375, 1_000_001, u32::MAX]),
        1 => sketch.run = rng.pick(&[0, 1_001, u32::MAX]),
        2 => member.share = rng.pick(&[0, 1_001, u32::MAX]),
        3 => member.may.push(rng.pick(&[8, 9, 31])),
        4 => {
            let window = rng.place(sketch.windows.len());
            sketch.windows[window].1 = rng.pick(&[0, 1_000_001, u32::MAX]);
        }
        _ => member.script.push(rng.pick(&[
            Act::Read(65_536),
            Act::Write(u32::MAX),
            Act::Send(8, 0),
            Act::Send(7, 65_536),
            Act::Receive(8),
            Act::Compute(0),
            Act::Compute(201),
        ])),
    }
}

/// A recipient that is never declared; where all eight domains are, a window too
/// many of a domain that comes too late.
pub(super) fn undeclared(rng: &mut Rng, sketch: &mut Sketch) {
    if sketch.members.len() == 8 {
        sketch.members.pop();
        let may = sketch.members.iter_mut().map(|member| &mut member.may);
        may.for_each(|may| may.retain(|other| *other != 7));
        sketch.windows.retain(|window| window.0 != 7);
        if sketch.windows.is_empty() {
            sketch.windows.push((0, 1));
        }
    }
    let domain = rng.place(sketch.members.len());
    let may = &mut sketch.members[domain].may;
    may.insert(rng.place(may.len() + 1), 7);
}

/// The text without one kind of line, or with a second pad or run at its end.
pub(super) fn missing_or_twice(rng: &mut Rng, sketch: &Sketch, style: Style) -> Vec<u8> {
    let text = sketch.text(rng, style);
    let extra = [
        format!("(pad {})", sketch.pad),
        format!("( run {} )", sketch.run),
    ];
    if rng.one_in(2) {
        let again = extra[rng.place(2)].as_bytes();
        return [&text, &b"\n"[..], again].concat();
    }
    let missing = rng.pick(&[&b"pad"[..], b"run", b"window"]);
    let lines = text.split(|byte| *byte == b'\n');
    let kept: Vec<&[u8]> = lines
        .filter(|line| !line.windows(missing.len()).any(|words| words == missing))
        .collect();
    kept.join(&b'\n')
}
