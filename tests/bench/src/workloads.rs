//! Plans that load one part of the machine or of the reader.

use pirkvezo_differential::generate::sketch::{Act, Member, Sketch};
use pirkvezo_differential::generate::write::Style;
use pirkvezo_differential::rng::Rng;

/// A plan and its scripts, given as the reader would give them.
pub struct Workload {
    pub name: String,
    pub sketch: Sketch,
    /// Steps to pass over before single steps are timed, and how many then.
    pub skip: u64,
    pub most: u64,
}

/// A text to read.
pub struct Text {
    pub name: &'static str,
    pub bytes: Vec<u8>,
}

/// Whole runs of 256 ops in each of eight domains, or of many windows.
pub fn runs() -> Vec<Workload> {
    let long = |name, act: &dyn Fn(u32, u32) -> Act| workload(name, eight(8, 1_000_000, 1, act));
    let own = |domain: u32, way: u32| 4 * domain + 64 * way;
    vec![
        long("long windows, L1 hits", &|domain, _| {
            Act::Read(own(domain, 0))
        }),
        long("long windows, L2 hits", &|domain, place| {
            Act::Read(own(domain, place % 4))
        }),
        long("long windows, misses", &|domain, place| {
            Act::Read(own(domain, place % 5))
        }),
        long("long windows, dirty misses", &|domain, place| {
            Act::Write(own(domain, place % 5))
        }),
        long("long windows, barred", &|_, place| Act::Read(60 + place)),
        long("long windows, compute", &|_, place| {
            Act::Compute(1 + place % 200)
        }),
        long("messages", &|domain, place| match place % 2 {
            0 => Act::Send((domain + 1) % 8, place),
            _ => Act::Receive((domain + 7) % 8),
        }),
        workload(
            "one op a window",
            eight(32, 1, 64, &|domain, place| {
                Act::Read(own(domain, place % 5))
            }),
        ),
        workload(
            "300 ticks a window, all ops",
            eight(32, 300, 64, &|domain, place| match place % 5 {
                0 => Act::Read(own(domain, place % 7)),
                1 => Act::Write(own(domain, place % 7) + 1),
                2 => Act::Send((domain + 1) % 8, place),
                3 => Act::Receive((domain + 7) % 8),
                _ => Act::Compute(20),
            }),
        ),
        workload("one window, no ops", empty(1, 1)),
    ]
}

/// Whole runs of switches alone, by windows and repeats: what a step takes as
/// both grow.
pub fn growth() -> Vec<Workload> {
    let windows = [1, 2, 4, 8, 16, 32].map(|windows| (windows, 1_000));
    let repeats = [10, 100].map(|run| (32, run));
    repeats
        .into_iter()
        .chain(windows)
        .map(|(windows, run)| {
            let name = format!("{}, run {run}", counted(windows));
            workload(&name, empty(windows, run))
        })
        .collect()
}

/// Texts from about 200 bytes to the longest.
pub fn texts() -> Vec<Text> {
    let mut spaces = text("32 KB, mostly spaces", 8, Style::Plain, &all_ops);
    spaces.bytes.resize(32_768, b' ');
    let mut texts = lined_texts();
    texts.push(spaces);
    texts
}

/// Texts to be written back. The one of spaces is not among them, since it would
/// be a short text without them. There are a few more, of lines as short and as
/// long as op lines can be, and of ops in any order.
pub fn texts_to_write() -> Vec<Text> {
    let short = |_, place| Act::Read(place % 10);
    let long = |domain, place| Act::Send((domain + 1) % 8, 65_535 - 199 * place);
    let mut texts = lined_texts();
    texts.extend([
        text("1 KB, short lines", 40, Style::Tight, &short),
        text("8 KB, short lines", 512, Style::Tight, &short),
        text("32 KB, short lines", 2_048, Style::Tight, &short),
        text("1 KB, long lines", 24, Style::Tight, &long),
        text("8 KB, long lines", 368, Style::Tight, &long),
        text("32 KB, long lines", 1_536, Style::Tight, &long),
        text("32 KB, any order", 1_712, Style::Tight, &any_op),
    ]);
    texts
}

/// Texts in which lines take nearly all of the room.
fn lined_texts() -> Vec<Text> {
    vec![
        text("200 bytes", 5, Style::Plain, &all_ops),
        text("1 KB", 24, Style::Plain, &all_ops),
        text("4 KB", 184, Style::Plain, &all_ops),
        text("8 KB", 384, Style::Plain, &all_ops),
        text("16 KB", 784, Style::Plain, &all_ops),
        text("32 KB", 1_600, Style::Plain, &all_ops),
        text("32 KB, tight", 1_808, Style::Tight, &all_ops),
    ]
}

/// A text of so many ops, by one domain or by eight.
fn text(name: &'static str, ops: u32, style: Style, act: &dyn Fn(u32, u32) -> Act) -> Text {
    let mut sketch = eight(2, 300, 1, act);
    let count = if ops < 9 { 1 } else { 8 };
    sketch.members.truncate(count as usize);
    for member in &mut sketch.members {
        member.may.retain(|other| *other < count);
        member.script.truncate((ops / count) as usize);
    }
    sketch.windows = vec![(0, 300), (0, 300)];
    Text {
        name,
        bytes: sketch.fitting_text(&mut Rng::new(0), style),
    }
}

/// All five ops by turns.
fn all_ops(domain: u32, place: u32) -> Act {
    match place % 5 {
        0 => Act::Read(4 * domain),
        1 => Act::Write(4 * domain + 64),
        2 => Act::Send((domain + 1) % 8, place),
        3 => Act::Receive((domain + 7) % 8),
        _ => Act::Compute(1 + place % 200),
    }
}

/// Ops in no order, with numbers of one digit to five: a processor foretells these
/// worse than ops by turns.
fn any_op(domain: u32, place: u32) -> Act {
    let mut rng = Rng::new(u64::from(256 * domain + place));
    let value = rng.pick(&[10, 100, 1_000, 10_000, 65_536]);
    let value = rng.below(value) as u32;
    match rng.below(5) {
        0 => Act::Read(value),
        1 => Act::Write(value),
        2 => Act::Send((domain + 1) % 8, value),
        3 => Act::Receive((domain + 7) % 8),
        _ => Act::Compute(1 + value % 200),
    }
}

/// Single steps in plans of 1 to 32 windows, early and late in short and long
/// runs.
pub fn steps() -> Vec<Workload> {
    let windows = [1, 2, 4, 8, 16, 32].map(|windows| {
        let name = format!("{}, run 1000, early", counted(windows));
        Workload {
            name,
            most: 500,
            ..workload("", empty(windows, 1_000))
        }
    });
    let late = [1, 32].map(|windows| Workload {
        name: format!("{}, run 1000, late", counted(windows)),
        skip: u64::from(windows) * 1_000 - 500,
        most: 500,
        ..workload("", empty(windows, 1_000))
    });
    let runs = [1, 10, 100, 1_000].map(|run| Workload {
        name: format!("32 windows, run {run}, early"),
        most: 32,
        ..workload("", empty(32, run))
    });
    let ops = [("cold", 0, 5), ("warm", 1_500, 5)].map(|(name, skip, ways)| Workload {
        name: format!("ops with {name} caches, 8 domains"),
        skip,
        most: 500,
        ..workload(
            "",
            eight(8, 1_000_000, 1, &|domain, place| {
                Act::Write(4 * domain + place % 4 + 64 * (place % ways))
            }),
        )
    });
    windows
        .into_iter()
        .chain(late)
        .chain(runs)
        .chain(ops)
        .collect()
}

fn counted(windows: u32) -> String {
    match windows {
        1 => "1 window".into(),
        _ => format!("{windows} windows"),
    }
}

fn workload(name: &str, sketch: Sketch) -> Workload {
    Workload {
        name: name.into(),
        sketch,
        skip: 0,
        most: 0,
    }
}

/// Eight domains of one colour each that may all send to each other, with full
/// scripts.
fn eight(windows: u32, length: u32, run: u32, act: &dyn Fn(u32, u32) -> Act) -> Sketch {
    let member = |domain| Member {
        share: 99,
        may: (0..8).filter(|other| *other != domain).collect(),
        script: (0..256).map(|place| act(domain, place)).collect(),
    };
    Sketch {
        pad: 376,
        run,
        members: (0..8).map(member).collect(),
        windows: (0..windows).map(|place| (place % 8, length)).collect(),
    }
}

/// One domain without a script.
fn empty(windows: u32, run: u32) -> Sketch {
    Sketch {
        pad: 376,
        run,
        members: vec![Member {
            share: 1_000,
            may: Vec::new(),
            script: Vec::new(),
        }],
        windows: vec![(0, 100); windows as usize],
    }
}
