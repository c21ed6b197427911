//! Plans to be written back, what they must be written as, and other texts of the
//! same plans or of similar ones: document 02, E4.

use super::sized::act_of_size;
use super::sketch::{Act, Sketch};
use super::write::{Style, LONGEST};
use crate::rng::Rng;

/// What a sketch must be written back as: its lines in the order of document 01's
/// own example with as few bytes as can be, its recipients rising, and no last LF.
pub fn canonical(sketch: &Sketch) -> Vec<u8> {
    let mut sketch = sketch.clone();
    for member in &mut sketch.members {
        member.may.sort_unstable();
    }
    let mut text = sketch.text(&mut Rng::new(0), Style::Tight);
    text.pop();
    text
}

/// A plan that the reader accepts, often with numbers at their limits or where they
/// get a digit more.
pub fn random_sketch(rng: &mut Rng) -> Sketch {
    let mut sketch = match rng.one_in(10) {
        true => Sketch::at_the_limit(rng),
        false => Sketch::random(rng),
    };
    if rng.one_in(3) {
        sharpen(rng, &mut sketch);
    }
    sketch
}

/// The same with few ops, for tests of many calls.
pub fn short_sketch(rng: &mut Rng) -> Sketch {
    let mut sketch = random_sketch(rng);
    let most = rng.pick(&[0, 1, 2, 3, 6, 20]);
    let full = rng.one_in(20);
    for (domain, member) in sketch.members.iter_mut().enumerate() {
        // Now and then one script is full.
        match full && domain == 0 {
            true => member.script.resize(256, Act::Compute(1)),
            false => member.script.truncate(most),
        }
    }
    sketch
}

/// Puts numbers at their limits, and where they get a digit more.
fn sharpen(rng: &mut Rng, sketch: &mut Sketch) {
    let any = rng.within(376..=1_000_000);
    sketch.pad = rng.pick(&[376, 999, 1_000, 9_999, 10_000, 99_999, 1_000_000, any]);
    for window in &mut sketch.windows {
        window.1 = rng.pick(&[1, 9, 10, 99, 100, 999_999, 1_000_000, window.1]);
    }
    sketch.run = rng.pick(&[1, 9, 10, 99, 100, 999, 1_000]);
    sketch.fit_ticks();
    for act in sketch.members.iter_mut().flat_map(|m| &mut m.script) {
        let size = 15 + rng.place(7);
        *act = act_of_size(rng, size);
    }
}

/// A text of this sketch with spaces, zeros, lines and recipients in any other way,
/// where that is not too long.
pub fn respelled(rng: &mut Rng, sketch: &Sketch) -> Vec<u8> {
    let mut sketch = sketch.clone();
    for member in &mut sketch.members {
        rng.shuffle(&mut member.may);
    }
    let loose = sketch.text(rng, Style::Loose);
    match loose.len() <= LONGEST {
        true => loose,
        false => sketch.text(rng, Style::Tight),
    }
}

/// Changes one thing of a sketch, or now and then nothing. The reader may refuse
/// what comes of it.
pub fn alter(rng: &mut Rng, sketch: &mut Sketch) {
    let count = sketch.members.len();
    let near = |rng: &mut Rng, number: u32| number.wrapping_add(rng.pick(&[1, 10, u32::MAX]));
    let domain = rng.place(count);
    let member = &mut sketch.members[domain];
    let window = rng.place(sketch.windows.len());
    match rng.below(9) {
        0 => sketch.pad = near(rng, sketch.pad),
        1 => sketch.run = near(rng, sketch.run),
        // Mostly the same colours, but another share.
        2 => member.share = near(rng, member.share),
        3 => {
            member.may.pop();
        }
        4 => sketch.windows[window].0 = rng.place(count) as u32,
        5 => sketch.windows[window].1 = near(rng, sketch.windows[window].1),
        6 => rng.shuffle(&mut sketch.windows),
        7 => rng.shuffle(&mut member.script),
        _ => alter_script(rng, sketch, domain),
    }
}

/// Takes an op away, puts one in, changes one, or gives it to a neighbour.
fn alter_script(rng: &mut Rng, sketch: &mut Sketch, domain: usize) {
    let size = 15 + rng.place(7);
    let act = act_of_size(rng, size);
    let script = &mut sketch.members[domain].script;
    let place = rng.place(script.len() + 1);
    match rng.below(4) {
        0 if place < script.len() => script[place] = act,
        1 if place < script.len() => {
            script.remove(place);
        }
        2 => {
            let last = script.pop();
            let next = (domain + 1) % sketch.members.len();
            sketch.members[next].script.extend(last);
        }
        _ => script.insert(place, act),
    }
}
