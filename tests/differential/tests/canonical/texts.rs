//! Texts that are read and written back: known ones, random ones, damaged ones, and
//! pairs of one plan or of two.

use crate::trial::{shown, Trial, BACK, TEXT};
use pirkvezo_differential::generate::canonical::{
    alter, canonical, random_sketch, respelled, short_sketch,
};
use pirkvezo_differential::generate::mutate::mutate;
use pirkvezo_differential::generate::write::Style;
use pirkvezo_differential::rng::Rng;
use pirkvezo_differential::seed::cases;

#[test]
fn fixed_texts() {
    let trial = Trial::new();
    let text = |text: &str| trial.back(text.as_bytes(), &"fixed texts");
    let written = |text: &str| text.as_bytes().to_vec();
    assert_eq!(BACK.len(), 203);
    for same in [
        TEXT,
        BACK,
        &format!("{BACK}\n"),
        &format!("\n \n{BACK}  \n\n"),
    ] {
        assert_eq!(text(same), Some(written(BACK)));
    }
    let shortest = "(pad 376)\n(domain 0(share 34)(may))\n(window 0(length 1))\n(run 1)";
    assert_eq!(text(shortest), Some(written(shortest)));
    let lists = "(run 7)\n(domain 0(share 34)(may 2 1))\n(domain 1(share 300)(may))\n\
                 (domain 2(share 34)(may 1 0))\n(window 2(length 1000000))\n\
                 (window 0(length 10))\n(pad 1000000)\n(op 2(compute 200))\n(op 0(compute 5))\n\
                 (op 0(send 7 65535))\n(op 2(write 0))";
    let back = "(pad 1000000)\n(domain 0(share 34)(may 1 2))\n(domain 1(share 300)(may))\n\
                (domain 2(share 34)(may 0 1))\n(window 2(length 1000000))\n\
                (window 0(length 10))\n(run 7)\n(op 0(compute 5))\n(op 0(send 7 65535))\n\
                (op 2(compute 200))\n(op 2(write 0))";
    assert_eq!(text(lists), Some(written(back)));
    assert_eq!(text("(pad 376)"), None);
}

/// Random plans in three styles. The generator knows what each must be written as.
#[test]
fn texts_are_written_back() {
    let trial = Trial::new();
    for (case, mut rng) in cases("texts written back", 600) {
        let mut sketch = random_sketch(&mut rng);
        let style = rng.pick(&[Style::Plain, Style::Tight, Style::Loose, Style::Loose]);
        let text = sketch.fitting_text(&mut rng, style);
        let back = trial.back(&text, &case).expect("an accepted text");
        assert_eq!(shown(&back), shown(&canonical(&sketch)), "{case}");
    }
}

/// Whatever is still accepted of texts with damage.
#[test]
fn mutated_texts_are_written_back() {
    let trial = Trial::new();
    let (mut accepted, mut refused) = (0, 0);
    for (case, mut rng) in cases("mutated texts written back", 6_000) {
        let sketch = short_sketch(&mut rng);
        let mut text = respelled(&mut rng, &sketch);
        mutate(&mut rng, &mut text);
        match trial.back(&text, &case) {
            Some(_) => accepted += 1,
            None => refused += 1,
        }
    }
    println!("{accepted} texts were accepted, {refused} refused");
    assert!(accepted > 0 && refused > 0);
}

/// Two texts have the same output exactly when they have the same plan and scripts.
#[test]
fn texts_of_one_plan_and_of_two() {
    let trial = Trial::new();
    let (mut same, mut different) = (0, 0);
    for (case, mut rng) in cases("texts of one plan and of two", 6_000) {
        let texts = two_texts(&mut rng);
        for subject in trial.subjects() {
            let [Some(first), Some(second)] = texts.each_ref().map(|text| subject.read(text))
            else {
                continue;
            };
            let [here, there] = [&first, &second].map(|given| {
                let written = subject.write(given);
                written.unwrap_or_else(|what| panic!("{case}: {what}"))
            });
            assert_eq!(here == there, first == second, "{case}");
            match first == second {
                true => same += 1,
                false => different += 1,
            }
        }
    }
    println!("{same} pairs of texts had the same plan, {different} had not");
    assert!(same > 0 && different > 0);
}

/// Two texts of one sketch, or one of them with something changed.
fn two_texts(rng: &mut Rng) -> [Vec<u8>; 2] {
    let mut sketch = short_sketch(rng);
    let first = respelled(rng, &sketch);
    let second = match rng.below(4) {
        0 => respelled(rng, &sketch),
        1 => {
            let mut second = first.clone();
            mutate(rng, &mut second);
            second
        }
        _ => {
            alter(rng, &mut sketch);
            respelled(rng, &sketch)
        }
    };
    [first, second]
}

/// Texts of one plan in many spellings.
#[test]
fn many_spellings() {
    let trial = Trial::new();
    for (case, mut rng) in cases("many spellings", 300) {
        let sketch = short_sketch(&mut rng);
        let back = canonical(&sketch);
        for _ in 0..8 {
            let text = respelled(&mut rng, &sketch);
            assert_eq!(trial.back(&text, &case).as_ref(), Some(&back), "{case}");
        }
    }
}
