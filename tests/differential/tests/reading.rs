//! Readings of texts: good ones, ones with a known fault or several, mutated ones
//! and random bytes. Document 01, "The plan text", and document 02, E2 and E9.

use pirkvezo_differential::compare::Pair;
use pirkvezo_differential::engine::{under_test, Reference};
use pirkvezo_differential::generate::bytes::random_text;
use pirkvezo_differential::generate::faults::faulty_text;
use pirkvezo_differential::generate::mutate::mutate;
use pirkvezo_differential::generate::sketch::Sketch;
use pirkvezo_differential::generate::whole::Whole;
use pirkvezo_differential::generate::write::Style;
use pirkvezo_differential::rng::Rng;
use pirkvezo_differential::seed::cases;
use pirkvezo_differential::tally::Tally;
use pirkvezo_differential::world::{Call, World};
use std::collections::BTreeSet;

const STYLES: [Style; 3] = [Style::Plain, Style::Tight, Style::Loose];

/// A world in which nothing holds 0, so that a row left unwritten shows.
fn used_world() -> World {
    let mut world = World::blank(0);
    world.plan.fill(0xdead_beef);
    world.scripts.fill(0xfeed_f00d);
    world
}

/// Reads a text with both engines; gives the number that both returned.
fn read(text: &[u8], tally: &mut Tally, context: &dyn std::fmt::Display) -> (u32, World) {
    let other = under_test();
    let mut pair = Pair::new(&Reference, &*other, used_world());
    let call = Call::Read(text.to_vec());
    match pair.call(&call) {
        Ok(number) => {
            tally.note(&call, number);
            (number, pair.world().clone())
        }
        Err(difference) => panic!("{context}: {difference}"),
    }
}

#[test]
fn good_texts_give_what_they_say() {
    let mut tally = Tally::default();
    for (case, mut rng) in cases("good texts", 12_000) {
        let mut sketch = match rng.one_in(10) {
            true => Sketch::at_the_limit(&mut rng),
            false => Sketch::random(&mut rng),
        };
        let style = rng.pick(&STYLES);
        let text = sketch.fitting_text(&mut rng, style);
        let (number, world) = read(&text, &mut tally, &case);
        assert_eq!(number, 0, "{case}: {}", String::from_utf8_lossy(&text));
        assert_eq!(world.plan[..], sketch.flat(), "{case}");
        assert_eq!(world.scripts[..], sketch.store(), "{case}");
    }
    tally.print("good texts");
}

#[test]
fn each_fault_has_its_number() {
    let mut tally = Tally::default();
    for (case, mut rng) in cases("faulty texts", 12_000) {
        let (text, expected) = faulty_text(&mut rng);
        let (number, _) = read(&text, &mut tally, &case);
        assert_eq!(
            number,
            expected,
            "{case}: {}",
            String::from_utf8_lossy(&text)
        );
    }
    tally.assert_met("read", &[1, 2, 3, 4, 5, 6, 7, 8, 9, 10, 16]);
    tally.print("faulty texts");
}

/// Every pad up to some way above the least and around the greatest, with and without
/// leading zeros. What is too short or too long is 3, at the number's first digit.
#[test]
fn pads_at_their_limits() {
    let mut tally = Tally::default();
    let rest = "(run 1)\n(domain 0(share 34)(may))\n(window 0(length 1))";
    for pad in (0..=500).chain(999_990..=1_000_010) {
        for text in [format!("{pad}"), format!("{pad:010}")] {
            let text = format!("{rest}\n(pad {text})");
            let (number, world) = read(text.as_bytes(), &mut tally, &pad);
            let due = match (376..=1_000_000).contains(&pad) {
                true => [0, 0],
                false => [3, rest.len() as u64 + 6],
            };
            assert_eq!(world.answer[..2], due, "{pad}");
            assert_eq!(world.plan[0], if number == 0 { pad } else { 0 }, "{pad}");
        }
    }
    tally.assert_met("read", &[0, 3]);
    tally.print("pads at their limits");
}

/// Of all that only the whole text shows, what comes first in the order is told.
#[test]
fn several_faults_at_once() {
    let mut tally = Tally::default();
    let mut totals = BTreeSet::new();
    for (case, mut rng) in cases("several faults", 12_000) {
        let whole = Whole::random(&mut rng);
        let (number, world) = read(&whole.text, &mut tally, &case);
        let text = String::from_utf8_lossy(&whole.text);
        assert_eq!(number, whole.number(), "{case}: {:?}: {text}", whole.wrong);
        if let Some(companion) = whole.companion() {
            assert_eq!(world.answer[1], companion, "{case}: {text}");
        }
        if number == 16 {
            totals.insert(world.answer[1]);
        }
    }
    tally.assert_met("read", &[0, 4, 5, 6, 7, 9, 16]);
    assert!(totals.into_iter().eq(16..=19), "a total was not met");
    tally.print("several faults");
}

#[test]
fn mutated_texts() {
    let mut tally = Tally::default();
    for (case, mut rng) in cases("mutated texts", 60_000) {
        let mut text = mutated(&mut rng);
        let (number, _) = read(&text, &mut tally, &case);
        if number == 0 && rng.one_in(4) {
            mutate(&mut rng, &mut text);
            read(&text, &mut tally, &case);
        }
    }
    tally.assert_met("read", &[0, 1, 2, 3, 4, 5, 6, 7, 8, 9, 10, 16]);
    tally.print("mutated texts");
}

fn mutated(rng: &mut Rng) -> Vec<u8> {
    let mut text = match rng.below(6) {
        0 => faulty_text(rng).0,
        1 => Whole::random(rng).text,
        _ => {
            let mut sketch = Sketch::random(rng);
            let most = rng.pick(&[0, 1, 2, 3, 5, 8, 20, 256]);
            let members = sketch.members.iter_mut();
            members.for_each(|member| member.script.truncate(most));
            let style = rng.pick(&STYLES);
            sketch.fitting_text(rng, style)
        }
    };
    mutate(rng, &mut text);
    text
}

#[test]
fn random_bytes() {
    let mut tally = Tally::default();
    for (case, mut rng) in cases("random bytes", 30_000) {
        read(&random_text(&mut rng), &mut tally, &case);
    }
    tally.print("random bytes");
}

/// Every beginning of a text, and every text that is one byte away from it.
#[test]
fn neighbours_of_one_text() {
    let text = b"(pad 376)\n(domain 0 (share 400) (may 1))\n(domain 1(share 300)(may 0))\n\
                 ( window 0 (length 400))\n\n(run 1)\n(op 0 (write 3))\n(op 1 (send 0 65535))\n\
                 (op 1 (compute 200))\n(op 0 (receive 1))\n";
    let mut tally = Tally::default();
    let mut check = |text: &[u8]| {
        read(text, &mut tally, &"neighbours");
    };
    for at in 0..=text.len() {
        check(&text[..at]);
        check(&text[at..]);
        for byte in *b"() \n0179apz\r\t\0\xff" {
            let (before, after) = text.split_at(at);
            check(&[before, &[byte], after].concat());
            if let [_, after @ ..] = after {
                check(&[before, &[byte], after].concat());
                check(&[before, after].concat());
            }
        }
    }
    tally.assert_met("read", &[0, 2, 3, 4, 5, 6, 7, 8, 16]);
    tally.print("neighbours of one text");
}

/// Stores, plans and answers of another length.
#[test]
fn other_lengths() {
    let other = under_test();
    let texts = [&b""[..], b"(", &[b' '; 32_769]];
    for (length, text) in [0, 1, 91, 93].iter().zip(texts.iter().cycle()) {
        for row in 0..7 {
            let mut world = used_world();
            if row & 1 == 1 {
                world.plan.set_length(*length);
            }
            if row & 2 == 2 {
                world.scripts.set_length(2_047 + 2 * (length % 2));
            }
            if row & 4 == 4 {
                world.answer.set_length(length % 9);
            }
            let mut pair = Pair::new(&Reference, &*other, world);
            let number = pair.call(&Call::Read(text.to_vec()));
            let number = number.unwrap_or_else(|difference| panic!("{difference}"));
            assert_eq!(number == 11, row != 0);
        }
    }
}
