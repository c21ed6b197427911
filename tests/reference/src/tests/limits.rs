//! Each limit of document 01, "The plan text", at both its ends.

use super::desk::{assert_refused_at, reading, Desk, OPENING};

/// Asserts that these two numbers are taken behind these words.
fn assert_taken(text: &impl Fn(u64) -> String, ends: [u64; 2]) {
    for number in ends {
        assert_eq!(reading(text(number)), (0, 0), "{}", text(number));
    }
}

/// Asserts that each of these numbers, behind these words, is refusal 3.
fn assert_outside(
    text: &impl Fn(u64) -> String,
    words: &str,
    numbers: impl IntoIterator<Item = u64>,
) {
    let large = [
        4_294_967_295,
        4_294_967_296,
        4_294_967_297,
        9_999_999_999,
        10_000_000_000,
    ];
    for number in numbers.into_iter().chain(large) {
        let text = text(number);
        let place = text.find(&format!("{words}{number}")).expect("the number");
        let at = (place + words.len()) as u64;
        assert_eq!(reading(&text), (3, at), "{text}");
    }
}

/// Both ends are taken, and what lies just beyond them is not.
fn assert_limits(text: impl Fn(u64) -> String, words: &str, first: u64, last: u64) {
    assert_taken(&text, [first, last]);
    let below = first.checked_sub(1);
    assert_outside(&text, words, below.into_iter().chain([last + 1]));
}

#[test]
fn numbers_of_single_lines() {
    let rest = "(domain 0(share 1000)(may))\n(window 0(length 1))\n";
    let pad = |n| format!("(pad {n})\n(run 1)\n{rest}");
    assert_limits(pad, "pad ", 376, 1_000_000);
    let run = |n| format!("(pad 376)\n(run {n})\n{rest}");
    assert_limits(run, "run ", 1, 1_000);
    let length =
        |n| format!("(pad 376)\n(run 1)\n(domain 0(share 67)(may))\n(window 0(length {n}))");
    assert_limits(length, "length ", 1, 1_000_000);
}

#[test]
fn numbers_of_ops() {
    for (word, rest, first, last) in [
        ("read ", "", 0, 65_535),
        ("write ", "", 0, 65_535),
        ("send ", " 0", 0, 7),
        ("send 0 ", "", 0, 65_535),
        ("receive ", "", 0, 7),
        ("compute ", "", 1, 200),
    ] {
        let text = |n| format!("{OPENING}(op 0({word}{n}{rest}))");
        assert_limits(text, word, first, last);
    }
}

#[test]
fn shares() {
    let text =
        |n: u64| format!("(pad 376)\n(run 1)\n(domain 0(share {n})(may))\n(window 0(length 1))");
    assert_taken(&text, [34, 1_000]);
    assert_outside(&text, "share ", [0, 1_001]);
    assert_eq!(reading(text(1)), (6, 0));
    assert_eq!(reading(text(33)), (6, 0));
}

#[test]
fn domain_numbers() {
    let eight: String = (0..8)
        .map(|n| format!("(domain {n}(share 99)(may {}))\n", (n + 1) % 8))
        .collect();
    let start = format!("(pad 376)\n(run 1)\n{eight}");
    let window = |n| format!("{start}(window {n}(length 1))");
    assert_limits(window, "window ", 0, 7);
    let op = |n| format!("{start}(window 0(length 1))\n(op {n}(read 0))");
    assert_limits(op, "op ", 0, 7);
    assert_refused_at(&start, "(window 0(length 1))\n(op 8(read 0))", 3, "8");
    assert_refused_at("", "(domain 0(share 125)(may 8))", 3, "8");
}

#[test]
fn ten_digits_are_taken_and_eleven_are_not() {
    let text = |digits| {
        format!("(pad {digits})\n(run 1)\n(domain 0(share 67)(may))\n(window 0(length 1))")
    };
    assert_eq!(reading(text("0000000376")), (0, 0));
    assert_eq!(reading(text("00000000376")), (3, 5));
    assert_eq!(reading(text("99999999999999999999999999")), (3, 5));
}

#[test]
fn bytes_of_the_text() {
    let longest = format!("{OPENING:32768}");
    assert_eq!(reading(&longest), (0, 0));
    assert_eq!(reading(format!("{longest} ")), (1, 0));
    assert_eq!(reading([b'x'; 32_768]), (2, 0));
    assert_eq!(reading([b'x'; 32_769]), (1, 0));
}

#[test]
fn windows_and_ops() {
    let windows = |count| format!("{OPENING}{}", "(window 0(length 1))\n".repeat(count));
    assert_eq!(reading(windows(31)), (0, 0));
    assert_refused_at(&windows(31), "  (window 0(length 1))", 10, "(w");

    let ops = |count| format!("{OPENING}{}", "(op 0(compute 1))\n".repeat(count));
    assert_eq!(reading(ops(256)), (0, 0));
    assert_refused_at(&ops(256), " (op 0(compute 1))", 10, "(o");
}

#[test]
fn a_full_store() {
    let domains: String = (0..8)
        .map(|n| format!("(domain {n}(share 99)(may))\n"))
        .collect();
    let ops: String = (0..2_048)
        .map(|n| format!("(op {}(read {}))\n", n / 256, n % 10))
        .collect();
    let text = format!("(pad 376)\n(run 1)\n{domains}(window 7(length 1))\n{ops}");
    assert!(text.len() <= 32_768);
    let desk = Desk::of(&text);
    for (place, number) in desk.scripts.iter().enumerate() {
        assert_eq!(*number, 1_048_576 + place as u32 % 10);
    }
}

#[test]
fn shares_together() {
    let text = |last| {
        format!(
            "(pad 376)\n(run 1)\n(domain 0(share 600)(may))\n(domain 1(share {last})(may))\n\
             (window 0(length 1))"
        )
    };
    assert_eq!(reading(text(400)), (0, 0));
    assert_eq!(reading(text(401)), (7, 1_001));
}

#[test]
fn ticks_of_a_run() {
    // 255 × 16,843,009 is 4,294,967,295: nine windows with a pad of 1,000,000
    // leave 7,843,009 ticks for their lengths.
    let text = |last| {
        format!(
            "(pad 1000000)\n(run 255)\n(domain 0(share 67)(may))\n{}(window 0(length {last}))",
            "(window 0(length 871445))\n".repeat(8)
        )
    };
    assert_eq!(reading(text(871_449)), (0, 0));
    assert_eq!(reading(text(871_450)), (9, 0));
    let largest = format!(
        "(pad 1000000)\n(run 1000)\n(domain 0(share 67)(may))\n{}",
        "(window 0(length 1000000))\n".repeat(32)
    );
    assert_eq!(reading(largest), (9, 0));
}

#[test]
fn each_thing_that_may_be_missing() {
    let lines: Vec<&str> = OPENING.lines().collect();
    for missing in [0, 1, 3] {
        let text: Vec<&str> = lines
            .iter()
            .enumerate()
            .filter(|(place, _)| *place != missing)
            .map(|(_, line)| *line)
            .collect();
        let text = text.join("\n");
        assert_eq!(reading(&text), (5, text.len() as u64), "{text}");
    }
    let text = "(pad 376)\n(run 1)\n";
    assert_eq!(reading(text), (5, text.len() as u64));
    assert_eq!(reading(" \n"), (5, 2));
}
