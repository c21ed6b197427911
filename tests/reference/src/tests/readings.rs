//! Texts that could be taken in two ways, and how they are taken: document 01,
//! "The plan text". Everything that can be wrong with a token (2, 3, 4, 8) is
//! found before the next is looked at, and 5 and 10 only at a faultless line's
//! end.

use super::desk::{assert_refused_at, reading, OPENING};
use crate::read_plan;

#[test]
fn a_bracket_is_due_first() {
    assert_eq!(reading("pad(376"), (2, 0));
}

#[test]
fn a_number_is_due_behind_pad() {
    assert_eq!(reading("(pad(376))"), (2, 4));
}

#[test]
fn one_form_a_line() {
    assert_eq!(reading("(pad 376)(run 1)"), (2, 9));
}

#[test]
fn a_second_pad_waits_for_its_lines_end() {
    assert_refused_at("(pad 376)\n", "(pad 376) x", 2, "x");
    assert_refused_at("(pad 376)\n", " (pad 376)\n", 5, "(");
    assert_refused_at("(run 1)\n", "  (run 1)", 5, "(");
}

#[test]
fn a_token_comes_before_its_lines_end() {
    assert_refused_at("(pad 376)\n", "(pad 5)", 3, "5");
}

#[test]
fn too_many_digits_matter_only_where_a_number_is_due() {
    assert_eq!(reading("(12345678901 376)"), (2, 1));
    assert_eq!(reading("(pad 12345678901)"), (3, 5));
    assert_eq!(reading("(pad 00000000376)"), (3, 5));
    assert_eq!(reading("(pad 376 12345678901)"), (2, 9));
}

#[test]
fn a_line_that_stops_short_is_refused_at_its_end() {
    assert_eq!(reading("(pad 376"), (2, 8));
    assert_eq!(reading("(pad 376  \n"), (2, 10));
    assert_eq!(reading("("), (2, 1));
    assert_eq!(reading("\n( \n)"), (2, 3));
}

#[test]
fn odd_runs_are_neither_word_nor_number() {
    for odd in [
        "376\r", "376\t", "376\0", "1a", "a1", "-1", "+1", "Pad", "x376", "37_6",
    ] {
        assert_eq!(reading(format!("(pad {odd})")), (2, 5), "{odd:?}");
        assert_eq!(reading(format!("({odd} 376)")), (2, 1), "{odd:?}");
    }
    for byte in (0..=255u8).filter(|byte| !byte.is_ascii_alphanumeric()) {
        let text = [b"(pad 37", &[byte][..], b"6)"].concat();
        let expected = match byte {
            b'\n' => (3, 5),
            b' ' | b'(' | b')' => (3, 5),
            _ => (2, 5),
        };
        assert_eq!(reading(&text), expected, "byte {byte}");
    }
    assert_eq!(reading("\r\n(pad 376)"), (2, 0));
    assert_eq!(reading("(pad 376)\r\n"), (2, 9));
    assert_eq!(reading("\t(pad 376)"), (2, 0));
}

#[test]
fn recipients_are_judged_one_by_one() {
    assert_refused_at("", "(domain 0 (share 400) (may 1 1))", 8, "1");
    let nines = "(domain 0 (share 400) (may 9 9))";
    assert_eq!(reading(nines), (3, 27));
    assert_refused_at("", "(domain 0 (share 400) (may 9))", 3, "9");
    assert_refused_at("", "(domain 0 (share 400) (may 0 9))", 8, "0 9");
    assert_refused_at("", "(domain 0 (share 400) (may 1 x 1))", 2, "x");
    assert_refused_at("", "(domain 0 (share 400) (may 1 (2)))", 2, "(");
}

#[test]
fn the_shape_fixes_the_order() {
    assert_refused_at("", "(domain 0 (may) (share 400))", 2, "may");
}

#[test]
fn an_undeclared_domain_comes_before_what_follows_it() {
    assert_refused_at(OPENING, "(op 5 (foo 1))", 4, "5");
    assert_refused_at(OPENING, "(op 1 (read 1))", 4, "1 (");
    assert_refused_at(OPENING, "(window 1 (length 0))", 4, "1");
}

#[test]
fn a_limit_comes_before_a_declaration() {
    assert_refused_at(OPENING, "(op 9 (read 1))", 3, "9");
    assert_refused_at(OPENING, "(op 8 (read 1))", 3, "8");
    assert_refused_at(OPENING, "(window 9 (length 1))", 3, "9");
}

#[test]
fn a_ninth_domain() {
    let eight: String = (0..8)
        .map(|number| format!("(domain {number} (share 67) (may))\n"))
        .collect();
    assert_refused_at(&eight, "(domain 8 (share 67) (may))", 3, "8");
    for number in 0..8 {
        let line = format!("(domain {number} (share 67) (may))");
        assert_refused_at(&eight, &line, 4, &format!("{number} "));
    }
}

#[test]
fn a_domain_out_of_order() {
    assert_refused_at("", "(domain 1 (share 67) (may))", 4, "1");
    assert_refused_at(OPENING, "(domain 0 (share 67) (may))", 4, "0 ");
    assert_refused_at(OPENING, "(domain 2 (share 67) (may))", 4, "2");
}

#[test]
fn the_33rd_window_of_an_undeclared_domain() {
    let full = format!("{OPENING}{}", "(window 0(length 1))\n".repeat(31));
    assert_refused_at(&full, "(window 1(length 1))", 4, "1(");
    assert_refused_at(&full, " (window 0(length 1))", 10, "(w");
    assert_refused_at(&full, "(window 0(length 1)) 1", 2, "1");
}

#[test]
fn something_missing_comes_before_an_undeclared_recipient() {
    let text = "(run 1)\n(domain 0(share 400)(may 1))\n(window 0(length 400))\n\n ";
    assert_eq!(reading(text), (5, text.len() as u64));
}

#[test]
fn an_undeclared_recipient_comes_before_the_shares() {
    let before = "(pad 376)\n(run 1)\n(domain 0(share 600)(may 1))\n";
    let rest = "(domain 1(share 600)(may 0 7 2))\n(window 0(length 400))\n";
    assert_refused_at(before, rest, 4, "7");
}

#[test]
fn the_first_undeclared_recipient_of_the_text() {
    let before = "(pad 376)\n(run 1)\n(domain 0(share 300)(may 1 5))\n";
    let rest = "(domain 1(share 300)(may 2))\n(window 0(length 400))\n";
    let at = before.rfind("5").unwrap() as u64;
    assert_eq!(reading(format!("{before}{rest}")), (4, at));
}

#[test]
fn the_sum_of_shares_comes_before_a_share_without_colour() {
    let text = |first, second| {
        format!(
            "(pad 376)\n(run 1)\n(domain 0(share {first})(may))\n(domain 1(share {second})(may))\n\
             (window 0(length 400))"
        )
    };
    assert_eq!(reading(text(33, 968)), (7, 1_001));
    assert_eq!(reading(text(33, 967)), (6, 0));
    assert_eq!(reading(text(967, 33)), (6, 1));
    assert_eq!(reading(text(1, 33)), (6, 0));
    assert_eq!(reading(text(966, 34)), (0, 0));
    assert_eq!(reading(text(1_000, 1_000)), (7, 2_000));
}

#[test]
fn the_stores_length_comes_before_the_texts() {
    for length in [0, 1, 2_047, 2_049] {
        let mut scripts = vec![3; length];
        for text in [&[b' '; 32_769][..], b"", b"("] {
            let (number, companion, plan) = read_plan(text, &mut scripts);
            assert_eq!((number, companion, plan), (11, 0, Default::default()));
        }
        assert_eq!(scripts, vec![3; length]);
    }
}

#[test]
fn tokens_alone_matter() {
    let text = "\n ( pad 376 ) \n   \n(run 0000000001)\n(domain 0(share 67)(may))\n\
                ( window 0(length 1) )";
    assert_eq!(reading(text), (0, 0));
    assert_eq!(reading(format!("{text}\n")), (0, 0));
    assert_eq!(reading(format!("{text}\n\n  \n")), (0, 0));
}

#[test]
fn other_domains_in_ops_need_no_declaration() {
    let ops = "(op 0(send 0 1))\n(op 0(send 7 1))\n(op 0(receive 0))\n(op 0(receive 7))\n";
    assert_eq!(reading(format!("{OPENING}{ops}")), (0, 0));
}

#[test]
fn lines_may_come_in_any_order_below_their_domain() {
    let text = "(domain 0(share 100)(may 1))\n(op 0(read 1))\n(window 0(length 1))\n(run 1)\n\
                (domain 1(share 100)(may 0))\n(window 1(length 1))\n(op 0(read 2))\n\
                (op 1(compute 1))\n(pad 376)";
    assert_eq!(reading(text), (0, 0));
}

#[test]
fn words_and_counts_of_numbers_are_fixed() {
    for (line, words) in [
        ("(pads 376)", "pads"),
        ("(op 0 (jump 1))", "jump"),
        ("(op 0 (read))", "))"),
        ("(op 0 (read 1 2))", "2"),
        ("(op 0 (send 1))", "))"),
        ("(op 0 (send 1 2 3))", "3"),
        ("(op 0 (receive 1 2))", "2"),
        ("(op 0 (compute 1) (compute 1))", "(compute"),
        ("(op 0 read 1)", "read"),
        ("(op 0)", ")"),
        ("(window 0 (size 1))", "size"),
        ("(window 0 length 1)", "length"),
        ("(window 0 (length 1) 1)", "1)"),
        ("(domain 1 (share 1))", ")"),
        ("(domain 1 (part 1) (may))", "part"),
        ("(domain 1 (share 1) (can))", "can"),
        ("()", ")"),
        (")", ")"),
        ("((pad 376))", "(p"),
        ("(domain one (share 1) (may))", "one"),
    ] {
        assert_refused_at(OPENING, line, 2, words);
    }
}
