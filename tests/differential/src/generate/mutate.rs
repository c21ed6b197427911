//! Texts with random damage: bytes, tokens, lines and numbers.

use crate::rng::Rng;
use std::ops::Range;

/// Numbers at and past the limits of "The plan text", and shares at which the
/// number of colours changes.
const EDGES: [&str; 42] = [
    "0",
    "1",
    "2",
    "6",
    "7",
    "8",
    "9",
    "33",
    "34",
    "99",
    "100",
    "125",
    "199",
    "200",
    "201",
    "255",
    "256",
    "257",
    "276",
    "300",
    "375",
    "376",
    "377",
    "500",
    "900",
    "966",
    "999",
    "1000",
    "1001",
    "4095",
    "4096",
    "65535",
    "65536",
    "1000000",
    "1000001",
    "4294967295",
    "4294967296",
    "9999999999",
    "10000000000",
    "0000000376",
    "00000000376",
    "18446744073709551617",
];

/// Bytes that mean something to the reader, or nearly do.
const BYTES: &[u8] = b"()  \n\n0123456789adehgilmnoprstuwPZ-+_.'\r\t\0\x0b\x7f\x80\xa0\xff";

/// Words of the shapes, and some that are none.
const WORDS: [&str; 16] = [
    "pad", "run", "domain", "share", "may", "window", "length", "op", "read", "write", "send",
    "receive", "compute", "x", "padd", "Run",
];

/// Damages a text in one to four places.
pub fn mutate(rng: &mut Rng, text: &mut Vec<u8>) {
    for _ in 0..rng.pick(&[1, 1, 2, 4]) {
        match rng.below(16) {
            0 => flip_bit(rng, text),
            1 => replace_byte(rng, text),
            2 => delete_byte(rng, text),
            3 => insert_byte(rng, text),
            4 => delete_token(rng, text),
            5 => duplicate_token(rng, text),
            6 => swap_tokens(rng, text),
            7 => replace_word(rng, text),
            8 => delete_line(rng, text),
            9 => duplicate_line(rng, text),
            10 => swap_lines(rng, text),
            11 => {
                let length = rng.place(text.len() + 1);
                text.truncate(length);
            }
            _ => replace_number(rng, text),
        }
    }
}

fn flip_bit(rng: &mut Rng, text: &mut [u8]) {
    if !text.is_empty() {
        text[rng.place(text.len())] ^= 1 << rng.below(8);
    }
}

fn replace_byte(rng: &mut Rng, text: &mut [u8]) {
    if !text.is_empty() {
        text[rng.place(text.len())] = rng.pick(BYTES);
    }
}

fn delete_byte(rng: &mut Rng, text: &mut Vec<u8>) {
    if !text.is_empty() {
        text.remove(rng.place(text.len()));
    }
}

fn insert_byte(rng: &mut Rng, text: &mut Vec<u8>) {
    text.insert(rng.place(text.len() + 1), rng.pick(BYTES));
}

fn delete_token(rng: &mut Rng, text: &mut Vec<u8>) {
    if let Some(token) = some(rng, tokens(text)) {
        text.drain(token);
    }
}

fn duplicate_token(rng: &mut Rng, text: &mut Vec<u8>) {
    if let Some(token) = some(rng, tokens(text)) {
        let again = [b" ", &text[token.clone()]].concat();
        text.splice(token.end..token.end, again);
    }
}

fn swap_tokens(rng: &mut Rng, text: &mut Vec<u8>) {
    let tokens = tokens(text);
    if !tokens.is_empty() {
        let first = rng.place(tokens.len());
        let near = (first + 1 + rng.place(4)).min(tokens.len() - 1);
        let far = rng.place(tokens.len());
        let second = if rng.one_in(4) { far } else { near };
        swap(text, &tokens[first.min(second)], &tokens[first.max(second)]);
    }
}

fn replace_word(rng: &mut Rng, text: &mut Vec<u8>) {
    let words = tokens(text).into_iter();
    let words = words.filter(|token| text[token.start].is_ascii_lowercase());
    if let Some(word) = some(rng, words.collect()) {
        text.splice(word, rng.pick(&WORDS).bytes());
    }
}

fn replace_number(rng: &mut Rng, text: &mut Vec<u8>) {
    let numbers = tokens(text).into_iter();
    let numbers = numbers.filter(|token| text[token.start].is_ascii_digit());
    if let Some(number) = some(rng, numbers.collect()) {
        let new = match rng.below(4) {
            0 => rng.below(1_100).to_string(),
            1 => (rng.any() >> rng.below(64)).to_string(),
            _ => rng.pick(&EDGES).to_string(),
        };
        text.splice(number, new.bytes());
    }
}

fn delete_line(rng: &mut Rng, text: &mut Vec<u8>) {
    if let Some(line) = some(rng, lines(text)) {
        text.drain(line);
    }
}

fn duplicate_line(rng: &mut Rng, text: &mut Vec<u8>) {
    if let Some(line) = some(rng, lines(text)) {
        let again = [b"\n", &text[line.clone()]].concat();
        text.splice(line.end..line.end, again);
    }
}

fn swap_lines(rng: &mut Rng, text: &mut Vec<u8>) {
    let lines = lines(text);
    let (first, second) = (rng.place(lines.len()), rng.place(lines.len()));
    swap(text, &lines[first.min(second)], &lines[first.max(second)]);
}

/// Exchanges two stretches, the first of which comes first.
fn swap(text: &mut Vec<u8>, first: &Range<usize>, second: &Range<usize>) {
    if first != second {
        let early = text[first.clone()].to_vec();
        let late = text[second.clone()].to_vec();
        text.splice(second.clone(), early);
        text.splice(first.clone(), late);
    }
}

fn some(rng: &mut Rng, ranges: Vec<Range<usize>>) -> Option<Range<usize>> {
    match ranges.len() {
        0 => None,
        count => Some(ranges[rng.place(count)].clone()),
    }
}

/// Where the text's lines are, without their ends.
fn lines(text: &[u8]) -> Vec<Range<usize>> {
    let mut start = 0;
    let ends = text.iter().enumerate().filter(|(_, byte)| **byte == b'\n');
    let ends = ends.map(|(at, _)| at).chain([text.len()]);
    ends.map(|end| std::mem::replace(&mut start, end + 1)..end)
        .collect()
}

/// Where the text's brackets and runs are.
fn tokens(text: &[u8]) -> Vec<Range<usize>> {
    let mut found: Vec<Range<usize>> = Vec::new();
    let mut open = false;
    for (at, byte) in text.iter().enumerate() {
        match byte {
            b' ' | b'\n' => open = false,
            b'(' | b')' => {
                found.push(at..at + 1);
                open = false;
            }
            _ if open => found.last_mut().expect("an open run").end = at + 1,
            _ => {
                found.push(at..at + 1);
                open = true;
            }
        }
    }
    found
}

#[cfg(test)]
mod tests {
    use super::*;

    #[test]
    fn pieces_of_a_text() {
        let text = b"(pad 376)\n\n a(b";
        let piece =
            |range: &Range<usize>| String::from_utf8_lossy(&text[range.clone()]).into_owned();
        let tokens: Vec<String> = tokens(text).iter().map(piece).collect();
        assert_eq!(tokens, ["(", "pad", "376", ")", "a", "(", "b"]);
        let lines: Vec<String> = lines(text).iter().map(piece).collect();
        assert_eq!(lines, ["(pad 376)", "", " a(b"]);
    }

    #[test]
    fn swapped_pieces() {
        let mut text = b"one three".to_vec();
        swap(&mut text, &(0..3), &(4..9));
        assert_eq!(text, b"three one");
    }
}
