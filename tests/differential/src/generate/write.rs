//! Sketches written as texts: document 01, "The plan text".

use super::sketch::{Act, Sketch};
use crate::rng::Rng;
use std::collections::VecDeque;

/// The most bytes of a text.
pub const LONGEST: usize = 32_768;

/// How freely a text is written.
#[derive(Clone, Copy, Debug, PartialEq, Eq)]
pub enum Style {
    /// In the order of document 01's own example, one space where one is due.
    Plain,
    /// As few bytes as can be.
    Tight,
    /// Lines in any order that declares domains first, spaces, empty lines and
    /// leading zeros here and there.
    Loose,
}

/// One line as its tokens.
type Tokens = Vec<String>;

impl Sketch {
    /// The text of this sketch.
    pub fn text(&self, rng: &mut Rng, style: Style) -> Vec<u8> {
        let lines = match style {
            Style::Loose => self.mixed_lines(rng),
            _ => self.lines(),
        };
        let mut text = String::new();
        for line in &lines {
            if style == Style::Loose {
                while rng.one_in(12) {
                    text.push_str(rng.pick(&["\n", "  \n"]));
                }
            }
            write_line(&mut text, line, rng, style);
            text.push('\n');
        }
        if style == Style::Loose && rng.one_in(2) {
            text.pop();
        }
        text.into_bytes()
    }

    /// The text of this sketch, which is shortened until it is not too long.
    pub fn fitting_text(&mut self, rng: &mut Rng, style: Style) -> Vec<u8> {
        loop {
            let text = self.text(rng, style);
            if text.len() <= LONGEST {
                return text;
            }
            for member in &mut self.members {
                let half = member.script.len() / 2;
                member.script.truncate(half);
            }
        }
    }

    fn lines(&self) -> Vec<Tokens> {
        self.streams().into_iter().flatten().map(untag).collect()
    }

    /// Pad, run, the domains, the windows and each script. Each line bears the
    /// number of domains that must be declared above it.
    fn streams(&self) -> Vec<VecDeque<(u32, Tokens)>> {
        let single = |word: &str, number| VecDeque::from([(0, simple(word, number))]);
        let domains = self.members.iter().enumerate();
        let windows = self.windows.iter();
        let mut streams = vec![
            single("pad", self.pad),
            domains
                .map(|(own, member)| (0, domain_line(own, member.share, &member.may)))
                .collect(),
            windows
                .map(|(domain, length)| (domain + 1, window_line(*domain, *length)))
                .collect(),
            single("run", self.run),
        ];
        streams.extend(self.members.iter().enumerate().map(|(domain, member)| {
            let domain = domain as u32;
            let acts = member.script.iter();
            acts.map(|act| (domain + 1, op_line(domain, *act)))
                .collect()
        }));
        streams
    }

    fn mixed_lines(&self, rng: &mut Rng) -> Vec<Tokens> {
        let mut streams = self.streams();
        let mut declared = 0;
        let mut lines = Vec::new();
        loop {
            let ready: Vec<usize> = (0..streams.len())
                .filter(|at| streams[*at].front().is_some_and(|line| line.0 <= declared))
                .collect();
            if ready.is_empty() {
                return lines;
            }
            let line = streams[rng.pick(&ready)].pop_front().expect("a line");
            declared += u32::from(line.1[1] == "domain");
            lines.push(untag(line));
        }
    }
}

fn untag(line: (u32, Tokens)) -> Tokens {
    line.1
}

fn tokens(line: &str) -> Tokens {
    let spaced = line.replace('(', " ( ").replace(')', " ) ");
    spaced.split_whitespace().map(String::from).collect()
}

fn simple(word: &str, number: u32) -> Tokens {
    tokens(&format!("({word} {number})"))
}

fn domain_line(own: usize, share: u32, may: &[u32]) -> Tokens {
    let may: Vec<String> = may.iter().map(u32::to_string).collect();
    tokens(&format!(
        "(domain {own} (share {share}) (may {}))",
        may.join(" ")
    ))
}

fn window_line(domain: u32, length: u32) -> Tokens {
    tokens(&format!("(window {domain} (length {length}))"))
}

fn op_line(domain: u32, act: Act) -> Tokens {
    tokens(&match act {
        Act::Read(line) => format!("(op {domain} (read {line}))"),
        Act::Write(line) => format!("(op {domain} (write {line}))"),
        Act::Send(to, word) => format!("(op {domain} (send {to} {word}))"),
        Act::Receive(from) => format!("(op {domain} (receive {from}))"),
        Act::Compute(ticks) => format!("(op {domain} (compute {ticks}))"),
    })
}

fn write_line(text: &mut String, line: &Tokens, rng: &mut Rng, style: Style) {
    let mut before = "(";
    for token in line {
        let touching = is_run(before) && is_run(token);
        let spaces = match style {
            Style::Plain => {
                usize::from(is_run(before) && token != ")" || before == ")" && token == "(")
            }
            Style::Tight => usize::from(touching),
            Style::Loose => usize::from(touching) + if rng.one_in(6) { rng.place(3) } else { 0 },
        };
        text.extend(std::iter::repeat_n(' ', spaces));
        let is_number = token.bytes().all(|byte| byte.is_ascii_digit());
        if style == Style::Loose && is_number && rng.one_in(10) {
            let zeros = rng.place(11 - token.len());
            text.extend(std::iter::repeat_n('0', zeros));
        }
        text.push_str(token);
        before = token;
    }
    if style == Style::Loose && rng.one_in(8) {
        text.push(' ');
    }
}

fn is_run(token: &str) -> bool {
    token != "(" && token != ")"
}

#[cfg(test)]
mod tests {
    use super::super::sketch::Member;
    use super::*;

    #[test]
    fn the_plain_style_is_that_of_the_worked_run() {
        let member = |share, may: &[u32], script: &[Act]| Member {
            share,
            may: may.to_vec(),
            script: script.to_vec(),
        };
        let sketch = Sketch {
            pad: 376,
            run: 1,
            members: vec![
                member(400, &[1], &[Act::Write(3), Act::Send(1, 77)]),
                member(300, &[], &[Act::Receive(0)]),
            ],
            windows: vec![(0, 400), (1, 300)],
        };
        let text = sketch.text(&mut Rng::new(0), Style::Plain);
        let expected = "\
(pad 376)
(domain 0 (share 400) (may 1))
(domain 1 (share 300) (may))
(window 0 (length 400))
(window 1 (length 300))
(run 1)
(op 0 (write 3))
(op 0 (send 1 77))
(op 1 (receive 0))
";
        assert_eq!(String::from_utf8(text).unwrap(), expected);
    }
}
