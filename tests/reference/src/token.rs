//! Lines and tokens of a text: document 01, "The plan text".

use crate::limits::DIGITS;
use crate::refusal::Refusal;
use std::ops::RangeInclusive;

/// A text read line by line and token by token.
#[derive(Clone, Debug)]
pub struct Lines<'t> {
    rest: &'t [u8],
    length: usize,
}

/// A token and the offset of its first byte.
#[derive(Clone, Copy, Debug, PartialEq, Eq)]
pub struct Token<'t> {
    pub at: usize,
    pub kind: Kind<'t>,
}

#[derive(Clone, Copy, Debug, PartialEq, Eq)]
pub enum Kind<'t> {
    Open,
    Close,
    /// Letters a to z.
    Word(&'t [u8]),
    /// Digits, however many.
    Digits(&'t [u8]),
    /// Any other run.
    Odd,
}

/// A number inside its limits and the offset of its first byte.
#[derive(Clone, Copy, Debug, PartialEq, Eq)]
pub struct Number {
    pub at: usize,
    pub value: u32,
}

/// The next token of the line; none at the line's end.
impl<'t> Iterator for Lines<'t> {
    type Item = Token<'t>;

    #[inline]
    fn next(&mut self) -> Option<Token<'t>> {
        self.skip_spaces();
        let at = self.offset();
        let kind = match *self.rest.first()? {
            b'\n' => return None,
            b'(' => {
                self.pass(1);
                Kind::Open
            }
            b')' => {
                self.pass(1);
                Kind::Close
            }
            _ => self.run(),
        };
        Some(Token { at, kind })
    }
}

impl<'t> Lines<'t> {
    pub fn of(text: &'t [u8]) -> Self {
        Lines {
            rest: text,
            length: text.len(),
        }
    }

    /// How many bytes lie behind.
    fn offset(&self) -> usize {
        self.length - self.rest.len()
    }

    fn pass(&mut self, count: usize) -> &'t [u8] {
        let (passed, rest) = self.rest.split_at(count);
        self.rest = rest;
        passed
    }

    fn skip_spaces(&mut self) {
        while let [b' ', rest @ ..] = self.rest {
            self.rest = rest;
        }
    }

    /// The longest run of bytes from here that are no bracket, space or LF.
    fn run(&mut self) -> Kind<'t> {
        let (mut letters, mut digits, mut length) = (true, true, 0);
        for byte in self.rest {
            match byte {
                b'(' | b')' | b' ' | b'\n' => break,
                b'a'..=b'z' => digits = false,
                b'0'..=b'9' => letters = false,
                _ => (letters, digits) = (false, false),
            }
            length += 1;
        }
        let run = self.pass(length);
        match (letters, digits) {
            (true, _) => Kind::Word(run),
            (_, true) => Kind::Digits(run),
            _ => Kind::Odd,
        }
    }

    /// Whether the line has no token left.
    pub fn is_blank(&mut self) -> bool {
        self.skip_spaces();
        matches!(self.rest.first(), None | Some(b'\n'))
    }

    /// Goes on to the next line from a line's end; false if there is none.
    pub fn next_line(&mut self) -> bool {
        let more = !self.rest.is_empty();
        self.pass(usize::from(more));
        more
    }

    /// The next token, which must be there.
    pub fn due(&mut self) -> Result<Token<'t>, Refusal> {
        let token = self.next();
        token.ok_or(Refusal::Shape { at: self.offset() })
    }

    /// An opening bracket; gives its offset.
    pub fn open(&mut self) -> Result<usize, Refusal> {
        match self.due()? {
            Token {
                at,
                kind: Kind::Open,
            } => Ok(at),
            other => Err(other.misplaced()),
        }
    }

    /// A closing bracket.
    pub fn close(&mut self) -> Result<(), Refusal> {
        match self.due()? {
            Token {
                kind: Kind::Close, ..
            } => Ok(()),
            other => Err(other.misplaced()),
        }
    }

    /// This one word.
    pub fn word(&mut self, word: &str) -> Result<(), Refusal> {
        match self.due()? {
            Token {
                kind: Kind::Word(run),
                ..
            } if run == word.as_bytes() => Ok(()),
            other => Err(other.misplaced()),
        }
    }

    /// A number inside these limits.
    pub fn number(&mut self, limits: RangeInclusive<u32>) -> Result<Number, Refusal> {
        self.due()?.number(limits)
    }

    /// Nothing more on the line.
    pub fn finish(&mut self) -> Result<(), Refusal> {
        match self.next() {
            None => Ok(()),
            Some(token) => Err(token.misplaced()),
        }
    }
}

impl Token<'_> {
    /// The refusal of a token where another was due.
    pub fn misplaced(self) -> Refusal {
        Refusal::Shape { at: self.at }
    }

    /// This token as a number inside these limits.
    pub fn number(self, limits: RangeInclusive<u32>) -> Result<Number, Refusal> {
        let Kind::Digits(digits) = self.kind else {
            return Err(self.misplaced());
        };
        let out = Refusal::Number { at: self.at };
        if digits.len() > DIGITS {
            return Err(out);
        }
        let value = digits
            .iter()
            .fold(0u64, |sum, digit| 10 * sum + u64::from(digit - b'0'));
        match u32::try_from(value) {
            Ok(value) if limits.contains(&value) => Ok(Number { at: self.at, value }),
            _ => Err(out),
        }
    }
}
