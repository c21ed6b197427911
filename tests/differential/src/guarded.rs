//! A row of numbers with a margin on both sides, so that an engine that writes
//! past what it was lent is noticed.

use std::fmt;
use std::ops::{Deref, DerefMut};

const MARGIN: usize = 16;
const MARK: u8 = 0xc3;

#[derive(Clone, PartialEq, Eq)]
pub struct Guarded<T>(Vec<T>);

impl<T: Copy + Eq + From<u8>> Guarded<T> {
    /// A row of these numbers.
    pub fn new(numbers: &[T]) -> Self {
        let margin = [T::from(MARK); MARGIN];
        Guarded([&margin, numbers, &margin].concat())
    }

    /// A row of so many zeros.
    pub fn zeros(length: usize) -> Self {
        Self::new(&vec![T::from(0); length])
    }

    /// Cuts the row, or makes it longer with zeros.
    pub fn set_length(&mut self, length: usize) {
        let mut numbers = self.to_vec();
        numbers.resize(length, T::from(0));
        *self = Self::new(&numbers);
    }

    /// Whether nothing was written to the margins.
    pub fn is_intact(&self) -> bool {
        let (before, rest) = self.0.split_at(MARGIN);
        let after = &rest[rest.len() - MARGIN..];
        before.iter().chain(after).all(|mark| *mark == MARK.into())
    }
}

impl<T> Deref for Guarded<T> {
    type Target = [T];

    fn deref(&self) -> &[T] {
        &self.0[MARGIN..self.0.len() - MARGIN]
    }
}

impl<T> DerefMut for Guarded<T> {
    fn deref_mut(&mut self) -> &mut [T] {
        let end = self.0.len() - MARGIN;
        &mut self.0[MARGIN..end]
    }
}

impl<T: fmt::Debug> fmt::Debug for Guarded<T> {
    fn fmt(&self, f: &mut fmt::Formatter) -> fmt::Result {
        fmt::Debug::fmt(&**self, f)
    }
}

#[cfg(test)]
mod tests {
    use super::Guarded;

    #[test]
    fn margins_are_watched() {
        let mut row = Guarded::<u16>::new(&[1, 2, 3]);
        assert!(row.is_intact());
        row.set_length(5);
        assert_eq!(row[..], [1, 2, 3, 0, 0]);
        row.set_length(2);
        assert_eq!(row[..], [1, 2]);
        row.0[15] = 0;
        assert!(!row.is_intact());
        row.0[15] = 0xc3;
        row.0[18] = 0;
        assert!(!row.is_intact());
    }
}
