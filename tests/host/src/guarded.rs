//! A slice to lend with guard words on both sides, which no call may change.

use std::fmt::Debug;
use std::ops::Range;

const GUARDS: usize = 64;

pub struct Guarded<T> {
    words: Vec<T>,
    lent: Range<usize>,
    guard: T,
}

impl<T: Copy + PartialEq + Debug> Guarded<T> {
    pub fn new(content: &[T], guard: T) -> Guarded<T> {
        let mut words = vec![guard; GUARDS];
        words.extend_from_slice(content);
        words.extend([guard; GUARDS]);
        Guarded { words, lent: GUARDS..GUARDS + content.len(), guard }
    }

    pub fn slice(&self) -> &[T] {
        &self.words[self.lent.clone()]
    }

    pub fn slice_mut(&mut self) -> &mut [T] {
        &mut self.words[self.lent.clone()]
    }

    pub fn assert_guards(&self) {
        let outside = self.words[..self.lent.start].iter().chain(&self.words[self.lent.end..]);
        assert!(outside.into_iter().all(|&word| word == self.guard), "a word outside the lent slice was written");
    }
}
