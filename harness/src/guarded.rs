//! Words lent to the port, between margins that it must not reach.

use crate::random::Random;
use std::ops::Range;

const MARGIN: usize = 16;

/// A pattern, the middle of which is lent.
pub struct Guarded<W> {
    words: Vec<W>,
    before: Vec<W>,
}

impl<W: Copy + PartialEq> Guarded<W> {
    pub fn new(length: usize, random: &mut Random, word: fn(&mut Random) -> W) -> Self {
        let words: Vec<W> = (0..length + 2 * MARGIN).map(|_| word(random)).collect();
        let before = words.clone();
        Self { words, before }
    }

    fn middle(&self) -> Range<usize> {
        MARGIN..self.words.len() - MARGIN
    }

    pub fn lend(&mut self) -> &mut [W] {
        let middle = self.middle();
        &mut self.words[middle]
    }

    /// Puts the words at the start of what is lent.
    pub fn hold(&mut self, words: &[W]) {
        self.lend()[..words.len()].copy_from_slice(words);
        self.before.copy_from_slice(&self.words);
    }

    pub fn now(&self) -> &[W] {
        &self.words[self.middle()]
    }

    /// What was lent.
    pub fn before(&self) -> &[W] {
        &self.before[self.middle()]
    }

    pub fn margins_are_touched(&self) -> bool {
        let Range { start, end } = self.middle();
        self.words[..start] != self.before[..start] || self.words[end..] != self.before[end..]
    }
}
