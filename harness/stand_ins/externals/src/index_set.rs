//! A set that keeps the order of insertion. Lookups compare stored hashes one
//! by one, which is quick enough for the 1,024 types of an arena.

use std::collections::hash_map::DefaultHasher;
use std::hash::{Hash, Hasher};
use std::ops::{Index, RangeFull};

#[derive(Clone)]
pub struct IndexSet<T> {
    items: Vec<T>,
    hashes: Vec<u64>,
}

impl<T> Default for IndexSet<T> {
    fn default() -> Self {
        Self {
            items: Vec::new(),
            hashes: Vec::new(),
        }
    }
}

impl<T> IndexSet<T> {
    pub fn len(&self) -> usize {
        self.items.len()
    }
    pub fn is_empty(&self) -> bool {
        self.items.is_empty()
    }
    pub fn clear(&mut self) {
        self.items.clear();
        self.hashes.clear();
    }
    pub fn drain(&mut self, range: RangeFull) -> set::Drain<'_, T> {
        self.hashes.clear();
        set::Drain(self.items.drain(range))
    }
    pub fn iter(&self) -> std::slice::Iter<'_, T> {
        self.items.iter()
    }
    pub fn get_index(&self, index: usize) -> Option<&T> {
        self.items.get(index)
    }
    pub fn swap_remove_index(&mut self, index: usize) -> Option<T> {
        if index >= self.items.len() {
            return None;
        }
        self.hashes.swap_remove(index);
        Some(self.items.swap_remove(index))
    }
}

impl<T: Eq + Hash> IndexSet<T> {
    /// The item's index, and whether it is new.
    pub fn insert_full(&mut self, item: T) -> (usize, bool) {
        if let Some(index) = self.get_index_of(&item) {
            return (index, false);
        }
        self.hashes.push(hash_of(&item));
        self.items.push(item);
        (self.items.len() - 1, true)
    }
    pub fn get_index_of(&self, item: &T) -> Option<usize> {
        let hash = hash_of(item);
        let mut pairs = self.hashes.iter().zip(&self.items);
        pairs.position(|(&other_hash, other)| other_hash == hash && other == item)
    }
}

fn hash_of<T: Hash>(item: &T) -> u64 {
    let mut hasher = DefaultHasher::new();
    item.hash(&mut hasher);
    hasher.finish()
}

impl<T> Index<usize> for IndexSet<T> {
    type Output = T;
    fn index(&self, index: usize) -> &T {
        &self.items[index]
    }
}

pub mod set {
    pub struct Drain<'a, T>(pub(super) std::vec::Drain<'a, T>);

    impl<T> Iterator for Drain<'_, T> {
        type Item = T;
        fn next(&mut self) -> Option<T> {
            self.0.next()
        }
    }
}
