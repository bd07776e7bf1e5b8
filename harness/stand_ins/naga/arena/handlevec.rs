//! A vector indexed by handles, filled in their order.

use super::handle::Handle;
use core::{marker::PhantomData, ops};

#[derive(Debug)]
pub(crate) struct HandleVec<T, U> {
    items: Vec<U>,
    marker: PhantomData<T>,
}

impl<T, U> Default for HandleVec<T, U> {
    fn default() -> Self {
        Self {
            items: Vec::new(),
            marker: PhantomData,
        }
    }
}

impl<T, U> HandleVec<T, U> {
    pub fn len(&self) -> usize {
        self.items.len()
    }
    pub fn clear(&mut self) {
        self.items.clear();
    }
    pub fn insert(&mut self, handle: Handle<T>, item: U) {
        assert_eq!(handle.index(), self.items.len());
        self.items.push(item);
    }
}

impl<T, U> ops::Index<Handle<T>> for HandleVec<T, U> {
    type Output = U;
    fn index(&self, handle: Handle<T>) -> &U {
        &self.items[handle.index()]
    }
}
