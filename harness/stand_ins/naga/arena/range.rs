//! A range of handles, as `Arena` names it.

use super::Arena;
use core::{marker::PhantomData, ops};

#[derive(Debug)]
pub struct Range<T> {
    pub(super) inner: ops::Range<u32>,
    marker: PhantomData<T>,
}

impl<T> Clone for Range<T> {
    fn clone(&self) -> Self {
        Self {
            inner: self.inner.clone(),
            marker: PhantomData,
        }
    }
}

impl<T> Range<T> {
    pub fn from_index_range(inner: ops::Range<u32>, _arena: &Arena<T>) -> Self {
        Self {
            inner,
            marker: PhantomData,
        }
    }
}

#[derive(Clone, Debug, thiserror::Error)]
pub struct BadRangeError {
    range: ops::Range<u32>,
}

impl BadRangeError {
    pub fn new<T>(range: Range<T>) -> Self {
        Self { range: range.inner }
    }
}
