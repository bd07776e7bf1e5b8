//! A set of handles that naga's function validation would fill.

use core::marker::PhantomData;

#[derive(Debug)]
pub(crate) struct HandleSet<T>(PhantomData<T>);

impl<T> HandleSet<T> {
    pub fn new() -> Self {
        Self(PhantomData)
    }
    pub fn clear(&mut self) {}
}
