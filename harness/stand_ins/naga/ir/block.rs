//! A series of statements: none are ever held.

#[derive(Clone, Debug, Default)]
pub struct Block;
