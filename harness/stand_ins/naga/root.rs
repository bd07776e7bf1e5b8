// Stand-in for naga's lib.rs: its crate attributes and most of its modules
// cannot be had here. The two widths are lib.rs's own lines.

mod arena;
pub mod diagnostic_filter;
pub mod ir;
mod non_max_u32;
pub mod proc;
mod span;
pub mod valid;

pub use crate::arena::{Arena, Handle, Range, UniqueArena};
pub use crate::span::{Span, WithSpan};
pub use ir::*;
pub use naga_types::{FastHashMap, FastHashSet, FastIndexMap, FastIndexSet};

include!("widths.rs");

pub(crate) type NamedExpressions = FastIndexMap<Handle<Expression>, String>;

/// The handle of a record number. The number 4,294,967,295 cannot be a handle;
/// the one below it stands for it, which is no type of an arena either.
pub fn handle_of(number: u32) -> Handle<Type> {
    let index = non_max_u32::NonMaxU32::new(number.min(u32::MAX - 1));
    Handle::new(index.unwrap())
}
