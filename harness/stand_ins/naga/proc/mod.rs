//! Stand-in for proc/mod.rs: the context that the layouter and the validator
//! are handed, and the names that they mention.

mod layouter;
mod type_methods;

pub use layouter::{Alignment, LayoutError, LayoutErrorInner, Layouter, TypeLayout};

use crate::{Arena, Constant, Expression, Handle, Module, Override, Type, TypeInner, UniqueArena};

#[derive(Clone, Copy)]
pub struct GlobalCtx<'a> {
    pub types: &'a UniqueArena<Type>,
    pub constants: &'a Arena<Constant>,
    pub overrides: &'a Arena<Override>,
    pub global_expressions: &'a Arena<Expression>,
}

static NO_CONSTANTS: Arena<Constant> = Arena::new();
static NO_OVERRIDES: Arena<Override> = Arena::new();
static NO_EXPRESSIONS: Arena<Expression> = Arena::new();

impl<'a> GlobalCtx<'a> {
    /// A context of types alone.
    pub fn of_types(types: &'a UniqueArena<Type>) -> Self {
        Self {
            types,
            constants: &NO_CONSTANTS,
            overrides: &NO_OVERRIDES,
            global_expressions: &NO_EXPRESSIONS,
        }
    }
    pub fn compare_types(&self, _: &TypeResolution, _: &TypeResolution) -> bool {
        unreachable!()
    }
}

impl Module {
    pub fn to_ctx(&self) -> GlobalCtx<'_> {
        GlobalCtx {
            types: &self.types,
            constants: &self.constants,
            overrides: &self.overrides,
            global_expressions: &self.global_expressions,
        }
    }
}

#[derive(Clone, Debug)]
pub enum TypeResolution {
    Handle(Handle<Type>),
    Value(TypeInner),
}

pub enum IndexableLength {
    Known(u32),
    Dynamic,
}

#[derive(Debug)]
pub struct IndexableLengthError;

impl crate::ArraySize {
    /// The count as it stands; override sizes are left out of the comparison.
    pub fn resolve(&self, _: GlobalCtx) -> Result<IndexableLength, IndexableLengthError> {
        match *self {
            Self::Constant(count) => Ok(IndexableLength::Known(count.get())),
            Self::Dynamic => Ok(IndexableLength::Dynamic),
            Self::Pending(_) => Err(IndexableLengthError),
        }
    }
}

pub struct ExpressionKindTracker;

impl ExpressionKindTracker {
    pub fn from_arena(_: &Arena<Expression>) -> Self {
        Self
    }
    pub fn is_const(&self, _: Handle<Expression>) -> bool {
        unreachable!()
    }
}

pub struct ResolveContext;

impl ResolveContext {
    pub fn with_locals(
        _: &Module,
        _: &Arena<crate::LocalVariable>,
        _: &[crate::FunctionArgument],
    ) -> Self {
        Self
    }
}
