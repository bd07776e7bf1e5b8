//! What the harness asks of the validator: `Layouter::update` over the whole
//! arena, `validate_type` type by type, and their results in plain words.

use super::super::{Disalignment, ImmediateError, TypeError, TypeFlags, Validator};
use crate::proc::{Alignment, GlobalCtx, LayoutError};
use crate::{Handle, Scalar, Type, UniqueArena};

pub type Verdict = Result<Alignment, (Handle<Type>, Disalignment)>;

impl Validator {
    pub fn lay_out(&mut self, types: &UniqueArena<Type>) -> Result<(), LayoutError> {
        self.reset_types(types.len());
        self.layouter.update(GlobalCtx::of_types(types))
    }

    pub fn layout(&self, handle: Handle<Type>) -> (u32, u32) {
        let layout = self.layouter[handle];
        (layout.size, layout.alignment * 1)
    }

    /// Judges one type, as `Validator::validate` does in its loop; the earlier
    /// types' results are kept and this one's is not.
    pub fn judge(&self, types: &UniqueArena<Type>, handle: Handle<Type>) -> Result<(), TypeError> {
        self.validate_type(handle, GlobalCtx::of_types(types))
            .map(|_| ())
    }

    /// Judges one type and keeps its result for the later ones.
    pub fn judge_and_keep(
        &mut self,
        types: &UniqueArena<Type>,
        handle: Handle<Type>,
    ) -> Result<(), TypeError> {
        let info = self.validate_type(handle, GlobalCtx::of_types(types))?;
        self.types[handle.index()] = info;
        Ok(())
    }

    /// The types' part of `Validator::validate`, for timing: reset, layouts, then
    /// type by type, each result kept.
    pub fn check_types(&mut self, types: &UniqueArena<Type>) -> Result<(), ()> {
        self.reset();
        self.lay_out(types).map_err(|_| ())?;
        for (handle, _) in types.iter() {
            self.judge_and_keep(types, handle).map_err(|_| ())?;
        }
        Ok(())
    }

    pub fn flags(&self, handle: Handle<Type>) -> TypeFlags {
        self.types[handle.index()].flags
    }

    pub fn uniform_verdict(&self, handle: Handle<Type>) -> Verdict {
        self.types[handle.index()].uniform_layout
    }

    pub fn storage_verdict(&self, handle: Handle<Type>) -> Verdict {
        self.types[handle.index()].storage_layout
    }

    /// The scalar that keeps the type out of immediates, if there is one.
    pub fn not_in_immediates(&self, handle: Handle<Type>) -> Option<Scalar> {
        match self.types[handle.index()].immediates_compatibility {
            Ok(()) => None,
            Err(ImmediateError::InvalidScalar(scalar)) => Some(scalar),
        }
    }
}
