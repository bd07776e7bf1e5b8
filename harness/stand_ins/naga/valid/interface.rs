//! Names of the interface validation, which is not run. Blend sources are left
//! out of the comparison, so that their errors never occur.

use super::{FunctionInfo, ModuleInfo, Validator};
use crate::proc::{ExpressionKindTracker, GlobalCtx};
use crate::{Handle, Type, WithSpan};

#[derive(Clone, Debug, thiserror::Error)]
pub enum GlobalVariableError {}

#[derive(Clone, Debug, thiserror::Error)]
pub enum EntryPointError {
    Conflict,
}

#[derive(Clone, Debug, thiserror::Error)]
pub enum VaryingError {
    InvalidBlendSrcIndex {
        location: u32,
        blend_src: u32,
    },
    BindingCollisionBlendSrc {
        blend_src: u32,
    },
    InvalidBlendSrcWithOtherBindings {
        location: u32,
    },
    BlendSrcOutputTypeMismatch {
        blend_src_0_type: Handle<Type>,
        blend_src_1_type: Handle<Type>,
    },
    NotIOShareableType(Handle<Type>),
    IncompleteBlendSrcUsage {
        present_blend_src: u32,
    },
}

impl Validator {
    pub(super) fn validate_global_var(
        &self,
        _: &crate::GlobalVariable,
        _: GlobalCtx,
        _: &ModuleInfo,
        _: &ExpressionKindTracker,
    ) -> Result<(), GlobalVariableError> {
        unreachable!()
    }

    pub(super) fn validate_entry_point(
        &mut self,
        _: &crate::EntryPoint,
        _: &crate::Module,
        _: &ModuleInfo,
    ) -> Result<FunctionInfo, WithSpan<EntryPointError>> {
        unreachable!()
    }
}
