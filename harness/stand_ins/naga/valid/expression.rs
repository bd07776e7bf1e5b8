//! Names of the expression validation, which is not run.

use super::{ModuleInfo, Validator};
use crate::proc::{ExpressionKindTracker, GlobalCtx};

pub struct ExpressionError;
pub struct LiteralError;

#[derive(Clone, Debug, thiserror::Error)]
pub struct ConstExpressionError {}

pub fn check_literal_value() {}

impl Validator {
    pub(super) fn validate_const_expression(
        &self,
        _: crate::Handle<crate::Expression>,
        _: GlobalCtx,
        _: &ModuleInfo,
        _: &ExpressionKindTracker,
    ) -> Result<(), ConstExpressionError> {
        unreachable!()
    }
}
