//! Names of the function analysis, which is not run.

use super::{ConstExpressionError, ModuleInfo};
use crate::proc::{GlobalCtx, ResolveContext};

#[derive(Clone, Debug)]
pub struct FunctionInfo;
pub struct ExpressionInfo;
pub struct GlobalUse;
pub struct Uniformity;
pub struct UniformityRequirements;

impl ModuleInfo {
    pub(super) fn process_const_expression(
        &mut self,
        _: crate::Handle<crate::Expression>,
        _: &ResolveContext,
        _: GlobalCtx,
    ) -> Result<(), ConstExpressionError> {
        unreachable!()
    }
}
