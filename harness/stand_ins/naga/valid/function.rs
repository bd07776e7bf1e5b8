//! Names of the function validation, which is not run.

use super::{FunctionInfo, ModuleInfo, Validator};
use crate::WithSpan;

pub struct CallError;
pub struct LocalVariableError;
pub struct SubgroupError;

#[derive(Clone, Debug, thiserror::Error)]
pub struct FunctionError {}

impl Validator {
    pub(super) fn validate_function(
        &mut self,
        _: &crate::Function,
        _: &crate::Module,
        _: &ModuleInfo,
        _: bool,
    ) -> Result<FunctionInfo, WithSpan<FunctionError>> {
        unreachable!()
    }
}
