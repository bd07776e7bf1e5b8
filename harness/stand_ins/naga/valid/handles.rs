//! Names of the handle validation, which is not run. The door through which
//! the harness reaches the validator's inside stands below it, because it must
//! be a module within `valid`.

mod bridge;

use super::{ValidationError, Validator};

#[derive(Clone, Debug, thiserror::Error)]
pub enum InvalidHandleError {}

impl Validator {
    pub(super) fn validate_module_handles(_: &crate::Module) -> Result<(), ValidationError> {
        unreachable!()
    }
}
