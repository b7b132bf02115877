//! std::env, with the variables of the run.
use crate::clock;
pub use std::env::*;

pub fn var(name: &str) -> Result<String, VarError> {
    clock::variable(name).ok_or(VarError::NotPresent)
}
