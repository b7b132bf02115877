//! The differential runner: random schedules, run on the unchanged Rust in virtual time (crate ops),
//! and the same sessions through the real replay program; every byte that it answers is compared.
#![cfg(rust_found)]

pub mod class;
pub mod compare;
pub mod count;
pub mod make;
pub mod merge;
pub mod mutants;
pub mod replay;
pub mod rules;
pub mod run;
pub mod sample;
pub mod shrink;
pub mod station;
pub mod text;
pub mod versions;
pub mod waits;
