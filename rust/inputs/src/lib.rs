//! Inputs for the comparisons with the reference. They come from a seed: the same seed gives the same
//! inputs on every machine.
#![forbid(unsafe_code)]

pub mod frames;
mod generator;
pub mod leaks;
pub mod meters;
pub mod plans;
mod seed;
pub mod tables;
pub mod traffic;

pub use generator::Generator;
pub use seed::{number, seed, USUAL_SEED};
