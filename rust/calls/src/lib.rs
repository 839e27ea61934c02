//! Tables of calls and answers. The inputs come from a seed, the answers from the reference alone: a
//! machine that plays a table against the proved library compares it with the reference.
#![forbid(unsafe_code)]

mod answer;
mod call;
mod channels;
#[cfg(test)]
mod coverage;
mod datagrams;
mod frames;
mod meters;
mod numbers;
mod orders;
mod plans;
#[cfg(test)]
mod reader;
mod repetitions;
mod rounds;
mod shares;
mod table;
mod traffic;
mod writes;

pub use rounds::{table, Options};
pub use table::{Table, Wrong};
