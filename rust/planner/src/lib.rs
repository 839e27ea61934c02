//! What stands behind `./klumdray`: it translates texts and captures to octets and answers to texts,
//! and draws. Whatever decides (reading, passing, tracing, what is counted, whether a site is
//! well-formed) is asked of the proved library.
#![forbid(unsafe_code)]
#![warn(missing_docs)]

pub mod address;
pub mod arguments;
pub mod calendar;
pub mod capture;
pub mod commands;
pub mod fault;
pub mod findings;
pub mod frame;
pub mod hex;
pub mod json;
pub mod litres;
pub mod loading;
pub mod octets;
pub mod picture;
pub mod plan;
pub mod telegrams;
pub mod text;
pub mod tracing;
pub mod words;
