//! What the tests share. Each of them uses a part of it.
#![allow(dead_code)]

pub mod broken;
pub mod emulated;
pub mod layouts;
pub mod sites;

use klumdray::tracer::{trace, Query, Site};
use klumdray::Refusal;

/// The library's refusal of a site, by the tracer: with a query that nothing is wrong with.
pub fn refusal(site: &Site<'_>) -> Option<Refusal> {
    let query = Query {
        start: 0,
        group: true,
        destination: 1,
        count: 7,
    };
    trace(&query, site, &mut [0; 768]).err()
}
