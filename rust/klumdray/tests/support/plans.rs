//! What the comparison of tracers asks, about sites from a seed.

use inputs::plans::{Plan, Stores, MOST_OWN, MOST_PROJECT};
use inputs::Generator;
use klumdray::raw::Site;
use reference::tracer::Query;

pub fn some_stores(generator: &mut Generator) -> Stores {
    let tables = [MOST_PROJECT, MOST_OWN].map(|most| some_tables(generator, most));
    Stores::new(generator, tables)
}

/// None or a few; seldom all that may be, or one more.
fn some_tables(generator: &mut Generator, most: usize) -> usize {
    match generator.below(128) {
        0 => most,
        1 => most + 1,
        _ => generator.one_of(&[0, 1, 1, 2, 3, 5]),
    }
}

pub fn site<'a>(plan: &'a Plan<'_>) -> Site<'a> {
    let site = plan.site();
    Site {
        records: site.records,
        project: site.project,
        own: site.own,
    }
}

/// In one case of sixteen kind or count may be outside its range.
pub fn some_query(generator: &mut Generator, plan: &Plan<'_>) -> Query {
    let mut query = plan.query(generator);
    if generator.one_in(16) {
        let wrong = generator.one_of(&[(2, 7), (255, 8), (1, 8), (0, 255)]);
        (query.kind, query.count) = wrong;
    }
    query
}

/// A line to ask about: of the site, or the destination's, or near the starting line, or any.
pub fn line_asked(generator: &mut Generator, plan: &Plan<'_>, query: &Query) -> u8 {
    let (start, [high, _]) = (query.start, query.destination.to_be_bytes());
    match generator.below(4) {
        0 => generator.one_of(&[0x00, start & 0xf0, start ^ 1, start]),
        1 => generator.one_of(&[high, high & 0xf0]),
        _ => plan.some_line(generator),
    }
}
