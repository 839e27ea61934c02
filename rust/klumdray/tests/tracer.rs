//! The comparison for sites and the tracer: the proved library and the bindings over it beside the
//! reference, which floods the site from line to line.

#[path = "support/plans.rs"]
mod plans;
#[path = "support/sites.rs"]
mod sites;
#[path = "support/wrong_reasons.rs"]
mod wrong_reasons;
#[path = "support/wrong_sites.rs"]
mod wrong_sites;
#[path = "support/wrong_tracers.rs"]
mod wrong_tracers;

use inputs::plans::{Plan, MOST_COUPLERS};
use inputs::{seed, Generator};
use klumdray::coupler::Side;
use klumdray::raw::Site;
use klumdray::tracer::Why;
use plans::{line_asked, site, some_query, some_stores};
use reference::tracer::{way, Query, Stop, Traced};
use sites::{library_trace, library_why, packed, packed_why};
use sites::{Comparison, Tracer, LIBRARY, REFERENCE};

const SITES: u64 = 20_000;

/// Stores are large: they serve for several sites.
const SITES_OF_A_STORE: u64 = 8;
const TRACES_OF_A_SITE: u64 = 4;
const WHYS_OF_A_TRACE: u64 = 4;
/// In one of so many sites, why is asked for every line.
const SITES_FOR_EVERY_LINE: u64 = 50;

const ROOMS: [usize; 4] = [0, 767, 768, 800];

fn compare(proved: Tracer, reference: Tracer, seed: u64) -> Result<Comparison, String> {
    let mut comparison = Comparison::new(proved, reference);
    let generator = &mut Generator::new(seed);
    while comparison.sites() < SITES {
        let stores = some_stores(generator);
        for _ in 0..SITES_OF_A_STORE {
            let plan = Plan::new(generator, &stores, MOST_COUPLERS);
            comparison.add_site();
            compare_site(&mut comparison, generator, &plan)?;
        }
    }
    Ok(comparison)
}

fn compare_site(
    comparison: &mut Comparison,
    generator: &mut Generator,
    plan: &Plan<'_>,
) -> Result<(), String> {
    let site = site(plan);
    let asks_every_line = comparison.sites() % SITES_FOR_EVERY_LINE == 0;
    for _ in 0..TRACES_OF_A_SITE {
        let query = some_query(generator, plan);
        let room = match generator.below(16) {
            place @ 0..4 => ROOMS[place],
            place => ROOMS[2 + place % 2],
        };
        let listed = comparison.trace(&query, &site, room)?;
        for _ in 0..WHYS_OF_A_TRACE {
            let line = line_asked(generator, plan, &query);
            comparison.why(&query, &site, line)?;
        }
        if asks_every_line && !listed.is_empty() {
            assert_reached(comparison, &query, &site, &listed)?;
        }
    }
    Ok(())
}

/// Why says of every line whether it is listed.
fn assert_reached(
    comparison: &mut Comparison,
    query: &Query,
    site: &Site<'_>,
    listed: &[u8],
) -> Result<(), String> {
    for line in 0..=255 {
        let reached = comparison.why(query, site, line)?;
        assert_eq!(reached, listed.contains(&line), "{query:x?} to {line:02x}");
    }
    Ok(())
}

fn assert_agrees(name: &str, proved: Tracer) {
    let seed = seed();
    println!("tracer, {name} and reference, KLUMDRAY_SEED={seed:#x}");
    match compare(proved, REFERENCE, seed) {
        Ok(comparison) => {
            println!("tracer, {name}: {comparison}");
            comparison.assert_covers(SITES);
        }
        Err(difference) => panic!("KLUMDRAY_SEED={seed:#x}: {difference}"),
    }
}

#[test]
fn library_agrees_with_the_reference() {
    assert_agrees("library", LIBRARY);
}

#[test]
fn bindings_agree_with_the_reference() {
    let bindings = Tracer {
        trace: bindings_trace,
        why: bindings_why,
    };
    assert_agrees("bindings", bindings);
}

/// A query as the bindings take it, if their type has its kind.
fn bindings_query(query: &Query) -> Option<klumdray::tracer::Query> {
    (query.kind <= 1).then_some(klumdray::tracer::Query {
        start: query.start,
        group: query.kind == 1,
        destination: query.destination,
        count: query.count,
    })
}

fn bindings_site<'a>(site: &Site<'a>) -> klumdray::tracer::Site<'a> {
    klumdray::tracer::Site {
        records: site.records,
        project: site.project,
        own: site.own,
    }
}

fn bindings_trace(query: &Query, site: &Site<'_>, room: &mut [u8]) -> u64 {
    let Some(asked) = bindings_query(query) else {
        return library_trace(query, site, room);
    };
    let front = room.as_ptr();
    let traced = klumdray::tracer::trace(&asked, &bindings_site(site), room);
    packed(traced.map_err(|refusal| refusal.number()).map(|traced| {
        assert_eq!(traced.list.as_ptr(), front);
        let lines = traced.lines().map(|at| [at.line, at.count, at.crossed]);
        assert!(lines.flatten().eq(traced.list.iter().copied()));
        Traced {
            listed: traced.lines().count(),
            forwardings: traced.forwardings,
        }
    }))
}

fn bindings_why(query: &Query, site: &Site<'_>, line: u8) -> u32 {
    use klumdray::tracer::Reason as Bound;
    use reference::tracer::Reason;
    let Some(asked) = bindings_query(query) else {
        return library_why(query, site, line);
    };
    let why = klumdray::tracer::why(&asked, &bindings_site(site), line);
    packed_why(
        why.map_err(|refusal| refusal.number())
            .map(|why| match why {
                Why::Reached => None,
                Why::Stopped { line, from, reason } => Some(Stop {
                    line,
                    from: match from {
                        Side::Main => reference::coupler::Side::Main,
                        Side::Sub => reference::coupler::Side::Sub,
                    },
                    reason: match reason {
                        Bound::NotFitted => Reason::NotFitted,
                        Bound::OwnAddress => Reason::OwnAddress,
                        Bound::Closed => Reason::Closed,
                        Bound::NotBelow => Reason::NotBelow,
                        Bound::NotAbove => Reason::NotAbove,
                        Bound::NotInTable => Reason::NotInTable,
                        Bound::CountUsedUp => Reason::CountUsedUp,
                    },
                }),
            }),
    )
}

/// All 65,536 pairs of lines where every coupler is fitted and open: with count 7 every line is
/// listed, with count 3 those at most 3 couplers away.
#[test]
fn every_pair_of_lines_agrees_on_a_full_open_site() {
    let record = |line| [0x43, 0x50, line, 2, 2, 2, 2, 2, 2, 2, 2, 0xff];
    let records: Vec<u8> = (1..=255).flat_map(record).collect();
    let site = Site {
        records: &records,
        project: &[],
        own: &[],
    };
    let mut comparison = Comparison::new(LIBRARY, REFERENCE);
    for start in 0..=255 {
        for count in [7, 3] {
            let query = Query {
                start,
                kind: 1,
                destination: 0x1234,
                count,
            };
            let far = |line| way(start, line).count() > 3;
            let expected = (0..=255).filter(|&line| count == 7 || !far(line));
            let listed = comparison.trace(&query, &site, 768).unwrap();
            assert!(expected.eq(listed.iter().copied()), "{query:x?}");
            assert_reached(&mut comparison, &query, &site, &listed).unwrap();
        }
    }
    let (traces, whys) = (comparison.traces(), comparison.whys());
    println!("full open site: {traces} traces, {whys} whys");
    assert_eq!((traces, whys), (2 * 256, 2 * 65_536));
}

fn assert_noticed(references: Vec<(&str, Tracer)>) {
    for (name, reference) in references {
        match compare(LIBRARY, reference, seed()) {
            Ok(_) => panic!("not noticed: {name}"),
            Err(difference) => println!("{name}: {difference:.160}"),
        }
    }
}

#[test]
fn wrong_listing_is_noticed() {
    assert_noticed(wrong_tracers::listing());
}

#[test]
fn wrong_passing_is_noticed() {
    assert_noticed(wrong_tracers::passing());
}

#[test]
fn wrong_refusing_is_noticed() {
    assert_noticed(wrong_sites::refusing());
}

#[test]
fn wrong_explaining_is_noticed() {
    assert_noticed(wrong_reasons::explaining());
}
