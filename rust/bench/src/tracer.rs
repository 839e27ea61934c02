//! Rows for the tracer: a site with every coupler fitted, and filter tables in both stores.

use crate::measure::{is_told, row};
use klumdray::raw;
use reference::site::Site;
use reference::tracer::{Query, Stop, Traced, ROOM_SIZE};
use std::hint::black_box;

const TABLE: usize = 8192;
/// In each store.
const TABLES: usize = 16;

const START: u8 = 0x11;
const GROUP: u16 = 0x1234;

/// Individual addresses and groups under code 1, broadcast open.
const CODES: [u8; 8] = [1, 2, 1, 1, 1, 2, 1, 1];

#[inline(never)]
fn reference_trace(query: &Query, site: &Site<'_>, room: &mut [u8]) -> Result<Traced, u8> {
    reference::tracer::trace(query, site, room)
}

#[inline(never)]
fn reference_why(query: &Query, site: &Site<'_>, line: u8) -> Result<Option<Stop>, u8> {
    reference::tracer::why(query, site, line)
}

/// Lines take the 32 tables in turn.
fn records() -> Vec<u8> {
    let number = |line: u8| line % 16 + line / 16 % 2 * 128;
    let record = |line| [&[0x43, 0x50, line], &CODES[..], &[number(line)]].concat();
    (1..=255).flat_map(record).collect()
}

/// The group is in every table but one, which no area coupler has.
fn store() -> Vec<u8> {
    let mut store = vec![0; TABLES * TABLE];
    for place in (0..TABLES).filter(|&place| place != 5) {
        store[place * TABLE + usize::from(GROUP / 8)] = 1 << (GROUP % 8);
    }
    store
}

pub fn rows() {
    let (records, project, own) = (records(), store(), store());
    let site = Site {
        records: &records,
        project: &project,
        own: &own,
    };
    let query = Query {
        start: START,
        kind: 1,
        destination: GROUP,
        count: 6,
    };
    let broadcast = Query {
        destination: 0,
        ..query
    };
    let individual = Query {
        kind: 0,
        destination: 0x4711,
        ..query
    };
    trace_row("trace, 255 couplers, group", &query, &site, 240);
    trace_row("trace, 255 couplers, broadcast", &broadcast, &site, 256);
    trace_row("trace, 255 couplers, individual", &individual, &site, 5);
    why_row("why, 255 couplers, reached", &query, &site, 0xff);
    why_row("why, 255 couplers, stopped", &query, &site, 0xf5);
}

fn numbers(query: &Query) -> raw::Query {
    raw::Query {
        start: query.start.into(),
        kind: query.kind.into(),
        destination: query.destination.into(),
        count: query.count.into(),
    }
}

fn octets<'a>(site: &Site<'a>) -> raw::Site<'a> {
    raw::Site {
        records: site.records,
        project: site.project,
        own: site.own,
    }
}

fn trace_row(name: &str, query: &Query, site: &Site<'_>, listed: usize) {
    let (numbers, octets) = (numbers(query), octets(site));
    let (mut proved_room, mut reference_room) = ([0; ROOM_SIZE], [0; ROOM_SIZE]);
    row(
        name,
        || {
            let room = black_box(&mut proved_room);
            raw::trace(black_box(&numbers), black_box(&octets), room)
        },
        || {
            let room = black_box(&mut reference_room);
            reference_trace(black_box(query), black_box(site), room)
        },
    );
    if is_told() {
        return;
    }
    // What was timed is what the row says.
    let traced = reference_trace(query, site, &mut reference_room);
    assert_eq!(traced.map(|traced| traced.listed), Ok(listed));
    assert_eq!(proved_room, reference_room);
}

fn why_row(name: &str, query: &Query, site: &Site<'_>, line: u8) {
    let (numbers, octets, number) = (numbers(query), octets(site), line.into());
    row(
        name,
        || raw::why(black_box(&numbers), black_box(&octets), black_box(number)),
        || reference_why(black_box(query), black_box(site), black_box(line)),
    );
    let reached = raw::why(&numbers, &octets, number) == 0;
    assert_eq!(reached, name.ends_with("reached"));
    assert_eq!(
        reference_why(query, site, line).map(|stop| stop.is_none()),
        Ok(reached)
    );
}
