//! References with one rule of the tracer turned round.

use crate::sites::{listed, reference_trace, Tracer, RECORD, REFERENCE};
use klumdray::raw::Site;
use reference::site::main_side;
use reference::tracer::{way, Query};

const ROOM: usize = 768;
const TABLE: usize = 8192;
const NO_TABLE: u8 = 0xff;

/// Where the four codes of each direction begin in a record.
pub const ROWS: [usize; 2] = [3, 7];

/// The listed lines of an answer, three octets each; none of a refusal.
#[allow(clippy::incompatible_msrv)] // of the workspace's 1.88, as the reference that tests need
fn entries(room: &mut [u8], answer: u64) -> &mut [[u8; 3]] {
    let (places, _) = room.as_chunks_mut();
    &mut places[..listed(answer)]
}

/// Replaces the forwardings in an answer.
fn with_forwardings(answer: u64, forwardings: u64) -> u64 {
    answer & 0xff_ffff | forwardings << 24
}

pub fn is_accepted(query: &Query, site: &Site<'_>, room: usize) -> bool {
    reference_trace(query, site, &mut vec![0; room]) as u8 == 0
}

/// The reference with every record changed, where it refuses nothing.
fn with_records(
    query: &Query,
    site: &Site<'_>,
    room: &mut [u8],
    change: impl Fn(&mut [u8]),
) -> u64 {
    if !is_accepted(query, site, room.len()) {
        return reference_trace(query, site, room);
    }
    let records = changed(site, change);
    reference_trace(
        query,
        &Site {
            records: &records,
            ..*site
        },
        room,
    )
}

pub fn changed(site: &Site<'_>, change: impl Fn(&mut [u8])) -> Vec<u8> {
    let mut records = site.records.to_vec();
    records.chunks_exact_mut(RECORD).for_each(change);
    records
}

fn lists_the_start_only(query: &Query, site: &Site<'_>, room: &mut [u8]) -> u64 {
    if !is_accepted(query, site, room.len()) {
        return reference_trace(query, site, room);
    }
    room[..3].copy_from_slice(&[query.start, query.count, 0]);
    1 << 8
}

fn lists_all(query: &Query, site: &Site<'_>, room: &mut [u8]) -> u64 {
    if !is_accepted(query, site, room.len()) {
        return reference_trace(query, site, room);
    }
    let answer = 256 << 8 | 255 << 24;
    for (line, octets) in (0..=255).zip(entries(room, answer)) {
        let crossed = way(query.start, line).count() as u8;
        let count = match query.count {
            7 => 7,
            count => count.saturating_sub(crossed),
        };
        *octets = [line, count, crossed];
    }
    answer
}

fn crosses_three_at_most(query: &Query, site: &Site<'_>, room: &mut [u8]) -> u64 {
    let answer = reference_trace(query, site, room);
    for octets in entries(room, answer) {
        octets[2] = octets[2].min(3);
    }
    answer
}

fn crosses_main_sides(query: &Query, site: &Site<'_>, room: &mut [u8]) -> u64 {
    let answer = reference_trace(query, site, room);
    for octets in entries(room, answer) {
        octets[2] = u8::from(octets[0] != 0) + u8::from(main_side(octets[0]) != 0);
    }
    answer
}

fn forwardings_as_listed(query: &Query, site: &Site<'_>, room: &mut [u8]) -> u64 {
    let answer = reference_trace(query, site, room);
    with_forwardings(answer, listed(answer) as u64)
}

fn forwardings_of_each_path(query: &Query, site: &Site<'_>, room: &mut [u8]) -> u64 {
    let answer = reference_trace(query, site, room);
    let crossed = entries(room, answer).iter().map(|octets| octets[2]);
    with_forwardings(answer, crossed.map(u64::from).sum())
}

fn at_most_254_forwardings(query: &Query, site: &Site<'_>, room: &mut [u8]) -> u64 {
    let answer = reference_trace(query, site, room);
    with_forwardings(answer, (answer >> 24).min(254))
}

fn area_coupler_above_area_0(query: &Query, site: &Site<'_>, room: &mut [u8]) -> u64 {
    let answer = reference_trace(query, site, room);
    for octets in entries(room, answer) {
        if matches!(octets[0], 0x01..=0x0f) && octets[0] != query.start {
            octets[2] += 1;
        }
    }
    answer
}

fn lowers_seven(query: &Query, site: &Site<'_>, room: &mut [u8]) -> u64 {
    let answer = reference_trace(query, site, room);
    for octets in entries(room, answer) {
        if octets[1] == 7 {
            octets[1] -= octets[2];
        }
    }
    answer
}

fn goes_one_further(query: &Query, site: &Site<'_>, room: &mut [u8]) -> u64 {
    if query.count > 5 {
        return reference_trace(query, site, room);
    }
    let count = query.count + 1;
    let answer = reference_trace(&Query { count, ..*query }, site, room);
    for octets in entries(room, answer) {
        octets[1] = octets[1].saturating_sub(1);
    }
    answer
}

fn stops_at_one(query: &Query, site: &Site<'_>, room: &mut [u8]) -> u64 {
    let (1..=6) = query.count else {
        return reference_trace(query, site, room);
    };
    let count = query.count - 1;
    let answer = reference_trace(&Query { count, ..*query }, site, room);
    for octets in entries(room, answer) {
        octets[1] += 1;
    }
    answer
}

fn is_not_rising(query: &Query, site: &Site<'_>, room: &mut [u8]) -> u64 {
    let answer = reference_trace(query, site, room);
    if let [.., last, latest] = entries(room, answer) {
        std::mem::swap(last, latest);
    }
    answer
}

fn clears_behind(query: &Query, site: &Site<'_>, room: &mut [u8]) -> u64 {
    let answer = reference_trace(query, site, room);
    if answer as u8 == 0 {
        room[3 * listed(answer)..].fill(0);
    }
    answer
}

/// Only a room of more than 768 octets has an octet that no list can have.
fn writes_behind_the_list(query: &Query, site: &Site<'_>, room: &mut [u8]) -> u64 {
    let answer = reference_trace(query, site, room);
    if let (0, Some(octet)) = (answer as u8, room.get_mut(ROOM)) {
        *octet ^= 0xff;
    }
    answer
}

fn leaves_out_the_start_at_count_0(query: &Query, site: &Site<'_>, room: &mut [u8]) -> u64 {
    match (query.count, is_accepted(query, site, room.len())) {
        (0, true) => 0,
        _ => reference_trace(query, site, room),
    }
}

fn forgets_the_last_of_255(query: &Query, site: &Site<'_>, room: &mut [u8]) -> u64 {
    let mut site = *site;
    if site.records.len() == 255 * RECORD {
        site.records = &site.records[..254 * RECORD];
    }
    reference_trace(query, &site, room)
}

pub fn listing() -> Vec<(&'static str, Tracer)> {
    tracers(vec![
        ("starting line only", lists_the_start_only),
        ("all lines", lists_all),
        ("at most three crossed", crosses_three_at_most),
        ("crossed from the backbone", crosses_main_sides),
        ("as many forwardings as lines", forwardings_as_listed),
        ("each path forwarded apart", forwardings_of_each_path),
        ("at most 254 forwardings", at_most_254_forwardings),
        ("area coupler above area 0", area_coupler_above_area_0),
        ("7 lowered", lowers_seven),
        ("d at most c + 1", goes_one_further),
        ("d below c", stops_at_one),
        ("not rising at the end", is_not_rising),
        ("clears the room behind", clears_behind),
        ("writes behind 768 octets", writes_behind_the_list),
        ("count 0: no line", leaves_out_the_start_at_count_0),
        ("254 couplers at most", forgets_the_last_of_255),
    ])
}

fn rows_changed_over(query: &Query, site: &Site<'_>, room: &mut [u8]) -> u64 {
    with_records(query, site, room, |record| record[3..11].rotate_left(4))
}

fn one_row_both_ways(query: &Query, site: &Site<'_>, room: &mut [u8]) -> u64 {
    with_records(query, site, room, |record| record.copy_within(3..7, 7))
}

fn stores_changed_over(query: &Query, site: &Site<'_>, room: &mut [u8]) -> u64 {
    let other = Site {
        project: site.own,
        own: site.project,
        ..*site
    };
    if is_accepted(query, site, room.len()) && is_accepted(query, &other, room.len()) {
        reference_trace(query, &other, room)
    } else {
        reference_trace(query, site, room)
    }
}

fn own_store_counted_from_one(query: &Query, site: &Site<'_>, room: &mut [u8]) -> u64 {
    let tables = site.own.len() / TABLE;
    with_records(query, site, room, |record| {
        if record[11] != NO_TABLE && usize::from(record[11]) + 1 < 128 + tables {
            record[11] += u8::from(record[11] >= 128);
        }
    })
}

fn first_table_for_all(query: &Query, site: &Site<'_>, room: &mut [u8]) -> u64 {
    with_records(query, site, room, |record| {
        if record[11] != NO_TABLE {
            record[11] &= 0x80;
        }
    })
}

fn sends_own_on(query: &Query, site: &Site<'_>, room: &mut [u8]) -> u64 {
    let mut query = *query;
    if query.kind == 0 {
        query.destination |= 1;
    }
    reference_trace(&query, site, room)
}

/// Of a kind 1 query, a group that is a coupler's own address.
fn own_group_stopped(query: &Query, site: &Site<'_>, room: &mut [u8]) -> u64 {
    let [high, low] = query.destination.to_be_bytes();
    with_records(query, site, room, |record| {
        if query.kind == 1 && high != 0 && [record[2], 0] == [high, low] {
            record[3..11].fill(0);
        }
    })
}

fn bit_of_group_0(site: &Site<'_>, number: u8) -> u8 {
    let table = match number {
        0..=127 => &site.project[usize::from(number) * TABLE..],
        _ => &site.own[usize::from(number - 128) * TABLE..],
    };
    table[0] & 1
}

fn reads_broadcast(query: &Query, site: &Site<'_>, room: &mut [u8]) -> u64 {
    if (query.kind, query.destination) != (1, 0) {
        return reference_trace(query, site, room);
    }
    with_records(query, site, room, |record| {
        for row in ROWS {
            if record[row + 2] == 1 {
                record[row + 1] = 2 * bit_of_group_0(site, record[11]);
            }
        }
    })
}

fn bits_from_the_other_end(query: &Query, site: &Site<'_>, room: &mut [u8]) -> u64 {
    let mut query = *query;
    if query.kind == 1 && query.destination > 7 {
        query.destination ^= 7;
    }
    reference_trace(&query, site, room)
}

/// The codes for individual addresses as they would be if this rule were asked under code 1.
fn with_individual_rule(
    query: &Query,
    site: &Site<'_>,
    room: &mut [u8],
    is_below: impl Fn(u8, u8) -> bool,
) -> u64 {
    let [high, _] = query.destination.to_be_bytes();
    with_records(query, site, room, |record| {
        let below = is_below(record[2], high);
        for (row, passes) in ROWS.into_iter().zip([below, !below]) {
            if record[row] == 1 {
                record[row] = 2 * u8::from(passes);
            }
        }
    })
}

fn area_couplers_as_line_couplers(query: &Query, site: &Site<'_>, room: &mut [u8]) -> u64 {
    with_individual_rule(query, site, room, |line, high| line == high)
}

fn line_couplers_as_area_couplers(query: &Query, site: &Site<'_>, room: &mut [u8]) -> u64 {
    with_individual_rule(query, site, room, |line, high| line >> 4 == high >> 4)
}

fn missing_couplers_open(query: &Query, site: &Site<'_>, room: &mut [u8]) -> u64 {
    if !is_accepted(query, site, room.len()) {
        return reference_trace(query, site, room);
    }
    let mut records = site.records.to_vec();
    for line in 1..=255 {
        if site.records.chunks(RECORD).all(|record| record[2] != line) {
            records.extend([0x43, 0x50, line, 2, 2, 2, 2, 2, 2, 2, 2, NO_TABLE]);
        }
    }
    reference_trace(
        query,
        &Site {
            records: &records,
            ..*site
        },
        room,
    )
}

/// Upper and lower groups' codes changed over for one group.
fn with_other_range(group: u16, query: &Query, site: &Site<'_>, room: &mut [u8]) -> u64 {
    if (query.kind, query.destination) != (1, group) {
        return reference_trace(query, site, room);
    }
    with_records(query, site, room, |record| {
        record.swap(5, 6);
        record.swap(9, 10);
    })
}

fn lower_groups_below_6fff(query: &Query, site: &Site<'_>, room: &mut [u8]) -> u64 {
    with_other_range(0x6fff, query, site, room)
}

fn lower_groups_to_7000(query: &Query, site: &Site<'_>, room: &mut [u8]) -> u64 {
    with_other_range(0x7000, query, site, room)
}

pub fn passing() -> Vec<(&'static str, Tracer)> {
    tracers(vec![
        ("rows changed over", rows_changed_over),
        ("main to sub's row both ways", one_row_both_ways),
        ("stores changed over", stores_changed_over),
        ("own store counted from 1", own_store_counted_from_one),
        ("first table for all", first_table_for_all),
        ("4.7.0 sent on into line 4.7", sends_own_on),
        ("a group as its own address", own_group_stopped),
        ("group 0000h read from the table", reads_broadcast),
        ("bits from the other end", bits_from_the_other_end),
        (
            "area couplers as line couplers",
            area_couplers_as_line_couplers,
        ),
        (
            "line couplers as area couplers",
            line_couplers_as_area_couplers,
        ),
        ("missing couplers open", missing_couplers_open),
        ("6FFFh as an upper group", lower_groups_below_6fff),
        ("7000h as a lower group", lower_groups_to_7000),
    ])
}

type Named = (&'static str, fn(&Query, &Site<'_>, &mut [u8]) -> u64);

pub fn tracers(traces: Vec<Named>) -> Vec<(&'static str, Tracer)> {
    let wrong = |trace| Tracer { trace, ..REFERENCE };
    let named = traces.into_iter();
    named.map(|(name, trace)| (name, wrong(trace))).collect()
}
