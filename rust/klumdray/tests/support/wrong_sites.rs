//! References with one rule of a site's refusals turned round.

use crate::sites::{listed, reference_site, reference_trace, Tracer, RECORD};
use crate::wrong_tracers::{changed, is_accepted, tracers, ROWS};
use klumdray::raw::Site;
use reference::tracer::Query;

const ROOM: usize = 768;
const TABLE: usize = 8192;
const NO_TABLE: u8 = 0xff;

/// Places of the four group codes in a record.
const GROUP_CODES: [usize; 4] = [5, 6, 9, 10];

fn is_wrong_store(site: &Site<'_>) -> bool {
    let sizes = Site {
        records: &[],
        ..*site
    };
    reference_site(&sizes).couplers().is_err()
}

/// The record that a refusal is about, between those before it and those behind it; none where a
/// store or the length is refused.
fn refused_record<'a>(site: &Site<'a>) -> Option<[&'a [u8]; 3]> {
    if is_wrong_store(site) || site.records.len() % RECORD != 0 {
        return None;
    }
    let is_refused = |end: usize| {
        let records = &site.records[..end];
        reference_site(&Site { records, ..*site })
            .couplers()
            .is_err()
    };
    let mut ends = (RECORD..=site.records.len()).step_by(RECORD);
    let (before, from) = site
        .records
        .split_at(ends.find(|&end| is_refused(end))? - RECORD);
    let (record, behind) = from.split_at(RECORD);
    Some([before, record, behind])
}

/// The number that a record draws where it is the only one.
fn number_alone(site: &Site<'_>, record: &[u8]) -> u8 {
    let alone = Site {
        records: record,
        ..*site
    };
    reference_site(&alone).couplers().err().unwrap_or(0)
}

fn room_before_range(query: &Query, site: &Site<'_>, room: &mut [u8]) -> u64 {
    match reference_trace(query, site, room) {
        14 if room.len() < ROOM => 13,
        answer => answer,
    }
}

fn stores_before_room(query: &Query, site: &Site<'_>, room: &mut [u8]) -> u64 {
    match reference_trace(query, site, room) {
        13 if is_wrong_store(site) => 18,
        answer => answer,
    }
}

fn length_before_stores(query: &Query, site: &Site<'_>, room: &mut [u8]) -> u64 {
    match reference_trace(query, site, room) {
        18 if site.records.len() % RECORD != 0 => 16,
        answer => answer,
    }
}

fn records_before_length(query: &Query, site: &Site<'_>, room: &mut [u8]) -> u64 {
    let answer = reference_trace(query, site, room);
    let whole = site.records.len() / RECORD * RECORD;
    let cut = Site {
        records: &site.records[..whole],
        ..*site
    };
    match (answer, reference_site(&cut).couplers()) {
        (16, Err(number)) => number.into(),
        _ => answer,
    }
}

fn setting_before_mark(query: &Query, site: &Site<'_>, room: &mut [u8]) -> u64 {
    match (reference_trace(query, site, room), refused_record(site)) {
        (16, Some([_, record, _])) if record[2] == 0 => 15,
        (answer, _) => answer,
    }
}

fn table_before_setting(query: &Query, site: &Site<'_>, room: &mut [u8]) -> u64 {
    match (reference_trace(query, site, room), refused_record(site)) {
        (15, Some([_, record, _])) => {
            let mut mended = record.to_vec();
            mended[2] = 1;
            for row in ROWS {
                mended[row] = 0;
                mended[row + 1] = 0;
                for code in &mut mended[row + 2..row + 4] {
                    *code = (*code).min(2);
                }
            }
            match number_alone(site, &mended) {
                18 => 18,
                _ => 15,
            }
        }
        (answer, _) => answer,
    }
}

fn twice_before_table(query: &Query, site: &Site<'_>, room: &mut [u8]) -> u64 {
    match (reference_trace(query, site, room), refused_record(site)) {
        (18, Some([before, record, _])) if has_line(before, record[2]) => 17,
        (answer, _) => answer,
    }
}

fn has_line(records: &[u8], line: u8) -> bool {
    records.chunks(RECORD).any(|record| record[2] == line)
}

fn marks_before_all(query: &Query, site: &Site<'_>, room: &mut [u8]) -> u64 {
    match (reference_trace(query, site, room), refused_record(site)) {
        (15 | 17 | 18, Some([_, _, behind]))
            if behind
                .chunks(RECORD)
                .any(|record| record[..2] != [0x43, 0x50]) =>
        {
            16
        }
        (answer, _) => answer,
    }
}

fn twice_after_all(query: &Query, site: &Site<'_>, room: &mut [u8]) -> u64 {
    match (reference_trace(query, site, room), refused_record(site)) {
        (17, Some([_, _, behind])) => {
            let mut numbers = behind
                .chunks(RECORD)
                .map(|record| number_alone(site, record));
            numbers.find(|&number| number != 0).unwrap_or(17).into()
        }
        (answer, _) => answer,
    }
}

fn twice_at_the_first(query: &Query, site: &Site<'_>, room: &mut [u8]) -> u64 {
    match (reference_trace(query, site, room), refused_record(site)) {
        (15 | 16 | 18, Some([before, _, behind]))
            if before
                .chunks(RECORD)
                .any(|record| has_line(behind, record[2])) =>
        {
            17
        }
        (answer, _) => answer,
    }
}

/// The reference with changed records where it gives this number.
fn mended(
    number: u64,
    query: &Query,
    site: &Site<'_>,
    room: &mut [u8],
    change: impl Fn(&mut [u8]),
) -> u64 {
    match reference_trace(query, site, room) {
        answer if answer == number => {
            let records = changed(site, change);
            reference_trace(
                query,
                &Site {
                    records: &records,
                    ..*site
                },
                room,
            )
        }
        answer => answer,
    }
}

fn asks_table(record: &[u8]) -> bool {
    GROUP_CODES.iter().any(|&place| record[place] == 1)
}

fn none_always_allowed(query: &Query, site: &Site<'_>, room: &mut [u8]) -> u64 {
    mended(18, query, site, room, |record| {
        if record[11] == NO_TABLE {
            for place in GROUP_CODES {
                record[place] &= 2;
            }
        }
    })
}

fn idle_numbers_not_judged(query: &Query, site: &Site<'_>, room: &mut [u8]) -> u64 {
    mended(18, query, site, room, |record| {
        if !asks_table(record) {
            record[11] = NO_TABLE;
        }
    })
}

fn none_never_allowed(query: &Query, site: &Site<'_>, room: &mut [u8]) -> u64 {
    let mut records = site.records.chunks(RECORD);
    if is_accepted(query, site, room.len()) && records.any(|record| record[11] == NO_TABLE) {
        return 18;
    }
    reference_trace(query, site, room)
}

fn number_254_is_none(query: &Query, site: &Site<'_>, room: &mut [u8]) -> u64 {
    mended(18, query, site, room, |record| {
        if record[11] == 254 && !asks_table(record) {
            record[11] = NO_TABLE;
        }
    })
}

fn takes_broadcast_code_1(query: &Query, site: &Site<'_>, room: &mut [u8]) -> u64 {
    mended(15, query, site, room, |record| {
        for place in [4, 8] {
            record[place] = record[place].saturating_sub(u8::from(record[place] == 1));
        }
    })
}

fn takes_code_3(query: &Query, site: &Site<'_>, room: &mut [u8]) -> u64 {
    mended(15, query, site, room, |record| {
        for code in &mut record[3..11] {
            *code -= u8::from(*code == 3);
        }
    })
}

fn first_of_the_mark_only(query: &Query, site: &Site<'_>, room: &mut [u8]) -> u64 {
    mended(16, query, site, room, |record| record[1] = 0x50)
}

fn ignores_a_part(query: &Query, site: &Site<'_>, room: &mut [u8]) -> u64 {
    match reference_trace(query, site, room) {
        16 => {
            let whole = site.records.len() / RECORD * RECORD;
            let records = &site.records[..whole];
            reference_trace(query, &Site { records, ..*site }, room)
        }
        answer => answer,
    }
}

fn more_than_255_is_16(query: &Query, site: &Site<'_>, room: &mut [u8]) -> u64 {
    match reference_trace(query, site, room) {
        15 | 17 if site.records.len() > 255 * RECORD => 16,
        answer => answer,
    }
}

/// A store with more tables than it may have is taken without those at its end.
fn cut(store: &[u8], most: usize) -> &[u8] {
    match store.len() % TABLE {
        0 => &store[..store.len().min(most * TABLE)],
        _ => store,
    }
}

fn project_of_129_taken(query: &Query, site: &Site<'_>, room: &mut [u8]) -> u64 {
    let project = cut(site.project, 128);
    reference_trace(query, &Site { project, ..*site }, room)
}

fn own_of_128_taken(query: &Query, site: &Site<'_>, room: &mut [u8]) -> u64 {
    let own = cut(site.own, 127);
    reference_trace(query, &Site { own, ..*site }, room)
}

fn room_as_needed(query: &Query, site: &Site<'_>, room: &mut [u8]) -> u64 {
    let mut larger = room.to_vec();
    larger.resize(ROOM.max(room.len()), 0);
    match (
        reference_trace(query, site, room),
        reference_trace(query, site, &mut larger),
    ) {
        (13, answer) if answer as u8 == 0 && 3 * listed(answer) <= room.len() => {
            room.copy_from_slice(&larger[..room.len()]);
            answer
        }
        (answer, _) => answer,
    }
}

fn takes_any_kind(query: &Query, site: &Site<'_>, room: &mut [u8]) -> u64 {
    let kind = query.kind.min(1);
    reference_trace(&Query { kind, ..*query }, site, room)
}

fn takes_any_count(query: &Query, site: &Site<'_>, room: &mut [u8]) -> u64 {
    let count = query.count & 7;
    reference_trace(&Query { count, ..*query }, site, room)
}

fn writes_on_refusal(query: &Query, site: &Site<'_>, room: &mut [u8]) -> u64 {
    let answer = reference_trace(query, site, room);
    if let (15..=18, [first, ..]) = (answer as u8, room) {
        *first ^= 0xff;
    }
    answer
}

pub fn refusing() -> Vec<(&'static str, Tracer)> {
    tracers(vec![
        ("13 before 14", room_before_range),
        ("18 of a store before 13", stores_before_room),
        ("16 of the length before 18", length_before_stores),
        ("records before the length", records_before_length),
        ("15 before 16", setting_before_mark),
        ("18 before 15", table_before_setting),
        ("17 before 18", twice_before_table),
        ("16 of any record first", marks_before_all),
        ("17 after all records", twice_after_all),
        ("17 at the first of two", twice_at_the_first),
        ("FFh always allowed", none_always_allowed),
        ("FFh never allowed", none_never_allowed),
        ("idle numbers not judged", idle_numbers_not_judged),
        ("254 as none", number_254_is_none),
        ("broadcast code 1 taken", takes_broadcast_code_1),
        ("code 3 taken", takes_code_3),
        ("half of the mark", first_of_the_mark_only),
        ("part of a record ignored", ignores_a_part),
        ("more than 255 records by 16", more_than_255_is_16),
        ("129 tables of the project", project_of_129_taken),
        ("128 tables of the site", own_of_128_taken),
        ("13 only where needed", room_as_needed),
        ("any kind taken", takes_any_kind),
        ("any count taken", takes_any_count),
        ("writes on a refusal", writes_on_refusal),
    ])
}
