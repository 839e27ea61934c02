//! Traces of a site, and why a line is not reached.

use crate::packed::{packed_trace, packed_why};
use crate::{fits, lent, room, Answer};
use reference::site::Site;
use reference::tracer::{trace, why, Query, Stop, Traced};

type Traces = Result<Traced, u8>;
type Stops = Result<Option<Stop>, u8>;

const _: () = assert!(fits::<Stops>(1));
const _: () = assert!(fits::<Query>(1) && fits::<Site<'_>>(6));

/// # Safety
/// As the declaration in `reference.h` says, here and below: lengths are those of what is lent, and
/// records and stores stay as long as the site.
#[no_mangle]
pub unsafe extern "C-unwind" fn lend_site(
    site: *mut Site<'_>,
    records: *const u8,
    records_length: usize,
    project: *const u8,
    project_length: usize,
    own: *const u8,
    own_length: usize,
) {
    site.write(Site {
        records: lent(records, records_length),
        project: lent(project, project_length),
        own: lent(own, own_length),
    });
}

/// # Safety
/// As above.
#[no_mangle]
pub unsafe extern "C-unwind" fn lend_query(
    query: *mut Query,
    start: u32,
    kind: u32,
    destination: u32,
    count: u32,
) {
    query.write(Query {
        start: start as u8,
        kind: kind as u8,
        destination: destination as u16,
        count: count as u8,
    });
}

/// # Safety
/// As above.
#[no_mangle]
pub unsafe extern "C-unwind" fn reference_trace(
    query: &Query,
    site: &Site<'_>,
    list: *mut u8,
    n: usize,
) -> Answer<Traces> {
    Answer::of(trace(query, site, room(list, n)))
}

#[no_mangle]
pub extern "C-unwind" fn reference_why(query: &Query, site: &Site<'_>, line: u32) -> Stops {
    why(query, site, line as u8)
}

#[no_mangle]
pub extern "C-unwind" fn told_trace(answer: &Answer<Traces>) -> u64 {
    packed_trace(answer.is)
}

#[no_mangle]
pub extern "C-unwind" fn told_why(answer: &Stops) -> u64 {
    packed_why(*answer).into()
}
