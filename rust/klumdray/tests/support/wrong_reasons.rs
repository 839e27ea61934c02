//! References with one rule about the coupler that stops a telegram turned round.

use crate::sites::{direction, reason, reference_site, reference_why, stopping_line};
use crate::sites::{Tracer, RECORD, REFERENCE};
use crate::wrong_tracers::ROWS;
use klumdray::raw::Site;
use reference::coupler::Side;
use reference::site::main_side;
use reference::tracer::{way, Query};

const NOT_FITTED: u8 = 1;
const OWN_ADDRESS: u8 = 2;
const CLOSED: u8 = 3;
const NOT_BELOW: u8 = 4;
const NOT_ABOVE: u8 = 5;
const NOT_IN_TABLE: u8 = 6;
const COUNT_USED_UP: u8 = 7;

/// With another reason.
fn for_reason(answer: u32, reason: u8) -> u32 {
    answer & !0xff00 | u32::from(reason) << 8
}

/// The reference with one reason taken for another.
fn taken(query: &Query, site: &Site<'_>, line: u8, [wrong, right]: [u8; 2]) -> u32 {
    match reference_why(query, site, line) {
        answer if answer as u8 == 0 && reason(answer) == right => for_reason(answer, wrong),
        answer => answer,
    }
}

fn always_reached(query: &Query, site: &Site<'_>, line: u8) -> u32 {
    match reference_why(query, site, line) {
        answer if answer as u8 == 0 => 0,
        answer => answer,
    }
}

/// Asks from the line that each coupler on the way hands on to; the last that stops is named.
fn names_the_last(query: &Query, site: &Site<'_>, line: u8) -> u32 {
    let answer = reference_why(query, site, line);
    if answer as u8 != 0 || reason(answer) == 0 {
        return answer;
    }
    let couplers = way(query.start, line);
    let later = couplers.filter_map(|(coupler, from)| {
        let start = match from {
            Side::Main => coupler,
            Side::Sub => main_side(coupler),
        };
        let answer = reference_why(&Query { start, ..*query }, site, line);
        (reason(answer) != 0).then_some(answer)
    });
    later.last().unwrap_or(answer)
}

fn names_the_line_asked(query: &Query, site: &Site<'_>, line: u8) -> u32 {
    match reference_why(query, site, line) {
        answer if reason(answer) != 0 => answer & !0xff_0000 | u32::from(line) << 16,
        answer => answer,
    }
}

fn names_the_line_reached(query: &Query, site: &Site<'_>, line: u8) -> u32 {
    match reference_why(query, site, line) {
        0 => u32::from(line) << 16,
        answer => answer,
    }
}

fn directions_changed_over(query: &Query, site: &Site<'_>, line: u8) -> u32 {
    match reference_why(query, site, line) {
        answer if reason(answer) != 0 => answer ^ 1 << 24,
        answer => answer,
    }
}

fn below_and_above_changed_over(query: &Query, site: &Site<'_>, line: u8) -> u32 {
    match reference_why(query, site, line) {
        answer if reason(answer) == NOT_BELOW => for_reason(answer, NOT_ABOVE),
        answer if reason(answer) == NOT_ABOVE => for_reason(answer, NOT_BELOW),
        answer => answer,
    }
}

/// The count with which the telegram comes to the coupler that stops it.
fn count_there(query: &Query, answer: u32, line: u8) -> u8 {
    let before =
        way(query.start, line).take_while(|&(coupler, _)| coupler != stopping_line(answer));
    match query.count {
        7 => 7,
        count => count - before.count() as u8,
    }
}

fn count_before_codes(query: &Query, site: &Site<'_>, line: u8) -> u32 {
    match reference_why(query, site, line) {
        answer
            if (CLOSED..COUNT_USED_UP).contains(&reason(answer))
                && count_there(query, answer, line) == 0 =>
        {
            for_reason(answer, COUNT_USED_UP)
        }
        answer => answer,
    }
}

fn count_before_fitted(query: &Query, site: &Site<'_>, line: u8) -> u32 {
    match reference_why(query, site, line) {
        answer if reason(answer) == NOT_FITTED && count_there(query, answer, line) == 0 => {
            for_reason(answer, COUNT_USED_UP)
        }
        answer => answer,
    }
}

fn closed_before_own(query: &Query, site: &Site<'_>, line: u8) -> u32 {
    let answer = reference_why(query, site, line);
    if reason(answer) != OWN_ADDRESS {
        return answer;
    }
    let mut records = site.records.chunks(RECORD);
    match records.find(|record| record[2] == stopping_line(answer)) {
        Some(record) if record[ROWS[direction(answer)]] == 0 => for_reason(answer, CLOSED),
        _ => answer,
    }
}

fn not_fitted_as_closed(query: &Query, site: &Site<'_>, line: u8) -> u32 {
    taken(query, site, line, [CLOSED, NOT_FITTED])
}

fn not_in_table_as_closed(query: &Query, site: &Site<'_>, line: u8) -> u32 {
    taken(query, site, line, [CLOSED, NOT_IN_TABLE])
}

fn range_after_the_site(query: &Query, site: &Site<'_>, line: u8) -> u32 {
    match (
        reference_why(query, site, line),
        reference_site(site).couplers(),
    ) {
        (14, Err(number)) => number.into(),
        (answer, _) => answer,
    }
}

fn any_site_taken(query: &Query, site: &Site<'_>, line: u8) -> u32 {
    match reference_why(query, site, line) {
        17 => 0,
        answer => answer,
    }
}

type Named = (&'static str, fn(&Query, &Site<'_>, u8) -> u32);

pub fn explaining() -> Vec<(&'static str, Tracer)> {
    let explanations: Vec<Named> = vec![
        ("always reached", always_reached),
        ("last coupler named", names_the_last),
        ("line asked named", names_the_line_asked),
        ("line reached named", names_the_line_reached),
        ("directions changed over", directions_changed_over),
        ("below and above changed over", below_and_above_changed_over),
        ("count before the codes", count_before_codes),
        ("count before the coupler", count_before_fitted),
        ("closed before its own", closed_before_own),
        ("not fitted as closed", not_fitted_as_closed),
        ("not in the table as closed", not_in_table_as_closed),
        ("14 after the site's", range_after_the_site),
        ("line twice taken", any_site_taken),
    ];
    let wrong = |why| Tracer { why, ..REFERENCE };
    let named = explanations.into_iter();
    named.map(|(name, why)| (name, wrong(why))).collect()
}
