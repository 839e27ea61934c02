//! The tracer: a telegram floods a site from line to line. And why it does not reach a line.

use crate::coupler::{lowered, Coupler, Side};
use crate::refusal::ROOM;
use crate::site::{below, main_side, Couplers, Site};

/// "13 (room below 768)"
pub const ROOM_SIZE: usize = 768;

/// "A query: starting line, kind (0 individual, 1 group), destination, count." Kind and count may
/// be outside their ranges.
#[derive(Clone, Copy, Debug, PartialEq, Eq)]
pub struct Query {
    pub start: u8,
    pub kind: u8,
    pub destination: u16,
    pub count: u8,
}

impl Query {
    /// "14 (kind, count)"
    fn telegram(&self) -> Result<Telegram, u8> {
        Ok(Telegram {
            group: crate::flag(self.kind)?,
            destination: self.destination,
            count: crate::at_most(7, self.count)?,
        })
    }
}

/// A telegram on its starting line.
#[derive(Clone, Copy)]
struct Telegram {
    group: bool,
    destination: u16,
    count: u8,
}

#[derive(Clone, Copy, Debug, PartialEq, Eq)]
pub struct Traced {
    /// How many lines are listed, three octets each at the front of the room.
    pub listed: usize,
    pub forwardings: usize,
}

/// "Order: 14 (kind, count), 13 (room below 768)", then the site's.
pub fn trace(query: &Query, site: &Site<'_>, room: &mut [u8]) -> Result<Traced, u8> {
    let telegram = query.telegram()?;
    if room.len() < ROOM_SIZE {
        return Err(ROOM);
    }
    let flood = Flood::of(query.start, &telegram, &site.couplers()?);
    Ok(Traced {
        listed: flood.list(room),
        forwardings: flood.forwardings,
    })
}

/// A telegram as it arrives on a line.
#[derive(Clone, Copy)]
struct Arrival {
    line: u8,
    count: u8,
    crossed: u8,
    /// The coupler by which it came; none on the starting line.
    by: Option<u8>,
}

/// Where a telegram arrived, in the order of arrival. Lines make a tree and nothing goes back, so
/// each of the 256 lines comes once at most.
struct Flood {
    arrivals: [Arrival; 256],
    arrived: usize,
    forwardings: usize,
}

impl Flood {
    fn of(start: u8, telegram: &Telegram, couplers: &Couplers<'_>) -> Flood {
        let start = Arrival {
            line: start,
            count: telegram.count,
            crossed: 0,
            by: None,
        };
        let mut flood = Flood {
            arrivals: [start; 256],
            arrived: 1,
            forwardings: 0,
        };
        let passes = |line, from| {
            let coupler: Option<Coupler<'_>> = couplers.fitted(line);
            coupler.is_some_and(|it| it.may_pass(from, telegram.group, telegram.destination))
        };
        let mut handed_on = 0;
        while handed_on < flood.arrived {
            let at = flood.arrivals[handed_on];
            handed_on += 1;
            if at.by != Some(at.line) && passes(at.line, Side::Sub) {
                flood.arrive(&at, at.line, main_side(at.line));
            }
            for line in below(at.line) {
                if at.by != Some(line) && passes(line, Side::Main) {
                    flood.arrive(&at, line, line);
                }
            }
        }
        flood
    }

    /// A coupler at the line of an arrival hands on to its other side, if the count allows it.
    fn arrive(&mut self, at: &Arrival, by: u8, line: u8) {
        if let Some(count) = lowered(at.count) {
            self.arrivals[self.arrived] = Arrival {
                line,
                count,
                crossed: at.crossed + 1,
                by: Some(by),
            };
            self.arrived += 1;
            self.forwardings += 1;
        }
    }

    /// "Each listed line takes three octets: line, count on arrival .., couplers crossed", rising.
    fn list(&self, room: &mut [u8]) -> usize {
        let mut by_line = [None; 256];
        for arrival in &self.arrivals[..self.arrived] {
            let octets = [arrival.line, arrival.count, arrival.crossed];
            by_line[usize::from(arrival.line)] = Some(octets);
        }
        let (places, _) = room.as_chunks_mut();
        let mut listed = 0;
        for (place, octets) in places.iter_mut().zip(by_line.iter().flatten()) {
            *place = *octets;
            listed += 1;
        }
        listed
    }
}

/// The line that a coupler hands on to what it receives from this side.
fn other_side(coupler: u8, from: Side) -> u8 {
    match from {
        Side::Main => coupler,
        Side::Sub => main_side(coupler),
    }
}

/// Why a coupler does not hand a telegram on.
#[derive(Clone, Copy, Debug, PartialEq, Eq, PartialOrd, Ord)]
pub enum Reason {
    NotFitted,
    OwnAddress,
    Closed,
    NotBelow,
    NotAbove,
    NotInTable,
    CountUsedUp,
}

/// The first coupler on the way to a line that stops the telegram.
#[derive(Clone, Copy, Debug, PartialEq, Eq)]
pub struct Stop {
    pub line: u8,
    /// The side that it receives the telegram from.
    pub from: Side,
    pub reason: Reason,
}

/// The first coupler that stops the telegram, or none where the line is reached. Refusals are the
/// tracer's, without 13.
pub fn why(query: &Query, site: &Site<'_>, line: u8) -> Result<Option<Stop>, u8> {
    let mut telegram = query.telegram()?;
    let couplers = site.couplers()?;
    for (coupler, from) in way(query.start, line) {
        let fitted = couplers.fitted(coupler);
        let reason = match &fitted {
            None => Some(Reason::NotFitted),
            Some(fitted) => reason(fitted, from, &telegram),
        };
        if let Some(reason) = reason {
            return Ok(Some(Stop {
                line: coupler,
                from,
                reason,
            }));
        }
        telegram.count = lowered(telegram.count).unwrap_or(0);
    }
    Ok(None)
}

/// Why a fitted coupler stops a telegram, if it does.
fn reason(coupler: &Coupler<'_>, from: Side, telegram: &Telegram) -> Option<Reason> {
    let &Telegram {
        group, destination, ..
    } = telegram;
    if coupler.is_own(group, destination) {
        return Some(Reason::OwnAddress);
    }
    match coupler.code(from, group, destination) {
        0 => Some(Reason::Closed),
        1 if group && !coupler.is_in_table(destination) => Some(Reason::NotInTable),
        1 if !group && !coupler.leads_to(from, destination) => Some(match from {
            Side::Main => Reason::NotBelow,
            Side::Sub => Reason::NotAbove,
        }),
        _ if telegram.count == 0 => Some(Reason::CountUsedUp),
        _ => None,
    }
}

/// The couplers on the way from line to line, each with the side that it is come to from.
pub fn way(start: u8, line: u8) -> impl Iterator<Item = (u8, Side)> {
    let mut at = start;
    std::iter::from_fn(move || {
        let (coupler, from) = toward(at, line)?;
        at = other_side(coupler, from);
        Some((coupler, from))
    })
}

/// The next coupler: down where the line hangs below, else up.
fn toward(at: u8, line: u8) -> Option<(u8, Side)> {
    if at == line {
        return None;
    }
    let mut hanging = line;
    while hanging != 0x00 {
        if main_side(hanging) == at {
            return Some((hanging, Side::Main));
        }
        hanging = main_side(hanging);
    }
    Some((at, Side::Sub))
}

#[cfg(test)]
mod tests {
    use super::*;
    use crate::coupler::TABLE_SIZE;

    /// Records of couplers with the same two rows of codes.
    fn records(lines: &[u8], [down, up]: [[u8; 4]; 2], number: u8) -> Vec<u8> {
        let record = |&line: &u8| [&[0x43, 0x50, line], &down[..], &up, &[number]].concat();
        lines.iter().flat_map(record).collect()
    }

    fn site(records: &[u8]) -> Site<'_> {
        Site {
            records,
            project: &[],
            own: &[],
        }
    }

    fn query(start: u8, kind: u8, destination: u16, count: u8) -> Query {
        Query {
            start,
            kind,
            destination,
            count,
        }
    }

    /// The list, and the forwardings; octets behind the list must stay.
    fn traced(query: &Query, site: &Site<'_>) -> (Vec<u8>, usize) {
        let mut room = [0x55; 800];
        let traced = trace(query, site, &mut room).unwrap();
        let (list, behind) = room.split_at(3 * traced.listed);
        assert!(behind.iter().all(|&octet| octet == 0x55));
        (list.to_vec(), traced.forwardings)
    }

    const LINES: [u8; 4] = [0x20, 0x40, 0x45, 0x47];

    #[test]
    fn p12() {
        let records = records(&LINES, [[2; 4]; 2], 0xff);
        let traced = |count| traced(&query(0x47, 1, 0x1234, count), &site(&records));
        let list = [0, 0, 2, 0x40, 1, 1, 0x45, 0, 2, 0x47, 2, 0];
        assert_eq!(traced(2), (list.to_vec(), 3));
        assert_eq!(traced(0), (vec![0x47, 0, 0], 0));
        let list = [0, 7, 2, 0x20, 7, 3, 0x40, 7, 1, 0x45, 7, 2, 0x47, 7, 0];
        assert_eq!(traced(7), (list.to_vec(), 4));
    }

    #[test]
    fn p13() {
        let records = records(&LINES, [[1, 0, 0, 0]; 2], 0xff);
        let traced = |start, to| traced(&query(start, 0, to, 6), &site(&records)).0;
        assert_eq!(traced(0x20, 0x4700), [0, 5, 1, 0x20, 6, 0, 0x40, 4, 2]);
        assert_eq!(traced(0x47, 0x4901), [0x40, 5, 1, 0x47, 6, 0]);
    }

    #[test]
    fn refusals_come_in_order() {
        let records = [0x43; 13];
        let wrong = Site {
            own: &[0],
            ..site(&records)
        };
        let number = |kind, count, room: usize, site: &Site<'_>| {
            let mut octets = [0x55; 768];
            let refusal = trace(&query(0, kind, 0, count), site, &mut octets[..room]);
            assert_eq!(octets, [0x55; 768]);
            refusal.unwrap_err()
        };
        assert_eq!(number(2, 0, 0, &wrong), 14);
        assert_eq!(number(0, 8, 767, &wrong), 14);
        assert_eq!(number(0, 7, 767, &wrong), 13);
        assert_eq!(number(0, 7, 768, &wrong), 18);
        assert_eq!(number(0, 7, 768, &site(&records)), 16);
        assert_eq!(why(&query(0, 2, 0, 0), &wrong, 0), Err(14));
        assert_eq!(why(&query(0, 1, 0, 0), &wrong, 0), Err(18));
    }

    #[test]
    fn area_0_lines_hang_below_the_backbone() {
        let records = records(&[0x05, 0x10], [[2; 4]; 2], 0xff);
        let (list, forwardings) = traced(&query(0x05, 1, 0, 6), &site(&records));
        assert_eq!(list, [0, 5, 1, 5, 6, 0, 0x10, 4, 2]);
        assert_eq!(forwardings, 2);
    }

    #[test]
    fn filter_tables_of_both_stores() {
        let (mut project, mut own) = (vec![0; TABLE_SIZE], vec![0; TABLE_SIZE]);
        project[0x1234 / 8] = 1 << (0x1234 % 8);
        own[0x1235 / 8] = 1 << (0x1235 % 8);
        let rows = [[0, 0, 1, 0]; 2];
        let records = [records(&[0x10], rows, 0), records(&[0x20], rows, 128)].concat();
        let site = Site {
            records: &records,
            project: &project,
            own: &own,
        };
        let lines = |group| traced(&query(0, 1, group, 7), &site).0;
        assert_eq!(lines(0x1234), [0, 7, 0, 0x10, 7, 1]);
        assert_eq!(lines(0x1235), [0, 7, 0, 0x20, 7, 1]);
    }

    #[test]
    fn ways() {
        let found = |start, line| way(start, line).collect::<Vec<_>>();
        let (up, down) = (Side::Sub, Side::Main);
        assert_eq!(found(0x47, 0x47), []);
        assert_eq!(found(0x47, 0x45), [(0x47, up), (0x45, down)]);
        assert_eq!(found(0x00, 0x47), [(0x40, down), (0x47, down)]);
        assert_eq!(found(0x05, 0x20), [(0x05, up), (0x20, down)]);
        let far = [(0x47, up), (0x40, up), (0x20, down), (0x21, down)];
        assert_eq!(found(0x47, 0x21), far);
    }

    /// The answer for the coupler 2.0 alone, with these two codes for individual addresses and for
    /// groups of the lower range, both ways.
    fn reason_at_2_0(codes: [u8; 2], query: Query, line: u8) -> Option<Stop> {
        let [individual, group] = codes;
        let table = vec![0; TABLE_SIZE];
        let records = records(&[0x20], [[individual, 0, group, 0]; 2], 128);
        let site = Site {
            records: &records,
            project: &[],
            own: &table,
        };
        why(&query, &site, line).unwrap()
    }

    #[test]
    fn each_reason() {
        let stop = |line, from, reason| Some(Stop { line, from, reason });
        let (up, down) = (Side::Sub, Side::Main);
        let q = query(0x00, 0, 0x2000, 0);
        let expected = stop(0x21, up, Reason::NotFitted);
        assert_eq!(
            reason_at_2_0([0, 0], Query { start: 0x21, ..q }, 0x00),
            expected
        );
        let expected = stop(0x20, down, Reason::OwnAddress);
        assert_eq!(reason_at_2_0([0, 0], q, 0x20), expected);
        let q = query(0x00, 0, 0x3001, 0);
        let expected = stop(0x20, down, Reason::Closed);
        assert_eq!(reason_at_2_0([0, 0], q, 0x21), expected);
        let expected = stop(0x20, down, Reason::NotBelow);
        assert_eq!(reason_at_2_0([1, 0], q, 0x21), expected);
        let q = query(0x20, 0, 0x2101, 0);
        let expected = stop(0x20, up, Reason::NotAbove);
        assert_eq!(reason_at_2_0([1, 0], q, 0x30), expected);
        let q = query(0x20, 1, 0x2101, 0);
        let expected = stop(0x20, up, Reason::NotInTable);
        assert_eq!(reason_at_2_0([1, 1], q, 0x30), expected);
        let expected = stop(0x20, up, Reason::CountUsedUp);
        assert_eq!(reason_at_2_0([1, 2], q, 0x30), expected);
        let q = Query { count: 1, ..q };
        assert_eq!(reason_at_2_0([1, 2], q, 0x00), None);
        let expected = stop(0x30, down, Reason::NotFitted);
        assert_eq!(reason_at_2_0([1, 2], q, 0x30), expected);
        assert_eq!(reason_at_2_0([0, 0], q, 0x20), None);
    }

    /// On a site of code 1 with gaps, from every line and with every count.
    #[test]
    fn reached_lines_are_the_listed_ones() {
        let lines: Vec<u8> = (1..=255).filter(|line| line % 7 != 0).collect();
        let rows = [[1, 2, 2, 0], [1, 2, 0, 2]];
        let records = records(&lines, rows, 0xff);
        let site = site(&records);
        for start in 0..=255 {
            let destination = u16::from(start).wrapping_mul(0x2f35);
            let query = query(start, start % 3 % 2, destination, start % 8);
            let list = traced(&query, &site).0;
            let (listed, _) = list.as_chunks::<3>();
            for line in 0..=255 {
                let reached = why(&query, &site, line).unwrap().is_none();
                let crossed = way(start, line).count();
                let found = listed.iter().find(|octets| octets[0] == line);
                assert_eq!(found.is_some(), reached, "{query:x?} to {line:x}");
                assert!(found.is_none_or(|octets| usize::from(octets[2]) == crossed));
            }
        }
    }
}
