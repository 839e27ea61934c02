//! Queries for the comparison: two tracers are asked the same, and the first answer or room in
//! which they differ is reported.

use klumdray::raw::{self, Site};
use reference::coupler::Side;
use reference::tracer::{Query, Stop, Traced};
use std::fmt;

pub const RECORD: usize = 12;

/// Room lent at most, and octets behind it that were not.
const LARGEST_ROOM: usize = 800;
const NOT_LENT: usize = 16;

/// An implementation behind the library's surface.
#[derive(Clone, Copy)]
pub struct Tracer {
    pub trace: fn(&Query, &Site<'_>, &mut [u8]) -> u64,
    pub why: fn(&Query, &Site<'_>, u8) -> u32,
}

pub const LIBRARY: Tracer = Tracer {
    trace: library_trace,
    why: library_why,
};

pub const REFERENCE: Tracer = Tracer {
    trace: reference_trace,
    why: reference_why,
};

pub fn library_trace(query: &Query, site: &Site<'_>, room: &mut [u8]) -> u64 {
    raw::trace(&numbers(query), site, room)
}

pub fn library_why(query: &Query, site: &Site<'_>, line: u8) -> u32 {
    raw::why(&numbers(query), site, line.into())
}

fn numbers(query: &Query) -> raw::Query {
    raw::Query {
        start: query.start.into(),
        kind: query.kind.into(),
        destination: query.destination.into(),
        count: query.count.into(),
    }
}

pub fn reference_trace(query: &Query, site: &Site<'_>, room: &mut [u8]) -> u64 {
    packed(reference::tracer::trace(query, &reference_site(site), room))
}

pub fn reference_why(query: &Query, site: &Site<'_>, line: u8) -> u32 {
    packed_why(reference::tracer::why(query, &reference_site(site), line))
}

pub fn reference_site<'a>(site: &Site<'a>) -> reference::site::Site<'a> {
    reference::site::Site {
        records: site.records,
        project: site.project,
        own: site.own,
    }
}

/// A trace's answer by the bits that include/klumdray.h names.
pub fn packed(traced: Result<Traced, u8>) -> u64 {
    match traced {
        Ok(traced) => (traced.listed as u64) << 8 | (traced.forwardings as u64) << 24,
        Err(number) => number.into(),
    }
}

pub fn listed(answer: u64) -> usize {
    usize::from((answer >> 8) as u16)
}

/// A why's answer by the bits that include/klumdray.h names.
pub fn packed_why(why: Result<Option<Stop>, u8>) -> u32 {
    match why {
        Ok(None) => 0,
        Ok(Some(Stop { line, from, reason })) => {
            let direction = u32::from(from == Side::Sub);
            (reason as u32 + 1) << 8 | u32::from(line) << 16 | direction << 24
        }
        Err(number) => number.into(),
    }
}

pub fn reason(answer: u32) -> u8 {
    (answer >> 8) as u8
}

pub fn stopping_line(answer: u32) -> u8 {
    (answer >> 16) as u8
}

pub fn direction(answer: u32) -> usize {
    (answer >> 24) as usize & 1
}

const REASONS: [&str; 8] = [
    "reached",
    "not fitted",
    "own address",
    "closed",
    "not below",
    "not above",
    "not in its table",
    "count used up",
];

const CLASSES: [&str; 4] = ["individual", "broadcast", "lower groups", "upper groups"];

fn class(query: &Query) -> usize {
    match (query.kind, query.destination) {
        (0, _) => 0,
        (_, 0) => 1,
        (_, 1..=0x6fff) => 2,
        _ => 3,
    }
}

/// How often each came of the reference.
struct Counts {
    traces: [u64; 256],
    whys: [u64; 256],
    /// Of traces that are not refused: by starting line, by couplers, by class and count.
    starts: [u64; 256],
    couplers: [u64; 256],
    queries: [[u64; 8]; CLASSES.len()],
    /// Listed lines by couplers crossed, and all forwardings.
    crossed: [u64; 5],
    forwardings: u64,
    /// By reason and direction.
    reasons: [[u64; 2]; REASONS.len()],
}

impl Counts {
    fn add_trace(&mut self, query: &Query, site: &Site<'_>, answer: u64, room: &[u8]) {
        self.traces[usize::from(answer as u8)] += 1;
        if answer as u8 != 0 {
            return;
        }
        self.starts[usize::from(query.start)] += 1;
        self.couplers[site.records.len() / RECORD] += 1;
        self.queries[class(query)][usize::from(query.count)] += 1;
        self.forwardings += answer >> 24;
        for octets in room.chunks(3).take(listed(answer)) {
            self.crossed[usize::from(octets[2])] += 1;
        }
    }

    fn add_why(&mut self, answer: u32) {
        self.whys[usize::from(answer as u8)] += 1;
        if answer as u8 == 0 {
            self.reasons[usize::from(reason(answer))][direction(answer)] += 1;
        }
    }
}

/// Fewest times of any, and that place.
fn fewest(times: &[u64]) -> (u64, usize) {
    let places = times.iter().enumerate();
    let (place, times) = places.min_by_key(|(_, &times)| times).expect("any");
    (*times, place)
}

pub struct Comparison {
    proved: Tracer,
    reference: Tracer,
    counts: Counts,
    sites: u64,
}

impl Comparison {
    pub fn new(proved: Tracer, reference: Tracer) -> Comparison {
        Comparison {
            proved,
            reference,
            counts: Counts {
                traces: [0; 256],
                whys: [0; 256],
                starts: [0; 256],
                couplers: [0; 256],
                queries: [[0; 8]; CLASSES.len()],
                crossed: [0; 5],
                forwardings: 0,
                reasons: [[0; 2]; REASONS.len()],
            },
            sites: 0,
        }
    }

    pub fn add_site(&mut self) {
        self.sites += 1;
    }

    pub fn sites(&self) -> u64 {
        self.sites
    }

    pub fn traces(&self) -> u64 {
        self.counts.traces.iter().sum()
    }

    pub fn whys(&self) -> u64 {
        self.counts.whys.iter().sum()
    }

    /// Compares the answers, the whole rooms, and octets behind them. Gives the lines that both
    /// list.
    pub fn trace(
        &mut self,
        query: &Query,
        site: &Site<'_>,
        lent_room: usize,
    ) -> Result<Vec<u8>, String> {
        let mut room = [self.traces() as u8; LARGEST_ROOM + NOT_LENT];
        let mut expected_room = room;
        let answer = (self.proved.trace)(query, site, &mut room[..lent_room]);
        let expected = (self.reference.trace)(query, site, &mut expected_room[..lent_room]);
        let difference = if answer != expected {
            format!("{answer:x}, reference {expected:x}")
        } else if let Some(place) = difference(&room, &expected_room) {
            format!("room differs at {place}")
        } else {
            self.counts.add_trace(query, site, expected, &room);
            let lines = room.chunks(3).take(listed(answer));
            return Ok(lines.map(|octets| octets[0]).collect());
        };
        let asked = asked(query, site);
        Err(format!("{difference}; room of {lent_room}, {asked}"))
    }

    /// Compares the answers. Gives whether both say that the line is reached.
    pub fn why(&mut self, query: &Query, site: &Site<'_>, line: u8) -> Result<bool, String> {
        let answer = (self.proved.why)(query, site, line);
        let expected = (self.reference.why)(query, site, line);
        if answer != expected {
            let asked = asked(query, site);
            return Err(format!(
                "why {line:02x}: {answer:x}, reference {expected:x}; {asked}"
            ));
        }
        self.counts.add_why(expected);
        Ok(expected == 0)
    }

    /// Asserts that the comparison was about something: each number, class, count, distance and
    /// reason many times, each starting line and each number of couplers.
    pub fn assert_covers(&self, sites: u64) {
        let Counts {
            traces,
            whys,
            starts,
            couplers,
            queries,
            crossed,
            forwardings,
            reasons,
        } = &self.counts;
        assert!(self.sites >= sites, "only {} sites", self.sites);
        for number in [0, 13, 14, 15, 16, 17, 18] {
            assert!(
                traces[number] >= sites / 40,
                "traces: {number} {}",
                traces[number]
            );
            let least = if number == 13 { 0 } else { sites / 40 };
            assert!(whys[number] >= least, "whys: {number} {}", whys[number]);
        }
        for (what, times, least) in [
            ("starting lines", starts.as_slice(), sites / 1000),
            ("couplers", couplers, 1),
            ("classes and counts", queries.as_flattened(), sites / 100),
            ("crossed", crossed, sites / 10),
        ] {
            assert!(fewest(times).0 >= least, "{what}: {:?}", fewest(times));
        }
        assert!(*forwardings >= sites);
        assert_reasons(reasons, sites / 40);
    }
}

/// Each reason in each direction that it has.
fn assert_reasons(reasons: &[[u64; 2]; REASONS.len()], least: u64) {
    for (reason, directions) in REASONS.iter().zip(reasons) {
        let has = match *reason {
            "reached" | "not below" => [true, false],
            "not above" => [false, true],
            _ => [true, true],
        };
        for (times, has) in directions.iter().zip(has) {
            assert!(
                if has { *times >= least } else { *times == 0 },
                "{reason}: {directions:?}"
            );
        }
    }
}

/// The first place where octets and the reference's differ, and both of them.
fn difference(found: &[u8], expected: &[u8]) -> Option<String> {
    let mut pairs = found.iter().zip(expected).enumerate();
    let (place, (found, expected)) = pairs.find(|(_, (found, expected))| found != expected)?;
    Some(format!("{place}: {found:02x}, reference {expected:02x}"))
}

/// What was asked, the stores by their sizes alone.
fn asked(query: &Query, site: &Site<'_>) -> String {
    let (project, own) = (site.project.len(), site.own.len());
    let octets = site.records.len();
    let records: Vec<_> = site.records.chunks(RECORD).collect();
    format!("{query:x?}, stores of {project} and {own}, {octets} octets of records {records:02x?}")
}

impl fmt::Display for Comparison {
    fn fmt(&self, f: &mut fmt::Formatter<'_>) -> fmt::Result {
        let Counts {
            traces,
            whys,
            starts,
            couplers,
            queries,
            crossed,
            forwardings,
            reasons,
        } = &self.counts;
        write!(f, "{} sites, {} traces,", self.sites, self.traces())?;
        write!(f, " {} whys; traces by number:", self.whys())?;
        write_numbers(f, traces)?;
        write!(f, "; whys by number:")?;
        write_numbers(f, whys)?;
        write!(f, "; {forwardings} forwardings; listed by couplers crossed")?;
        write!(f, " {crossed:?}; whys, down and up:")?;
        for (name, directions) in REASONS.iter().zip(reasons) {
            write!(f, " {name} {directions:?};")?;
        }
        write!(f, " traces by count:")?;
        for (name, counts) in CLASSES.iter().zip(queries) {
            write!(f, " {name} {counts:?};")?;
        }
        let (times, place) = fewest(starts);
        write!(f, " starting line {place:02x} fewest, {times} times;")?;
        let (times, place) = fewest(couplers);
        write!(f, " {place} couplers fewest, {times} times")
    }
}

fn write_numbers(f: &mut fmt::Formatter<'_>, numbers: &[u64]) -> fmt::Result {
    let came = numbers.iter().enumerate().filter(|(_, &times)| times > 0);
    came.into_iter()
        .try_for_each(|(number, times)| write!(f, " {number}: {times}"))
}
