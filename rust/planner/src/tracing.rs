//! The library's answer to a query over a site, for every line that the site speaks of.

use crate::address::{Group, Individual, Line};
use crate::loading::Site;
use crate::plan::Direction;
use klumdray::coupler::Side;
use klumdray::tracer::{self, Listed, Reason, Why};
use klumdray::Refusal;
use std::collections::BTreeSet;
use std::fmt;

/// Where a telegram goes to.
#[derive(Clone, Copy, Debug, PartialEq, Eq)]
pub enum Destination {
    /// A group address; 0/0/0 is broadcast.
    Group(Group),
    /// An individual address.
    Individual(Individual),
}

impl fmt::Display for Destination {
    fn fmt(&self, f: &mut fmt::Formatter<'_>) -> fmt::Result {
        match self {
            Destination::Group(Group(0)) => f.pad("broadcast"),
            Destination::Group(group) => f.pad(&format!("group {group}")),
            Destination::Individual(address) => f.pad(&format!("individual {address}")),
        }
    }
}

/// A telegram to trace.
#[derive(Clone, Copy, Debug, PartialEq, Eq)]
pub struct Telegram {
    /// The starting line.
    pub from: Line,
    /// Where it goes to.
    pub to: Destination,
    /// The count on the starting line, 0 to 7.
    pub count: u8,
}

impl Telegram {
    /// The query as the library takes it.
    pub fn query(&self) -> tracer::Query {
        let (group, destination) = match self.to {
            Destination::Group(group) => (true, group.0),
            Destination::Individual(address) => (false, address.0),
        };
        tracer::Query {
            start: self.from.0,
            group,
            destination,
            count: self.count,
        }
    }
}

/// The coupler that stops a telegram on its way to a line.
#[derive(Clone, Copy, Debug, PartialEq, Eq)]
pub struct Stop {
    /// The line that is not reached.
    pub line: Line,
    /// The line of the coupler, fitted or not.
    pub coupler: Line,
    /// The direction in which the telegram would have to pass.
    pub direction: Direction,
    /// Why it does not.
    pub reason: Reason,
}

impl Stop {
    /// The reason in words, for a telegram.
    pub fn words(&self, to: Destination) -> String {
        match self.reason {
            Reason::NotFitted => "no coupler fitted".into(),
            Reason::OwnAddress => format!("{to} is the coupler's own address"),
            Reason::Closed => format!("closed for {to}"),
            Reason::NotBelow => format!("{to} is not below it"),
            Reason::NotAbove => format!("{to} is not above it"),
            Reason::NotInTable => format!("{to} not in its table"),
            Reason::CountUsedUp => "count used up".into(),
        }
    }
}

/// Which lines of a site a telegram reaches, and what keeps it from the others.
#[derive(Clone, Debug, PartialEq, Eq)]
pub struct Traced {
    /// The library's list.
    pub reached: Vec<Listed>,
    /// The forwardings made on the site.
    pub forwardings: usize,
    /// The lines of the site that are not reached, rising.
    pub not_reached: Vec<Stop>,
}

/// Asks the library where a telegram arrives, and for each other line of the site why not.
pub fn trace(site: &Site, telegram: &Telegram) -> Result<Traced, Refusal> {
    let (query, octets) = (telegram.query(), site.octets.site());
    let mut room = [0; tracer::LIST_ROOM_SIZE];
    let traced = tracer::trace(&query, &octets, &mut room)?;
    let mut not_reached = Vec::new();
    for line in lines(site, telegram) {
        if let Why::Stopped {
            line: coupler,
            from,
            reason,
        } = tracer::why(&query, &octets, line.0)?
        {
            not_reached.push(Stop {
                line,
                coupler: Line(coupler),
                direction: direction(from),
                reason,
            });
        }
    }
    Ok(Traced {
        reached: traced.lines().collect(),
        forwardings: traced.forwardings,
        not_reached,
    })
}

fn direction(from: Side) -> Direction {
    match from {
        Side::Main => Direction::Down,
        Side::Sub => Direction::Up,
    }
}

/// The lines that a site speaks of: those of its couplers, the starting line and the line of an
/// individual destination, and all main sides from there to the backbone.
pub fn lines(site: &Site, telegram: &Telegram) -> BTreeSet<Line> {
    let couplers = site.text.plan.couplers.iter().map(|coupler| coupler.line);
    let named = match telegram.to {
        Destination::Individual(address) => vec![telegram.from, address.line()],
        Destination::Group(_) => vec![telegram.from],
    };
    let ends = couplers.chain(named);
    // No line is more than two main sides away from the backbone.
    ends.flat_map(|line| [line, line.main(), line.main().main()])
        .collect()
}
