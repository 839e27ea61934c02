//! Findings about what passes a coupler: each answer is the library's.

use super::{groups_of, named, Finding, Kind};
use crate::address::{Group, Individual, Line};
use crate::loading::Site;
use crate::plan::{Class, Coupler, Direction, Groups};
use crate::tracing::{Destination, Telegram};
use crate::words::together;
use klumdray::tracer::{why, Reason, Why};
use klumdray::Refusal;

/// Couplers whose main line has none fitted, so that their lines are cut off from the backbone: one
/// finding for each such main line, at its first coupler in the text.
pub fn cut_off(site: &Site) -> Result<Vec<Finding>, Refusal> {
    let couplers = &site.text.plan.couplers;
    let mut findings = Vec::new();
    let mut told = Vec::new();
    for (coupler, text) in couplers.iter().zip(&site.text.couplers) {
        let main = coupler.line.main();
        if told.contains(&main) || is_linked(site, main)? {
            continue;
        }
        told.push(main);
        let below = couplers.iter().map(|other| other.line);
        let below: Vec<Line> = below.filter(|line| line.main() == main).collect();
        let lines = named("line", &below);
        findings.push(Finding {
            line: text.at,
            kind: Kind::MainLineNotFitted,
            words: format!(
                "main line {main} has no coupler, which cuts {lines} off from the backbone"
            ),
        });
    }
    Ok(findings)
}

/// Whether a line is the backbone or has a coupler, whatever that lets pass.
fn is_linked(site: &Site, line: Line) -> Result<bool, Refusal> {
    let answer = passing(site, line, Direction::Up, Destination::Group(Group(0)))?;
    Ok(!matches!(
        answer,
        Why::Stopped {
            reason: Reason::NotFitted,
            ..
        }
    ))
}

/// Couplers that let a class pass one way, all of it, and close it the other way. Groups that are
/// filtered one way and closed the other are not told: whoever lists groups for one direction has
/// thought of directions.
pub fn one_way(site: &Site) -> Result<Vec<Finding>, Refusal> {
    let mut findings = Vec::new();
    let couplers = site.text.plan.couplers.iter().zip(&site.text.couplers);
    for (coupler, text) in couplers {
        for closed in Direction::ALL {
            let classes = closed_alone(site, coupler, closed)?;
            if !classes.is_empty() {
                findings.push(Finding {
                    line: text.rows[closed as usize],
                    kind: Kind::OneWay,
                    words: one_way_words(coupler.line, closed, &classes),
                });
            }
        }
    }
    Ok(findings)
}

fn one_way_words(line: Line, closed: Direction, classes: &[Class]) -> String {
    let names: Vec<String> = classes.iter().map(|class| telegrams(*class)).collect();
    let names = together(&names);
    match closed {
        Direction::Down => {
            format!("{names} leave line {line} but none come in: no answer gets there")
        }
        Direction::Up => {
            format!("{names} come into line {line} but none leave: nothing there can answer")
        }
    }
}

fn telegrams(class: Class) -> String {
    match class {
        Class::Individual => "individual telegrams".into(),
        Class::Broadcast => "broadcasts".into(),
        Class::LowerGroups | Class::UpperGroups => class.to_string(),
    }
}

/// The classes that a coupler closes in a direction and lets pass in the other.
fn closed_alone(site: &Site, coupler: &Coupler, closed: Direction) -> Result<Vec<Class>, Refusal> {
    let open = match closed {
        Direction::Down => Direction::Up,
        Direction::Up => Direction::Down,
    };
    let mut classes = Vec::new();
    for class in Class::ALL {
        let ask = |direction| {
            let to = least_welcome(site, coupler, direction, class);
            passing(site, coupler.line, direction, to)
        };
        let is_closed = matches!(
            ask(closed)?,
            Why::Stopped {
                reason: Reason::Closed,
                ..
            }
        );
        if is_closed && ask(open)? == Why::Reached {
            classes.push(class);
        }
    }
    Ok(classes)
}

/// The library's answer for a telegram that has one coupler to pass, with a count that is never
/// used up.
fn passing(
    site: &Site,
    coupler: Line,
    direction: Direction,
    to: Destination,
) -> Result<Why, Refusal> {
    let (from, line) = match direction {
        Direction::Down => (coupler.main(), coupler),
        Direction::Up => (coupler, coupler.main()),
    };
    let telegram = Telegram { from, to, count: 7 };
    why(&telegram.query(), &site.octets.site(), line.0)
}

/// A destination of a class that passes a coupler only if all of the class do. An individual address
/// is one on the other side: to it, a coupler that filters is as good as open.
fn least_welcome(
    site: &Site,
    coupler: &Coupler,
    direction: Direction,
    class: Class,
) -> Destination {
    let below = u16::from(coupler.line.0) << 8 | 1;
    match (groups_of(class), class, direction) {
        (Some(all), ..) => Destination::Group(least_listed(site, coupler, all)),
        (None, Class::Broadcast, _) => Destination::Group(Group(0)),
        (None, _, Direction::Down) => Destination::Individual(Individual(below)),
        (None, _, Direction::Up) => Destination::Individual(Individual(1)),
    }
}

/// A group from first to last that a coupler's table does not have; any, if it has them all.
fn least_listed(site: &Site, coupler: &Coupler, (first, last): (Group, Group)) -> Group {
    let table = coupler.table;
    let table = table.and_then(|at| site.text.plan.tables(at.store).get(at.place));
    let mut ranges = table.map_or(&[][..], Groups::ranges).iter();
    match ranges.find(|(start, end)| (start..=end).contains(&&first)) {
        // No two ranges of a table touch: what follows one is not listed.
        Some((_, end)) if *end < last => Group(end.0 + 1),
        _ => first,
    }
}
