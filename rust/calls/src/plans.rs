//! Calls of the tracer: queries about sites, with numbers in their ranges and outside.

use crate::call::{Argument, Call, Function, Lent};
use crate::numbers::outside;
use inputs::plans::{self, Stores};
use inputs::Generator;
use reference::coupler::TABLE_SIZE;
use reference::tracer::ROOM_SIZE;
use std::rc::Rc;

/// A site over two stores, as it is lent.
pub struct Plan<'a> {
    plan: plans::Plan<'a>,
    records: Lent,
    project: Lent,
    own: Lent,
}

impl<'a> Plan<'a> {
    /// Of so many couplers at most.
    pub fn new(generator: &mut Generator, stores: &'a Stores, most: usize) -> Plan<'a> {
        let plan = plans::Plan::new(generator, stores, most);
        let site = plan.site();
        let records = match site.records {
            [] => Lent::Null,
            records => records.to_vec().into(),
        };
        let project = lent_store(generator, &stores.project, site.project);
        let own = lent_store(generator, &stores.own, site.own);
        Plan {
            plan,
            records,
            project,
            own,
        }
    }

    /// The numbers of a query: start, kind, destination, count. In one case of seven one of them may
    /// be outside its range.
    pub fn query(&self, generator: &mut Generator) -> [u32; 4] {
        let query = self.plan.query(generator);
        let mut numbers = [
            query.start.into(),
            query.kind.into(),
            query.destination.into(),
            query.count.into(),
        ];
        if generator.one_in(7) {
            let place = generator.below(4);
            let most = [255, 1, 65_535, 7][place];
            numbers[place] = outside(generator, numbers[place], most);
        }
        numbers
    }

    fn arguments(&self, query: &[u32; 4]) -> Vec<Argument> {
        let mut arguments: Vec<Argument> = query.iter().copied().map(Argument::Number).collect();
        for lent in [&self.records, &self.project, &self.own] {
            arguments.push(Argument::Octets(lent.clone()));
        }
        arguments
    }

    pub fn trace(&self, generator: &mut Generator, query: &[u32; 4]) -> Call {
        let length = match generator.below(16) {
            0 => 0,
            1 => ROOM_SIZE - 1,
            place => [ROOM_SIZE, 776][place % 2],
        };
        let mut arguments = self.arguments(query);
        arguments.push(Argument::Room(Lent::Filled {
            length,
            octet: generator.octet(),
        }));
        Call {
            function: Function::Trace,
            arguments,
        }
    }

    /// About a line beside the starting line, or of the site, or the destination's, or any.
    pub fn why(&self, generator: &mut Generator, query: &[u32; 4]) -> Call {
        let &[mut start, kind, destination, count] = query;
        let high = destination >> 8 & 0xff;
        let mut line = match generator.below(6) {
            0..3 if start < 256 => {
                let by = match kind == 0 && generator.one_in(2) {
                    true => high,
                    false => self.plan.some_line(generator).into(),
                };
                let sides = some_sides(generator, by);
                start = sides[0];
                sides[1]
            }
            3 => generator.one_of(&[high, high & 0xf0]),
            4 => generator.one_of(&[0x00, start & 0xf0, start & 0xff]),
            _ => self.plan.some_line(generator).into(),
        };
        if generator.one_in(24) {
            line = outside(generator, line, 255);
        }
        let mut arguments = self.arguments(&[start, kind, destination, count]);
        arguments.push(Argument::Number(line));
        Call {
            function: Function::Why,
            arguments,
        }
    }
}

/// The two sides of a coupler, in either order.
fn some_sides(generator: &mut Generator, sub: u32) -> [u32; 2] {
    let main = if sub & 0x0f > 0 { sub & 0xf0 } else { 0x00 };
    match generator.below(2) {
        0 => [main, sub],
        _ => [sub, main],
    }
}

/// A store as much of it as is lent; all of it, where the part is so large that a copy would fill the
/// table.
fn lent_store(generator: &mut Generator, store: &Rc<[u8]>, part: &[u8]) -> Lent {
    match part.len() {
        0 if generator.below(8) > 0 => Lent::Null,
        length if length < store.len() && length < 4 * TABLE_SIZE => part.to_vec().into(),
        _ => Lent::Octets(store.clone()),
    }
}
