//! Sites: stores that serve for several of them, couplers that hang together more or less, open more
//! or less, and now and then something wrong in any of them.

use crate::tables;
use crate::Generator;
use reference::coupler::TABLE_SIZE;
use reference::site::{Site, RECORD_SIZE};
use reference::tracer::Query;
use std::rc::Rc;

pub const MOST_PROJECT: usize = 128;
pub const MOST_OWN: usize = 127;
pub const MOST_COUPLERS: usize = 255;
const NO_TABLE: u8 = 0xff;

/// Places of codes in a record.
const GROUP_CODES: [usize; 4] = [5, 6, 9, 10];
const BROADCAST_CODES: [usize; 2] = [4, 8];

/// How often codes 0, 1 and 2 come in a site.
const CODES: [[usize; 3]; 6] = [
    [1, 1, 1],
    [1, 3, 3],
    [0, 1, 1],
    [1, 10, 10],
    [0, 5, 1],
    [0, 0, 1],
];

/// Two stores, and the groups that some of their tables list.
pub struct Stores {
    pub project: Rc<[u8]>,
    pub own: Rc<[u8]>,
    groups: [u16; 4],
}

impl Stores {
    /// Of so many tables.
    pub fn new(generator: &mut Generator, [project, own]: [usize; 2]) -> Stores {
        let groups = [0; 4].map(|_| some_group(generator));
        // Listed in few of the tables, in half or in most of them.
        let eighths = generator.one_of(&[1, 4, 7, 7]);
        let mut store = |tables| {
            let table = |_| tables::with_groups(generator, TABLE_SIZE, &groups, eighths);
            let tables = (0..tables).map(table);
            tables.collect::<Vec<_>>().concat().into()
        };
        Stores {
            project: store(project),
            own: store(own),
            groups,
        }
    }

    fn tables(&self) -> [usize; 2] {
        [
            (self.project.len() / TABLE_SIZE).min(MOST_PROJECT),
            (self.own.len() / TABLE_SIZE).min(MOST_OWN),
        ]
    }

    /// The number of a table that lies in its store, if there is any.
    fn some_number(&self, generator: &mut Generator) -> Option<u8> {
        let [project, own] = self.tables();
        if project + own == 0 {
            return None;
        }
        let place = generator.below(project + own);
        let number = match place.checked_sub(project) {
            None => place,
            Some(place) => MOST_PROJECT + place,
        };
        Some(number as u8)
    }
}

fn some_group(generator: &mut Generator) -> u16 {
    let any = generator.field();
    generator.one_of(&[1, 0x6fff, 0x7000, 0xffff, any & 0xfff, any])
}

/// A site over two stores, which may be lent shorter than they are.
pub struct Plan<'a> {
    stores: &'a Stores,
    records: Vec<u8>,
    project: usize,
    own: usize,
}

impl<'a> Plan<'a> {
    /// Of so many couplers at most. In one case of three something may be wrong with it.
    pub fn new(generator: &mut Generator, stores: &'a Stores, most: usize) -> Plan<'a> {
        let weights = generator.one_of(&CODES);
        let mut records = Vec::new();
        let couplers = some_count(generator, most);
        for line in some_lines(generator, couplers, &[0]) {
            records.extend(some_record(generator, stores, line, &weights));
        }
        let mut plan = Plan {
            stores,
            records,
            project: stores.project.len(),
            own: stores.own.len(),
        };
        if generator.one_in(3) {
            for _ in 0..=generator.below(3) {
                plan.spoil(generator, most);
            }
        }
        plan
    }

    pub fn site(&self) -> Site<'_> {
        Site {
            records: &self.records,
            project: &self.stores.project[..self.project],
            own: &self.stores.own[..self.own],
        }
    }

    fn spoil(&mut self, generator: &mut Generator, most: usize) {
        let couplers = self.records.len() / RECORD_SIZE;
        match generator.below(16) {
            0 | 1 => self.spoil_length(generator),
            2 => self.spoil_store(generator),
            3 if most == MOST_COUPLERS => self.add_records(generator),
            _ if couplers == 0 => self.spoil_length(generator),
            _ => {
                let [place, other] = [0; 2].map(|_| generator.below(couplers) * RECORD_SIZE);
                let line = self.records[other + 2];
                let record = &mut self.records[place..][..RECORD_SIZE];
                spoil_record(generator, record, line, self.stores);
            }
        }
    }

    fn spoil_length(&mut self, generator: &mut Generator) {
        let octets = 1 + generator.below(RECORD_SIZE - 1);
        if generator.one_in(2) {
            self.records.extend(generator.octets(octets));
        } else {
            let left = self.records.len().saturating_sub(octets);
            self.records.truncate(left);
        }
    }

    fn spoil_store(&mut self, generator: &mut Generator) {
        let fewer = generator.one_of(&[1, 1, 8191, 4096]);
        let lent = match generator.below(2) {
            0 => &mut self.project,
            _ => &mut self.own,
        };
        *lent = lent.saturating_sub(fewer);
    }

    /// Up to more than 255 of them.
    fn add_records(&mut self, generator: &mut Generator) {
        for _ in 0..generator.one_of(&[1, 2, 256]) {
            let line = generator.damage();
            let record = some_record(generator, self.stores, line, &[0, 0, 1]);
            self.records.extend(record);
        }
    }

    /// The line of a coupler in the site, or any.
    pub fn some_line(&self, generator: &mut Generator) -> u8 {
        let place = generator.below((self.records.len() / RECORD_SIZE).max(1));
        let line = self.records.get(place * RECORD_SIZE + 2);
        match (line, generator.below(3)) {
            (Some(&line), 1..) => line,
            _ => generator.octet(),
        }
    }

    /// From a coupler's line or near the destination.
    pub fn query(&self, generator: &mut Generator) -> Query {
        let kind = generator.below(2) as u8;
        let destination = self.some_destination(generator, kind);
        let [high, _] = destination.to_be_bytes();
        let start = match (kind, generator.below(2)) {
            (0, 0) => generator.one_of(&[high, high & 0xf0, high ^ 1]),
            _ => self.some_line(generator),
        };
        Query {
            start,
            kind,
            destination,
            count: generator.one_of(&[0, 1, 2, 3, 4, 5, 6, 7, 5, 6, 7, 7]),
        }
    }

    /// Around the couplers' own addresses, on and off their lines and areas; groups that the tables
    /// list, broadcast, any.
    fn some_destination(&self, generator: &mut Generator, kind: u8) -> u16 {
        let any = generator.field();
        let own = u16::from(self.some_line(generator)) << 8;
        let (on_line, in_area) = (own | any & 0xff, own & 0xf000 | any & 0xfff);
        let individual = [own, own, on_line, on_line, in_area, any];
        let group = generator.one_of(&self.stores.groups);
        match kind {
            0 => generator.one_of(&individual),
            _ => generator.one_of(&[group, group, group, 0, 0, any, own]),
        }
    }
}

/// Few, or up to so many, or nearly so many.
fn some_count(generator: &mut Generator, most: usize) -> usize {
    match generator.below(4) {
        0 => generator.below(9),
        1 => generator.below(41),
        2 => generator.below(most + 1),
        _ => most - generator.below(16),
    }
}

/// Different lines in any order: any, or with all area couplers as far as they go, or those of two
/// areas, and of the areas named, first.
pub fn some_lines(generator: &mut Generator, number: usize, named: &[u8]) -> Vec<u8> {
    let mut lines: Vec<u8> = (1..=255).collect();
    generator.shuffle(&mut lines);
    let two = [generator.octet() >> 4, generator.octet() >> 4];
    let areas = [&two, named].concat();
    match generator.below(3) {
        0 => {}
        1 => lines.sort_by_key(|line| line & 0x0f != 0),
        _ => lines.sort_by_key(|line| !areas.contains(&(line >> 4))),
    }
    lines.truncate(number);
    generator.shuffle(&mut lines);
    lines
}

fn some_record(
    generator: &mut Generator,
    stores: &Stores,
    line: u8,
    weights: &[usize; 3],
) -> [u8; RECORD_SIZE] {
    let mut record = [0x43, 0x50, line, 0, 0, 0, 0, 0, 0, 0, 0, NO_TABLE];
    for code in &mut record[3..11] {
        *code = some_code(generator, weights);
    }
    let number = stores.some_number(generator);
    let without_1 = |code: u8| [0, 2, 2][usize::from(code)];
    for place in BROADCAST_CODES {
        record[place] = without_1(record[place]);
    }
    if number.is_none() {
        for place in GROUP_CODES {
            record[place] = without_1(record[place]);
        }
    }
    let asks = GROUP_CODES.iter().any(|&place| record[place] == 1);
    if let Some(number) = number.filter(|_| asks || generator.one_in(2)) {
        record[11] = number;
    }
    record
}

fn some_code(generator: &mut Generator, weights: &[usize; 3]) -> u8 {
    let place = generator.below(weights.iter().sum());
    u8::from(place >= weights[0]) + u8::from(place >= weights[0] + weights[1])
}

/// Mark, line, codes, table number, or a line that the site has already.
fn spoil_record(generator: &mut Generator, record: &mut [u8], line: u8, stores: &Stores) {
    match generator.below(8) {
        0 => record[generator.below(2)] ^= generator.damage(),
        1 => record[2] = 0,
        2 => record[generator.one_of(&BROADCAST_CODES)] = 1,
        3 => record[3 + generator.below(8)] = generator.one_of(&[3, 4, 255]),
        4 => {
            let [project, own] = stores.tables();
            let missing = [project as u8, (MOST_PROJECT + own) as u8, 127, 254];
            record[11] = generator.one_of(&missing);
        }
        5 => {
            record[generator.one_of(&GROUP_CODES)] = 1;
            record[11] = NO_TABLE;
        }
        _ => record[2] = line,
    }
}
