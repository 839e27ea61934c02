//! A site as the proved library takes it: records and the two stores. Document 01: "A site is 0 to
//! 255 records of 12 octets: mark 43h 50h, line, four codes main to sub, four codes sub to main,
//! table number."

use crate::address::{Group, Line};
use crate::plan::{Coupler, Groups, Plan, Setting, Store, TableAt};
use klumdray::coupler::TABLE_SIZE;
use klumdray::tracer::{Site, RECORD_SIZE};

const MARK: [u8; 2] = [0x43, 0x50];
/// Tables that the project store holds; the site's own numbers begin there.
pub const PROJECT_TABLES: usize = 128;
/// Tables that the site's own store holds.
pub const OWN_TABLES: usize = 127;
const NO_TABLE: u8 = 0xff;

/// Tables that a store holds.
pub fn most_tables_of(store: Store) -> usize {
    match store {
        Store::Project => PROJECT_TABLES,
        Store::Own => OWN_TABLES,
    }
}

/// The records and the stores of a site.
#[derive(Clone, Debug, Default, PartialEq, Eq)]
pub struct Octets {
    /// A record for each coupler.
    pub records: Vec<u8>,
    /// The project store.
    pub project: Vec<u8>,
    /// The site's own store.
    pub own: Vec<u8>,
}

impl Octets {
    /// The site as the library's calls take it.
    pub fn site(&self) -> Site<'_> {
        self.first(self.couplers())
    }

    /// How many couplers there are.
    pub fn couplers(&self) -> usize {
        self.records.len() / RECORD_SIZE
    }

    /// The site of the first couplers alone.
    pub fn first(&self, couplers: usize) -> Site<'_> {
        Site {
            records: &self.records[..couplers * RECORD_SIZE],
            project: &self.project,
            own: &self.own,
        }
    }
}

/// Translates a site to octets.
///
/// A plan whose tables have no number, because a store has too many of them or a coupler names one
/// that is not there, has no octets.
///
/// ```
/// use planner::octets::octets_of;
/// use planner::plan::{Groups, Plan};
/// let mut plan = Plan { own: vec![Groups::default(); 127], ..Plan::default() };
/// assert_eq!(octets_of(&plan).unwrap().own.len(), 127 * 8192);
/// plan.own.push(Groups::default());
/// assert_eq!(octets_of(&plan), None);
/// ```
pub fn octets_of(plan: &Plan) -> Option<Octets> {
    let fits = [Store::Project, Store::Own]
        .iter()
        .all(|store| plan.tables(*store).len() <= most_tables_of(*store));
    if !fits || !names_its_tables(plan) {
        return None;
    }
    let records: Vec<[u8; RECORD_SIZE]> = plan.couplers.iter().map(record_of).collect();
    Some(Octets {
        records: records.concat(),
        project: store_of(&plan.project),
        own: store_of(&plan.own),
    })
}

/// Whether each table that a coupler names is there.
fn names_its_tables(plan: &Plan) -> bool {
    let mut tables = plan.couplers.iter().filter_map(|coupler| coupler.table);
    tables.all(|table| plan.has(table))
}

fn record_of(coupler: &Coupler) -> [u8; RECORD_SIZE] {
    let mut record = [0; RECORD_SIZE];
    record[..2].copy_from_slice(&MARK);
    record[2] = coupler.line.0;
    for (code, setting) in record[3..11]
        .iter_mut()
        .zip(coupler.settings.as_flattened())
    {
        *code = *setting as u8;
    }
    record[11] = coupler.table.map_or(NO_TABLE, number_of);
    record
}

/// The number of a table that is there, so below FFh.
fn number_of(table: TableAt) -> u8 {
    match table.store {
        Store::Project => table.place as u8,
        Store::Own => (PROJECT_TABLES + table.place) as u8,
    }
}

fn store_of(tables: &[Groups]) -> Vec<u8> {
    let tables: Vec<Vec<u8>> = tables.iter().map(table_of).collect();
    tables.concat()
}

/// "bit g mod 8 of octet g div 8".
fn table_of(groups: &Groups) -> Vec<u8> {
    let mut table = vec![0; TABLE_SIZE];
    for (first, last) in groups.ranges() {
        for group in first.0..=last.0 {
            table[usize::from(group) / 8] |= 1 << (group % 8);
        }
    }
    table
}

/// Translates octets back to a site; none where they are no site that words can say, be it for a
/// mark, a code, a length or the number of a table that is not there.
pub fn plan_of(octets: &Octets) -> Option<Plan> {
    let records = octets.records.chunks(RECORD_SIZE);
    let couplers: Option<Vec<Coupler>> = records.map(coupler_of).collect();
    let plan = Plan {
        couplers: couplers?,
        project: tables_of(&octets.project, PROJECT_TABLES)?,
        own: tables_of(&octets.own, OWN_TABLES)?,
    };
    Some(plan).filter(names_its_tables)
}

fn coupler_of(record: &[u8]) -> Option<Coupler> {
    if record.len() != RECORD_SIZE || record[..2] != MARK {
        return None;
    }
    let mut settings = [[Setting::Closed; 4]; 2];
    for (setting, code) in settings.as_flattened_mut().iter_mut().zip(&record[3..11]) {
        *setting = *Setting::ALL.get(usize::from(*code))?;
    }
    Some(Coupler {
        line: Line(record[2]),
        settings,
        table: table_at(record[11]),
    })
}

fn table_at(number: u8) -> Option<TableAt> {
    let place = usize::from(number);
    match number {
        NO_TABLE => None,
        0..=127 => Some(TableAt {
            store: Store::Project,
            place,
        }),
        _ => Some(TableAt {
            store: Store::Own,
            place: place - PROJECT_TABLES,
        }),
    }
}

fn tables_of(store: &[u8], most: usize) -> Option<Vec<Groups>> {
    let tables = store.chunks_exact(TABLE_SIZE);
    if !tables.remainder().is_empty() || tables.len() > most {
        return None;
    }
    Some(tables.map(groups_of).collect())
}

fn groups_of(table: &[u8]) -> Groups {
    let mut ranges = Vec::new();
    for (first, octet) in (0..=u16::MAX).step_by(8).zip(table) {
        match octet {
            0 => {}
            0xff => ranges.push((Group(first), Group(first + 7))),
            _ => {
                let bits = (0..8).filter(|bit| octet >> bit & 1 == 1);
                let groups = bits.map(|bit| Group(first + bit));
                ranges.extend(groups.map(|group| (group, group)));
            }
        }
    }
    Groups::new(ranges)
}
