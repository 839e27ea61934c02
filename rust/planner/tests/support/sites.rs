//! Sites from a seed: from none to all couplers, stores from empty to full, tables from empty to
//! full, and now and then something that the library refuses.

use inputs::{plans, Generator};
use planner::address::{Group, Line};
use planner::octets::{OWN_TABLES, PROJECT_TABLES};
use planner::plan::{Class, Coupler, Direction, Groups, Plan, Setting, Store, TableAt};

const BROADCAST: usize = Class::Broadcast as usize;
const GROUP_CLASSES: [usize; 2] = [Class::LowerGroups as usize, Class::UpperGroups as usize];

/// How often closed, filter and open come in a site.
const SETTINGS: [[usize; 3]; 5] = [[1, 1, 1], [1, 3, 3], [0, 5, 1], [1, 10, 10], [0, 0, 1]];

/// A well-formed site.
pub fn well_formed_site(generator: &mut Generator) -> Plan {
    let project = some_tables(generator, PROJECT_TABLES);
    let own = some_tables(generator, OWN_TABLES);
    site_with_tables(generator, project, own)
}

/// A well-formed site whose stores are empty, as the program `trace` takes it.
pub fn site_without_tables(generator: &mut Generator) -> Plan {
    site_with_tables(generator, Vec::new(), Vec::new())
}

/// A site that words can say; one of three is not well-formed, unless it has no coupler.
pub fn some_site(generator: &mut Generator) -> Plan {
    let mut plan = well_formed_site(generator);
    if generator.below(3) == 0 {
        spoil(generator, &mut plan);
    }
    plan
}

/// A site that the library refuses for up to four couplers.
pub fn refused_site(generator: &mut Generator) -> Plan {
    let mut plan = well_formed_site(generator);
    if plan.couplers.is_empty() {
        let line = Line(generator.damage());
        plan.couplers
            .push(some_coupler(generator, &plan, line, &SETTINGS[0]));
    }
    for _ in 0..=generator.below(4) {
        spoil(generator, &mut plan);
    }
    plan
}

fn site_with_tables(generator: &mut Generator, project: Vec<Groups>, own: Vec<Groups>) -> Plan {
    let mut plan = Plan {
        couplers: Vec::new(),
        project,
        own,
    };
    let weights = generator.one_of(&SETTINGS);
    for line in some_lines(generator) {
        let coupler = some_coupler(generator, &plan, line, &weights);
        plan.couplers.push(coupler);
    }
    plan
}

/// Few of them mostly, with the area couplers among them or not.
fn some_lines(generator: &mut Generator) -> Vec<Line> {
    let number = match generator.below(32) {
        0 => 255,
        1 => generator.below(256),
        2..=8 => generator.below(41),
        _ => generator.below(9),
    };
    let lines = plans::some_lines(generator, number, &[]);
    lines.into_iter().map(Line).collect()
}

/// None or a few; seldom all that the store holds.
fn some_tables(generator: &mut Generator, most: usize) -> Vec<Groups> {
    let number = match generator.below(1024) {
        0 => most,
        _ => generator.one_of(&[0, 0, 1, 1, 2, 3, 5]),
    };
    (0..number).map(|_| some_groups(generator)).collect()
}

/// Empty, full, scattered, or a few ranges.
fn some_groups(generator: &mut Generator) -> Groups {
    let ranges = match generator.below(16) {
        0 => 0,
        1 => return Groups::new(vec![(Group(0), Group(0xffff))]),
        2 => 200,
        _ => 1 + generator.below(12),
    };
    Groups::new((0..ranges).map(|_| some_range(generator)).collect())
}

/// One group mostly, from anywhere or from where something changes.
pub fn some_range(generator: &mut Generator) -> (Group, Group) {
    let any = generator.field();
    let first = generator.one_of(&[any, any, any, any & 0xfff, 0, 1, 0x6fff, 0x7000, 0xffff]);
    let more = match generator.below(8) {
        0..=3 => 0,
        4..=6 => generator.below(20) as u16,
        _ => generator.below(5000) as u16,
    };
    (Group(first), Group(first.saturating_add(more)))
}

/// A coupler that the library accepts: broadcast is not filtered, nor are groups without a table.
fn some_coupler(
    generator: &mut Generator,
    plan: &Plan,
    line: Line,
    weights: &[usize; 3],
) -> Coupler {
    let table = some_table(generator, plan);
    let mut settings = [[Setting::Closed; 4]; 2];
    for row in &mut settings {
        for (class, setting) in row.iter_mut().enumerate() {
            let may_filter =
                class != BROADCAST && !(GROUP_CLASSES.contains(&class) && table.is_none());
            *setting = match some_setting(generator, weights) {
                Setting::Filter if !may_filter => Setting::Open,
                other => other,
            };
        }
    }
    Coupler {
        line,
        settings,
        table,
    }
}

fn some_setting(generator: &mut Generator, weights: &[usize; 3]) -> Setting {
    let place = generator.below(weights.iter().sum());
    let code = usize::from(place >= weights[0]) + usize::from(place >= weights[0] + weights[1]);
    Setting::ALL[code]
}

/// A table of either store, or none.
fn some_table(generator: &mut Generator, plan: &Plan) -> Option<TableAt> {
    let store = generator.one_of(&[Store::Project, Store::Own]);
    let tables = plan.tables(store).len();
    if tables == 0 || generator.below(4) == 0 {
        return None;
    }
    let place = generator.below(tables);
    Some(TableAt { store, place })
}

/// Gives a coupler line 0.0, a line that another has, broadcast filtered, or groups filtered without
/// a table.
pub fn spoil(generator: &mut Generator, plan: &mut Plan) {
    if plan.couplers.is_empty() {
        return;
    }
    let other = generator.below(plan.couplers.len());
    let second = plan.couplers[other];
    let place = generator.below(plan.couplers.len());
    let coupler = &mut plan.couplers[place];
    let row = &mut coupler.settings[generator.one_of(&Direction::ALL) as usize];
    match generator.below(4) {
        0 => coupler.line = Line(0),
        1 => row[BROADCAST] = Setting::Filter,
        2 => {
            row[generator.one_of(&GROUP_CLASSES)] = Setting::Filter;
            coupler.table = None;
        }
        _ => plan.couplers.insert(place, second),
    }
}
