//! Telegrams over a site, from a seed, and the octets of a site as document 01 lays them out: not
//! by the tool, whose translation is compared with them.

use inputs::Generator;
use planner::plan::{Groups, Plan, Setting, Store, TableAt};
use reference::tracer::Query;

/// From a coupler's line or near the destination, to what the site knows or anything.
pub fn some_query(generator: &mut Generator, plan: &Plan) -> Query {
    let kind = generator.one_of(&[0, 1, 1]);
    let destination = match kind {
        0 => some_individual(generator, plan),
        _ => some_group(generator, plan),
    };
    let [high, _] = destination.to_be_bytes();
    Query {
        start: match (kind, generator.below(2)) {
            (0, 0) => generator.one_of(&[high, high & 0xf0, high ^ 1]),
            _ => some_line(generator, plan),
        },
        kind,
        destination,
        count: generator.one_of(&[0, 1, 2, 3, 4, 5, 6, 6, 6, 7, 7]),
    }
}

/// The line of a coupler mostly.
fn some_line(generator: &mut Generator, plan: &Plan) -> u8 {
    let lines: Vec<u8> = plan.couplers.iter().map(|coupler| coupler.line.0).collect();
    if lines.is_empty() || generator.below(8) == 0 {
        return generator.octet();
    }
    generator.one_of(&lines)
}

/// A coupler's own address, another on its line or in its area, or any.
fn some_individual(generator: &mut Generator, plan: &Plan) -> u16 {
    let any = generator.field();
    let own = u16::from(some_line(generator, plan)) << 8;
    let near = [own, own, own | any & 0xff, own & 0xf000 | any & 0xfff, any];
    generator.one_of(&near)
}

/// At an end of a range in a table or beside it, broadcast, where the classes meet, or any.
fn some_group(generator: &mut Generator, plan: &Plan) -> u16 {
    let any = generator.field();
    let tables = plan.project.iter().chain(&plan.own);
    let ranges: Vec<_> = tables.flat_map(Groups::ranges).collect();
    if ranges.is_empty() || generator.below(3) == 0 {
        return generator.one_of(&[0, 0, 1, 0x6fff, 0x7000, 0xffff, any, any]);
    }
    let (first, last) = generator.one_of(&ranges);
    let beside = [first.0.wrapping_sub(1), last.0.wrapping_add(1)];
    generator.one_of(&[first.0, last.0, first.0, last.0, beside[0], beside[1]])
}

/// The query in the command's words, with each form of a group address now and then.
pub fn words(generator: &mut Generator, query: &Query) -> Vec<String> {
    let to = query.destination;
    let (main, rest) = (to >> 11, to & 0x7ff);
    let destination = match (query.kind, generator.below(4)) {
        (0, _) => {
            let individual = format!("{}.{}", line((to >> 8) as u8), to & 0xff);
            ["--individual".into(), individual]
        }
        (_, 0) => ["--group".into(), format!("{main}/{rest}")],
        (_, 1) => ["--group".into(), to.to_string()],
        (_, 2) => ["--group".into(), format!("{to:04x}h")],
        _ => [
            "--group".into(),
            format!("{main}/{}/{}", rest >> 8, to & 0xff),
        ],
    };
    let mut words = vec!["--from".into(), line(query.start)];
    words.extend(destination);
    // 6 is the count of a telegram of which nothing else is said.
    if query.count != 6 || generator.below(2) == 0 {
        words.extend(["--count".into(), query.count.to_string()]);
    }
    words
}

/// "area, point, line in decimal"
pub fn line(line: u8) -> String {
    format!("{}.{}", line / 16, line % 16)
}

/// "mark 43h 50h, line, four codes main to sub, four codes sub to main, table number"
pub fn records(plan: &Plan) -> Vec<u8> {
    let records = plan.couplers.iter().map(|coupler| {
        let codes = coupler.settings.as_flattened().iter();
        let codes = codes.map(|setting| match setting {
            Setting::Closed => 0,
            Setting::Filter => 1,
            Setting::Open => 2,
        });
        let number = match coupler.table {
            None => 0xff,
            Some(TableAt { store, place }) => match store {
                Store::Project => place as u8,
                Store::Own => 128 + place as u8,
            },
        };
        let mut record = vec![0x43, 0x50, coupler.line.0];
        record.extend(codes);
        record.push(number);
        record
    });
    records.flatten().collect()
}

/// "bit g mod 8 of octet g div 8 in the 8,192-octet filter table"
pub fn store(tables: &[Groups]) -> Vec<u8> {
    let mut store = vec![0; tables.len() * 8192];
    for (table, groups) in store.chunks_mut(8192).zip(tables) {
        let ranges = groups.ranges().iter();
        for group in ranges.flat_map(|(first, last)| first.0..=last.0) {
            table[usize::from(group / 8)] |= 1 << (group % 8);
        }
    }
    store
}
