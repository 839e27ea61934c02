//! What `klumdray trace` prints beside the proved program `trace`, and beside the reference, on
//! random sites and queries. The lists are read out of what the tool printed.

#[allow(dead_code)]
#[path = "support/json_reader.rs"]
mod json_reader;
#[path = "support/program.rs"]
mod program;
#[path = "support/queries.rs"]
mod queries;
mod support;
#[path = "support/tool.rs"]
mod tool;

use inputs::{seed, Generator};
use json_reader::Value;
use planner::plan::Plan;
use planner::text::{write, SiteText};
use program::program;
use queries::{line, records, some_query, store, words};
use reference::coupler::Side;
use reference::site::{main_side, Site};
use reference::tracer::{self, Query, Reason, Stop, ROOM_SIZE};
use std::collections::{BTreeMap, BTreeSet};
use std::{fs, panic, thread};
use support::emulated::number_of_inputs;
use support::sites::{site_without_tables, spoil, well_formed_site};
use tool::{klumdray, scratch, Ended, Printed};

const THREADS: usize = 3;

fn cases() -> usize {
    number_of_inputs(1000, 40)
}

/// Runs the cases in a few threads and counts what each was about. A case has a generator of its
/// own, so the order of the threads changes nothing.
fn each_case(
    cases: usize,
    run: impl Fn(usize, &mut Generator) -> Vec<String> + Sync,
) -> BTreeMap<String, usize> {
    let (seed, run) = (seed(), &run);
    println!("{cases} cases, KLUMDRAY_SEED={seed:#x}");
    let part = move |first: usize| {
        let cases = (first..cases).step_by(THREADS);
        let abouts = cases.map(|case| {
            let generator = &mut Generator::new(seed.wrapping_add(case as u64));
            run(case, generator)
        });
        abouts.flatten().collect::<Vec<String>>()
    };
    let mut counts = BTreeMap::new();
    thread::scope(|scope| {
        let threads: Vec<_> = (0..THREADS)
            .map(|first| scope.spawn(move || part(first)))
            .collect();
        for thread in threads {
            let abouts = thread.join().unwrap_or_else(|it| panic::resume_unwind(it));
            for about in abouts {
                *counts.entry(about).or_default() += 1;
            }
        }
    });
    println!("{counts:?}");
    counts
}

/// A site in a file, and a telegram over it.
struct Asked {
    file: String,
    plan: Plan,
    query: Query,
    words: Vec<String>,
}

const LABELS: [Option<&str>; 6] = [
    None,
    None,
    Some(""),
    Some("pump hall 7 3"),
    Some("4.7  down: closed für alle"),
    Some("7       6        0  start"),
];

impl Asked {
    fn new(name: String, plan: Plan, generator: &mut Generator) -> Asked {
        let query = some_query(generator, &plan);
        let file = scratch(&name);
        let mut text = SiteText::of(plan);
        for coupler in &mut text.couplers {
            coupler.label = generator.one_of(&LABELS).map(String::from);
        }
        fs::write(&file, write(&text)).expect("a scratch file");
        let words = words(generator, &query);
        Asked {
            file,
            plan: text.plan,
            query,
            words,
        }
    }

    fn run(&self, option: &[&str]) -> Ended {
        let mut words = vec!["trace", &self.file];
        words.extend(self.words.iter().map(String::as_str));
        words.extend(option);
        klumdray(&words)
    }

    /// For a message: the file is left where the case fails.
    fn told(&self) -> String {
        format!("{} {}", self.file, self.words.join(" "))
    }

    /// "line, kind, destination (2), count, then records to the end"
    fn octets(&self) -> Vec<u8> {
        let Query {
            start,
            kind,
            destination,
            count,
        } = self.query;
        let [high, low] = destination.to_be_bytes();
        let head = [start, kind, high, low, count];
        [&head[..], &records(&self.plan)].concat()
    }

    /// The reference's answer. Of what is said of a line that is not reached it has the beginning.
    fn expected(&self) -> Printed {
        let (records, project) = (records(&self.plan), store(&self.plan.project));
        let site = Site {
            records: &records,
            project: &project,
            own: &store(&self.plan.own),
        };
        let mut room = [0; ROOM_SIZE];
        let traced = tracer::trace(&self.query, &site, &mut room).expect("it is well-formed");
        let listed = room[..3 * traced.listed].chunks(3);
        let rows = listed.clone().map(|octets| {
            let [of, count, crossed] = [octets[0], octets[1], octets[2]];
            format!("{} count {count} crossed {crossed}\n", line(of))
        });
        let mut others = lines(&self.plan, &self.query);
        others.retain(|of| !listed.clone().any(|octets| octets[0] == *of));
        let stopped = others.into_iter().map(|of| {
            let stop = tracer::why(&self.query, &site, of).expect("it is well-formed");
            (
                line(of),
                begins(&stop.expect("it is not listed"), &self.query),
            )
        });
        Printed {
            list: rows.collect::<String>() + &format!("forwardings {}\n", traced.forwardings),
            starts: vec![line(self.query.start)],
            stopped: stopped.collect(),
        }
    }

    /// Removes the file, and says what the case was about: how far the telegram came, or that the
    /// site was refused.
    fn ends(self, list: &str) -> Vec<String> {
        fs::remove_file(&self.file).expect("the scratch file");
        if list.starts_with("refused") {
            return vec![list.trim().into()];
        }
        let crossed = list.lines().filter_map(|row| row.split("crossed ").nth(1));
        let crossed = crossed.max().unwrap_or("none");
        let kind = match (self.query.kind, self.query.destination) {
            (0, _) => "individual",
            (_, 0) => "broadcast",
            _ => "group",
        };
        let count = format!("count {}", self.query.count);
        vec![format!("{crossed} crossed"), count, kind.into()]
    }
}

/// The lines that a site speaks of: its couplers', the query's, and the main sides of these.
fn lines(plan: &Plan, query: &Query) -> BTreeSet<u8> {
    let mut lines: BTreeSet<u8> = plan.couplers.iter().map(|coupler| coupler.line.0).collect();
    lines.insert(query.start);
    if query.kind == 0 {
        lines.insert((query.destination >> 8) as u8);
    }
    let areas: Vec<u8> = lines.iter().map(|line| main_side(*line)).collect();
    lines.extend(areas);
    lines.insert(0x00);
    lines
}

/// The destination as the tool calls it.
fn to(query: &Query) -> String {
    let [high, low] = query.destination.to_be_bytes();
    match (query.kind, query.destination) {
        (0, _) => format!("individual {}.{low}", line(high)),
        (_, 0) => "broadcast".into(),
        _ => format!("group {}/{}/{low}", high >> 3, high & 7),
    }
}

/// What is said of a stop, or how it begins.
fn begins(stop: &Stop, query: &Query) -> String {
    let direction = match stop.from {
        Side::Main => "down",
        Side::Sub => "up",
    };
    let to = to(query);
    let reason = match stop.reason {
        Reason::NotFitted => "no coupler fitted".into(),
        Reason::Closed => format!("closed for {to}"),
        Reason::CountUsedUp => "count used up".into(),
        Reason::OwnAddress => format!("{to} is the coupler's own"),
        Reason::NotBelow => format!("{to} is not below"),
        Reason::NotAbove => format!("{to} is not above"),
        Reason::NotInTable => format!("{to} not in its table"),
    };
    format!("{} {direction}: {reason}", line(stop.line))
}

/// The list that the tool printed, or its refusal, in the program's words.
fn said(ended: &Ended) -> String {
    if ended.status != Some(1) {
        assert_eq!((ended.status, ended.errors.as_str()), (Some(0), ""));
        return Printed::read(ended.text()).list;
    }
    assert_eq!(ended.text(), "");
    format!("refused {}\n", refused(&ended.errors))
}

/// The number in "klumdray: FILE:LINE: refused 17: one line twice in a site: ..".
fn refused(errors: &str) -> &str {
    let (_, number) = errors.split_once(": refused ").expect(errors);
    number.split(':').next().unwrap_or_default()
}

fn assert_about(counts: &BTreeMap<String, usize>, about: &[&str]) {
    for name in about {
        let times = counts.get(*name).copied().unwrap_or_default();
        assert!(times >= cases() / 100, "{name}: {times} times");
    }
}

const ANSWERED: [&str; 16] = [
    "0 crossed",
    "1 crossed",
    "2 crossed",
    "3 crossed",
    "4 crossed",
    "count 0",
    "count 1",
    "count 2",
    "count 3",
    "count 4",
    "count 5",
    "count 6",
    "count 7",
    "individual",
    "broadcast",
    "group",
];

#[test]
fn prints_what_the_program_writes() {
    // Every fifth site is spoiled, besides the sites that are asked for.
    let counts = each_case(cases() + cases() / 4, |case, generator| {
        let mut plan = large(generator, site_without_tables);
        if case % 5 == 0 {
            spoil(generator, &mut plan);
            // "more than 3,065 in all" the program alone refuses.
            plan.couplers.truncate(255);
        }
        let asked = Asked::new(format!("program-{case}.site"), plan, generator);
        let written = asked.run(&["--octets"]);
        assert_eq!(written.output, asked.octets(), "{}", asked.told());
        let printed = asked.run(&[]);
        assert_eq!(written.status, printed.status, "{}", asked.told());
        assert_eq!(written.errors, printed.errors, "{}", asked.told());
        let program = program(&written.output);
        assert_eq!(said(&printed), program.text(), "{}", asked.told());
        asked.ends(program.text())
    });
    assert_about(&counts, &ANSWERED);
    assert_about(&counts, &["refused 15", "refused 17", "refused 18"]);
}

#[test]
fn prints_what_the_reference_lists() {
    let counts = each_case(cases(), |case, generator| {
        let plan = large(generator, site_with_tables);
        let asked = Asked::new(format!("reference-{case}.site"), plan, generator);
        let printed = Printed::read(asked.run(&[]).text());
        let expected = asked.expected();
        assert_eq!(printed.list, expected.list, "{}", asked.told());
        assert_eq!(printed.starts, expected.starts, "{}", asked.told());
        assert_eq!(
            printed.stopped.len(),
            expected.stopped.len(),
            "{}",
            asked.told()
        );
        for (found, wanted) in printed.stopped.iter().zip(&expected.stopped) {
            let is_same = found.0 == wanted.0 && found.1.starts_with(&wanted.1);
            assert!(is_same, "{}: {found:?}, reference {wanted:?}", asked.told());
        }
        if case % 4 == 0 {
            let object = asked.run(&["--json"]);
            assert_eq!(of_object(object.text()), printed, "{}", asked.told());
        }
        let stops = printed.stopped.iter();
        let reasons: BTreeSet<String> = stops.map(|(_, stop)| reason(stop, &asked.query)).collect();
        let mut about = asked.ends(&printed.list);
        about.extend(reasons);
        about
    });
    assert_about(&counts, &ANSWERED);
    assert_about(&counts, &REASONS);
}

/// The direction and the reason of a stop, of any destination.
fn reason(stop: &str, query: &Query) -> String {
    let (_, stop) = stop.split_once(' ').expect("a coupler first");
    stop.replace(&to(query), "it")
}

const REASONS: [&str; 12] = [
    "down: no coupler fitted",
    "up: no coupler fitted",
    "down: it is the coupler's own address",
    "up: it is the coupler's own address",
    "down: closed for it",
    "up: closed for it",
    "down: it is not below it",
    "up: it is not above it",
    "down: it not in its table",
    "up: it not in its table",
    "down: count used up",
    "up: count used up",
];

/// The site with the most couplers of three: there a telegram comes further.
fn large(generator: &mut Generator, site: fn(&mut Generator) -> Plan) -> Plan {
    let mut sites = [(); 3].map(|()| site(generator));
    sites.sort_by_key(|plan| plan.couplers.len());
    let [.., largest] = sites;
    largest
}

fn site_with_tables(generator: &mut Generator) -> Plan {
    loop {
        let plan = well_formed_site(generator);
        if plan.couplers.iter().any(|coupler| coupler.table.is_some()) {
            return plan;
        }
    }
}

/// The JSON object as the tables would have it.
fn of_object(text: &str) -> Printed {
    let object = json_reader::read(text).expect(text);
    let rows = |name| match object.get(name) {
        Some(Value::List(rows)) => rows,
        other => panic!("{name}: {other:?}"),
    };
    let listed = rows("lines").iter().map(|row| {
        let (line, count, crossed) = (row.text("line"), row.number("count"), row.number("crossed"));
        format!("{line} count {count} crossed {crossed}\n")
    });
    let stopped = rows("not_reached").iter().map(|row| {
        let [coupler, direction, words] = ["coupler", "direction", "words"].map(|it| row.text(it));
        let stop = format!("{coupler} {direction}: {words}");
        (row.text("line").into(), stop)
    });
    let query = object.get("query").expect("a query");
    Printed {
        list: listed.collect::<String>()
            + &format!("forwardings {}\n", object.number("forwardings")),
        starts: vec![query.text("from").into()],
        stopped: stopped.collect(),
    }
}
