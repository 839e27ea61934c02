//! A site's text says what the records and the stores say, in any layout: from the one to the other
//! and back is the identity.

mod support;

use inputs::{seed, Generator};
use planner::octets::{octets_of, plan_of, Octets, OWN_TABLES, PROJECT_TABLES};
use planner::plan::{Plan, Store};
use planner::text::{read, write, CouplerText, SiteText, TableText};
use support::layouts::some_layout;
use support::sites::some_site;

const SITES: usize = 10_000;

/// "mark 43h 50h, line, four codes main to sub, four codes sub to main, table number"; P11: "group
/// 6FFFh is bit 7 of octet 3,583; 7000h is bit 0 of octet 3,584".
#[test]
fn octets_are_as_document_01_says() {
    let text = b"table o\n 13/7/255, 14/0/0\n 0901h - 0909h\nproject table p\n 0, 65535\n\
        coupler 4.7\n\
        \x20 down individual closed, broadcast open, groups 0-13 filter, groups 14-31 open\n\
        \x20 up individual filter, broadcast closed, groups 0-13 open, groups 14-31 filter\n\
        \x20 table o\n\
        coupler 15.15\n both all open\n table p\n\
        coupler 0.1\n both all closed\n";
    let octets = octets_of(&read("some.site", text).expect("a site").plan).expect("octets");
    let records = [
        [0x43, 0x50, 0x47, 0, 2, 1, 2, 1, 0, 2, 1, 128],
        [0x43, 0x50, 0xff, 2, 2, 2, 2, 2, 2, 2, 2, 0],
        [0x43, 0x50, 0x01, 0, 0, 0, 0, 0, 0, 0, 0, 0xff],
    ];
    assert_eq!(octets.records, records.as_flattened());
    let own = [(0x120, 0xfe), (0x121, 0x03), (3583, 0x80), (3584, 0x01)];
    assert_eq!(octets.own, table(&own));
    assert_eq!(octets.project, table(&[(0, 0x01), (8191, 0x80)]));
}

/// A filter table of these octets, at their places, and otherwise 0.
fn table(octets: &[(usize, u8)]) -> Vec<u8> {
    let mut table = vec![0; 8192];
    for (place, octet) in octets {
        table[*place] = *octet;
    }
    table
}

/// Plan to octets to plan; octets to plan to text to plan to octets; text to octets to text; and a
/// text in another layout to the same site.
#[test]
fn a_text_is_its_site() {
    let generator = &mut Generator::new(seed());
    let mut counts = Counts::default();
    for number in 0..SITES {
        let plan = some_site(generator);
        let octets = octets_of(&plan).expect("octets");
        counts.add(&plan, &octets);
        let compared = compare(generator, plan, &octets);
        compared.unwrap_or_else(|what| panic!("site {number}: {what}"));
    }
    println!("{counts:?}");
    counts.assert_covers();
}

fn compare(generator: &mut Generator, plan: Plan, octets: &Octets) -> Result<(), String> {
    let again = plan_of(octets).ok_or("no plan")?;
    same("plan", &again, &plan)?;

    let text = write(&SiteText::of(again));
    let site = read_text(&text)?;
    let octets_again = octets_of(&site.plan).ok_or("no octets of the text")?;
    same("octets", &octets_again, octets)?;
    let plan_again = plan_of(&octets_again).ok_or("no plan again")?;
    same("text", &write(&SiteText::of(plan_again)), &text)?;

    let (text, expected) = some_layout(generator, plan);
    let site = read_text(&text)?;
    same("layout", &site, &expected).map_err(|what| format!("{what} of {text}"))?;
    let text = write(&site);
    let site_again = read_text(&text)?;
    same("text of a layout", &write(&site_again), &text)?;
    same("names", &without_places(site_again), &without_places(site))
}

fn read_text(text: &str) -> Result<SiteText, String> {
    read("some.site", text.as_bytes()).map_err(|faults| format!("{} in {text}", faults[0]))
}

fn same<T: PartialEq + std::fmt::Debug>(what: &str, found: &T, expected: &T) -> Result<(), String> {
    if found == expected {
        return Ok(());
    }
    let shown = |value: &T| format!("{value:?}").chars().take(2000).collect::<String>();
    Err(format!("{what}: {}, not {}", shown(found), shown(expected)))
}

/// What stays in another layout.
fn without_places(mut site: SiteText) -> SiteText {
    for coupler in &mut site.couplers {
        let label = coupler.label.take();
        *coupler = CouplerText {
            label,
            ..CouplerText::default()
        };
    }
    for table in site.project.iter_mut().chain(&mut site.own) {
        let name = std::mem::take(&mut table.name);
        *table = TableText {
            name,
            ..TableText::default()
        };
    }
    site
}

/// How often sites of each kind came.
#[derive(Debug, Default)]
struct Counts {
    without_couplers: usize,
    all_couplers: usize,
    refused: usize,
    full_project: usize,
    full_own: usize,
    both_stores: usize,
    empty_tables: usize,
    full_tables: usize,
    first_groups: usize,
    last_groups: usize,
    tables_not_named: usize,
}

impl Counts {
    fn add(&mut self, plan: &Plan, octets: &Octets) {
        let count = |times: &mut usize, is_so: bool| *times += usize::from(is_so);
        count(&mut self.without_couplers, plan.couplers.is_empty());
        count(&mut self.all_couplers, plan.couplers.len() >= 255);
        count(
            &mut self.refused,
            support::refusal(&octets.site()).is_some(),
        );
        count(&mut self.full_project, plan.project.len() == PROJECT_TABLES);
        count(&mut self.full_own, plan.own.len() == OWN_TABLES);
        count(
            &mut self.both_stores,
            !plan.project.is_empty() && !plan.own.is_empty(),
        );
        for store in [Store::Project, Store::Own] {
            for (place, groups) in plan.tables(store).iter().enumerate() {
                let ends = (groups.ranges().first(), groups.ranges().last());
                count(&mut self.empty_tables, groups.count() == 0);
                count(&mut self.full_tables, groups.count() == 0x10000);
                count(
                    &mut self.first_groups,
                    ends.0.is_some_and(|range| range.0 .0 == 0),
                );
                count(
                    &mut self.last_groups,
                    ends.1.is_some_and(|range| range.1 .0 == 0xffff),
                );
                let mut named = plan.couplers.iter().filter_map(|coupler| coupler.table);
                let is_named = named.any(|table| (table.store, table.place) == (store, place));
                count(&mut self.tables_not_named, !is_named);
            }
        }
    }

    fn assert_covers(&self) {
        let few = [self.full_project, self.full_own];
        assert!(few.iter().all(|times| (1..100).contains(times)), "{few:?}");
        let many = [
            self.without_couplers,
            self.all_couplers,
            self.refused,
            self.both_stores,
            self.empty_tables,
            self.full_tables,
            self.first_groups,
            self.last_groups,
            self.tables_not_named,
        ];
        assert!(many.iter().all(|times| *times > SITES / 50), "{many:?}");
        assert!(self.refused < SITES / 2, "{} refused", self.refused);
    }
}
