//! Writes a site's text in its one plain layout: an entry a line, so that a comparison of two
//! versions shows each group that came or went.

use super::{SiteText, TableText};
use crate::address::Group;
use crate::plan::{Class, Coupler, Direction, Groups, Setting, Store};

/// Writes a site's text; [`super::read`] reads the same site from it.
///
/// ```
/// use planner::text::{read, write};
/// let text = "coupler 4.7 \"boiler house\"\n  \
///     down  individual filter, broadcast open, groups 0-13 open, groups 14-31 closed\n  \
///     up    individual open, broadcast open, groups 0-13 open, groups 14-31 open\n";
/// let site = read("plant.site", b"coupler 4.7 \"boiler house\" # here it drips\n\tup all open\n\
///     \tdown groups 14-31 closed, groups 0-13 open,individual filter,broadcast open\n").unwrap();
/// assert_eq!(write(&site).replace("    ", "  "), text.replace("    ", "  "));
/// ```
pub fn write(site: &SiteText) -> String {
    let mut blocks = Vec::new();
    if let Some(title) = &site.title {
        blocks.push(format!("site \"{title}\"\n"));
    }
    for (store, keyword) in [(Store::Project, "project table"), (Store::Own, "table")] {
        let tables = site.tables(store).iter().zip(site.plan.tables(store));
        blocks.extend(tables.map(|(text, groups)| table(keyword, text, groups)));
    }
    let couplers = site.plan.couplers.iter().zip(&site.couplers);
    blocks.extend(couplers.map(|(settings, text)| coupler(site, settings, text.label.as_deref())));
    blocks.join("\n")
}

fn table(keyword: &str, text: &TableText, groups: &Groups) -> String {
    let mut block = format!("{keyword} {}\n", text.name);
    for (first, last) in groups.ranges() {
        block += &format!("    {}\n", range(*first, *last));
    }
    block
}

/// A range as the text has it.
pub fn range(first: Group, last: Group) -> String {
    if first == last {
        first.to_string()
    } else {
        format!("{first} - {last}")
    }
}

fn coupler(site: &SiteText, coupler: &Coupler, label: Option<&str>) -> String {
    let label = label
        .map(|label| format!(" \"{label}\""))
        .unwrap_or_default();
    let mut block = format!("coupler {}{label}\n", coupler.line);
    for direction in Direction::ALL {
        let settings = coupler.settings[direction as usize];
        block += &format!("    {direction:<4}  {}\n", row(&settings));
    }
    let table = coupler.table;
    if let Some(table) = table.and_then(|table| site.tables(table.store).get(table.place)) {
        block += &format!("    table {}\n", table.name);
    }
    block
}

fn row(settings: &[Setting; 4]) -> String {
    let parts = Class::ALL.map(|class| format!("{class} {}", settings[class as usize]));
    parts.join(", ")
}
