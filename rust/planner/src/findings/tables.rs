//! Findings about filter tables. They are about what the text says, who names a table and who
//! filters by it: no telegram is traced for them.

use super::{groups_of, named, Finding, Kind};
use crate::address::{Group, Line};
use crate::plan::{Class, Coupler, Direction, Groups, Setting, Store, TableAt};
use crate::text::{range, SiteText, TableText};
use std::cmp::Reverse;

/// A table, and the couplers that name it by their places in the site.
struct Table<'a> {
    site: &'a SiteText,
    text: &'a TableText,
    groups: &'a Groups,
    naming: Vec<usize>,
}

/// All findings about the tables of a site.
pub fn findings(site: &SiteText) -> Vec<Finding> {
    let mut findings = Vec::new();
    for store in [Store::Project, Store::Own] {
        let tables = site.tables(store).iter().zip(site.plan.tables(store));
        for (place, (text, groups)) in tables.enumerate() {
            let at = TableAt { store, place };
            let table = Table {
                site,
                text,
                groups,
                naming: naming(&site.plan.couplers, at),
            };
            findings.extend(table.findings());
        }
    }
    findings
}

fn naming(couplers: &[Coupler], table: TableAt) -> Vec<usize> {
    let places = 0..couplers.len();
    places
        .filter(|place| couplers[*place].table == Some(table))
        .collect()
}

impl Table<'_> {
    fn findings(&self) -> Vec<Finding> {
        let (asking, idle): (Vec<usize>, Vec<usize>) = self.naming.iter().partition(|place| {
            let coupler = self.coupler(**place);
            Class::ALL.iter().any(|class| filters(coupler, *class))
        });
        let mut findings = twice(self.text);
        if asking.is_empty() {
            findings.push(self.not_asked());
            return findings;
        }
        findings.extend(idle.iter().map(|place| self.nothing_filtered(*place)));
        findings.extend(
            Class::ALL
                .iter()
                .filter_map(|class| self.groups_not_asked(*class)),
        );
        findings.extend(self.broadcast());
        if self.text.entries.is_empty() {
            findings.push(self.empty(&asking));
        }
        findings
    }

    fn coupler(&self, place: usize) -> &Coupler {
        &self.site.plan.couplers[place]
    }

    fn lines(&self, places: &[usize]) -> Vec<Line> {
        places
            .iter()
            .map(|place| self.coupler(*place).line)
            .collect()
    }

    fn at_its_name(&self, kind: Kind, words: String) -> Finding {
        Finding {
            line: self.text.at,
            kind,
            words,
        }
    }

    fn not_asked(&self) -> Finding {
        let because = match &self.naming[..] {
            [] => "no coupler names it".into(),
            naming => {
                let couplers = named("coupler", &self.lines(naming));
                format!("named by {couplers}, where no groups are filtered")
            }
        };
        let words = format!("table {} is never asked: {because}", self.text.name);
        self.at_its_name(Kind::TableNotAsked, words)
    }

    fn empty(&self, asking: &[usize]) -> Finding {
        let couplers = named("coupler", &self.lines(asking));
        let words = format!("table {} is empty, but asked by {couplers}", self.text.name);
        self.at_its_name(Kind::TableEmpty, words)
    }

    fn nothing_filtered(&self, place: usize) -> Finding {
        let text = &self.site.couplers[place];
        let line = self.coupler(place).line;
        Finding {
            line: text.table.unwrap_or(text.at),
            kind: Kind::NothingFiltered,
            words: format!(
                "coupler {line} names table {} but filters no groups",
                self.text.name
            ),
        }
    }

    /// At the first entry with groups of a class that no coupler filters by this table.
    fn groups_not_asked(&self, class: Class) -> Option<Finding> {
        let all = groups_of(class)?;
        let asks = |place: &usize| filters(self.coupler(*place), class);
        if self.naming.iter().any(asks) {
            return None;
        }
        let mut entries = self.text.entries.iter();
        let (line, ..) = entries.find(|(_, first, last)| size(all, (*first, *last)) > 0)?;
        let ranges = self.groups.ranges().iter();
        let (name, count) = (&self.text.name, ranges.map(|range| size(all, *range)).sum());
        let are = match count {
            1usize => "of its groups is",
            _ => "of its groups are",
        };
        let because = format!("no coupler that names it filters {class}");
        Some(Finding {
            line: *line,
            kind: Kind::GroupsNotAsked,
            words: format!("table {name}: {count} {are} never asked, since {because}"),
        })
    }

    /// An entry 0/0/0 on its own; a range that begins there says "from the first group on".
    fn broadcast(&self) -> Option<Finding> {
        let mut entries = self.text.entries.iter();
        let (line, ..) =
            entries.find(|(_, first, last)| (*first, *last) == (Group(0), Group(0)))?;
        Some(Finding {
            line: *line,
            kind: Kind::BroadcastInTable,
            words: format!(
                "table {} has 0/0/0, which is broadcast: no table is asked for it",
                self.text.name
            ),
        })
    }
}

fn filters(coupler: &Coupler, class: Class) -> bool {
    let is_filter = |direction| coupler.setting(direction, class) == Setting::Filter;
    groups_of(class).is_some() && Direction::ALL.into_iter().any(is_filter)
}

/// How many groups two ranges have in common.
fn size(one: (Group, Group), other: (Group, Group)) -> usize {
    let (first, last) = (one.0.max(other.0), one.1.min(other.1));
    (usize::from(last.0) + 1).saturating_sub(usize::from(first.0))
}

/// The entries that lie in another one, which is told with its line. Of equal ones the first stands.
fn twice(table: &TableText) -> Vec<Finding> {
    let mut entries = table.entries.clone();
    entries.sort_by_key(|(line, first, last)| (*first, Reverse(*last), *line));
    let mut findings = Vec::new();
    let mut widest: Option<(usize, Group, Group)> = None;
    for (line, first, last) in entries {
        match widest {
            // It begins no later than this entry, so it has all of it if it ends no earlier.
            Some((before, start, end)) if last <= end => {
                let (entry, wide) = (range(first, last), range(start, end));
                let twice = format!("{entry} is in table {} twice", table.name);
                findings.push(Finding {
                    line,
                    kind: Kind::EntryTwice,
                    words: format!("{twice}: line {before} has {wide}"),
                });
            }
            _ => widest = Some((line, first, last)),
        }
    }
    findings
}
