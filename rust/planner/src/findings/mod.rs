//! What a well-formed site says that its planner has probably not meant.

mod lines;
mod tables;

use crate::address::{Group, Line};
use crate::loading::Site;
use crate::plan::Class;
use crate::words::{plural, together};
use klumdray::Refusal;

/// Kinds of findings, in the order in which those of one line of the text are told.
#[derive(Clone, Copy, Debug, PartialEq, Eq, PartialOrd, Ord, Hash)]
pub enum Kind {
    /// No coupler asks a table: none names it, or none that does filters groups.
    TableNotAsked,
    /// A table has no groups, and a coupler asks it.
    TableEmpty,
    /// A coupler names a table that others ask, and filters no groups.
    NothingFiltered,
    /// A table has groups of a class that no coupler filters by it.
    GroupsNotAsked,
    /// A table has the entry 0/0/0, which is broadcast.
    BroadcastInTable,
    /// An entry of a table lies in another entry of the same table.
    EntryTwice,
    /// The main line of a coupler has none fitted.
    MainLineNotFitted,
    /// What passes a coupler one way is closed the other way.
    OneWay,
}

impl Kind {
    /// All kinds.
    pub const ALL: [Kind; 8] = [
        Kind::TableNotAsked,
        Kind::TableEmpty,
        Kind::NothingFiltered,
        Kind::GroupsNotAsked,
        Kind::BroadcastInTable,
        Kind::EntryTwice,
        Kind::MainLineNotFitted,
        Kind::OneWay,
    ];

    /// The name that scripts know it by.
    pub fn name(self) -> &'static str {
        match self {
            Kind::TableNotAsked => "table_not_asked",
            Kind::TableEmpty => "table_empty",
            Kind::NothingFiltered => "nothing_filtered",
            Kind::GroupsNotAsked => "groups_not_asked",
            Kind::BroadcastInTable => "broadcast_in_table",
            Kind::EntryTwice => "entry_twice",
            Kind::MainLineNotFitted => "main_line_not_fitted",
            Kind::OneWay => "one_way",
        }
    }
}

/// Something that is allowed and probably not meant.
#[derive(Clone, Debug, PartialEq, Eq, PartialOrd, Ord)]
pub struct Finding {
    /// The line of the text that it is about.
    pub line: usize,
    /// Its kind.
    pub kind: Kind,
    /// What is found, in words.
    pub words: String,
}

/// All findings of a site, by the line of the text.
pub fn findings(site: &Site) -> Result<Vec<Finding>, Refusal> {
    let mut findings = tables::findings(&site.text);
    findings.extend(lines::cut_off(site)?);
    findings.extend(lines::one_way(site)?);
    findings.sort();
    Ok(findings)
}

/// The first and the last group of a class: "groups 0001h to 6FFFh", "groups 7000h to FFFFh".
fn groups_of(class: Class) -> Option<(Group, Group)> {
    match class {
        Class::Individual | Class::Broadcast => None,
        Class::LowerGroups => Some((Group(0x0001), Group(0x6fff))),
        Class::UpperGroups => Some((Group(0x7000), Group(0xffff))),
    }
}

/// Names that a message gives one by one.
const TOLD: usize = 4;

/// Lines in a row with a noun before them: "coupler 4.7", "couplers 4.7, 4.8 and 4.9".
fn named(noun: &str, lines: &[Line]) -> String {
    let mut names: Vec<String> = lines.iter().map(Line::to_string).collect();
    if names.len() > TOLD {
        let rest = names.split_off(TOLD - 1);
        names.push(format!("{} more", rest.len()));
    }
    format!("{} {}", plural(lines.len(), noun), together(&names))
}
