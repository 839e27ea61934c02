//! A site as a person writes it and a version control system compares it. docs/SITE-TEXT.md has the form;
//! in short:
//!
//! ```text
//! site "Heating plant"
//!
//! table leak-meters                  # of the site's own store; 'project table' for the other
//!     2/2/50 - 2/2/59, 5/1/0
//!
//! coupler 4.7 "boiler house"
//!     down  individual filter, broadcast open, groups 0-13 filter, groups 14-31 closed
//!     up    all open
//!     table leak-meters
//! ```
//!
//! What begins a line begins a block; the indented lines below belong to it.

mod blocks;
mod couplers;
mod entries;
mod messages;
mod read;
mod row;
mod settings;
mod tables;
mod write;

pub use read::read;
pub use write::{range, write};

use crate::address::Group;
use crate::plan::{Plan, Store};

/// A site and what its text says besides: names, labels, and where each thing stands.
#[derive(Clone, Debug, Default, PartialEq, Eq)]
pub struct SiteText {
    /// The site's title.
    pub title: Option<String>,
    /// What the site is.
    pub plan: Plan,
    /// Beside the plan's couplers.
    pub couplers: Vec<CouplerText>,
    /// Beside the plan's tables of the project store.
    pub project: Vec<TableText>,
    /// Beside the plan's tables of the site's own store.
    pub own: Vec<TableText>,
}

/// What the text says of a coupler besides its settings.
#[derive(Clone, Debug, Default, PartialEq, Eq)]
pub struct CouplerText {
    /// What its line is called.
    pub label: Option<String>,
    /// The text's line, from 1, at which it begins.
    pub at: usize,
    /// The text's lines with its settings, for each direction.
    pub rows: [usize; 2],
    /// The text's line that names its table.
    pub table: Option<usize>,
}

/// What the text says of a filter table besides its groups.
#[derive(Clone, Debug, Default, PartialEq, Eq)]
pub struct TableText {
    /// Its name.
    pub name: String,
    /// The text's line at which it begins.
    pub at: usize,
    /// Its entries as they stand, with the text's line of each.
    pub entries: Vec<(usize, Group, Group)>,
}

impl SiteText {
    /// A plan that has no text yet: its tables are named by their numbers, and it has no labels.
    pub fn of(plan: Plan) -> SiteText {
        let named = |prefix: &str, start: usize, count: usize| {
            let names = (start..start + count).map(|number| format!("{prefix}-{number}"));
            let table = |name| TableText {
                name,
                ..TableText::default()
            };
            names.map(table).collect()
        };
        SiteText {
            title: None,
            couplers: vec![CouplerText::default(); plan.couplers.len()],
            project: named("project", 0, plan.project.len()),
            own: named("own", crate::octets::PROJECT_TABLES, plan.own.len()),
            plan,
        }
    }

    /// The texts of a store's tables.
    pub fn tables(&self, store: Store) -> &[TableText] {
        match store {
            Store::Project => &self.project,
            Store::Own => &self.own,
        }
    }
}
