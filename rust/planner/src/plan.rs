//! A site as a planner sees it: couplers with their settings in words, and filter tables as sets of
//! group addresses. It says what the records and the two stores say, no more and no less.

use crate::address::{Group, Line};
use std::fmt;

/// A direction through a coupler, in the order of the two rows of codes.
#[derive(Clone, Copy, Debug, PartialEq, Eq, PartialOrd, Ord, Hash)]
pub enum Direction {
    /// Main to sub.
    Down,
    /// Sub to main.
    Up,
}

impl Direction {
    /// Both, in the order of the rows.
    pub const ALL: [Direction; 2] = [Direction::Down, Direction::Up];
}

impl fmt::Display for Direction {
    fn fmt(&self, f: &mut fmt::Formatter<'_>) -> fmt::Result {
        f.pad(match self {
            Direction::Down => "down",
            Direction::Up => "up",
        })
    }
}

/// A class of addresses, in the order of the codes in a row.
#[derive(Clone, Copy, Debug, PartialEq, Eq, PartialOrd, Ord, Hash)]
pub enum Class {
    /// Individual addresses.
    Individual,
    /// Broadcast.
    Broadcast,
    /// Groups 0001h to 6FFFh.
    LowerGroups,
    /// Groups 7000h to FFFFh.
    UpperGroups,
}

impl Class {
    /// All four, in the order of the codes.
    pub const ALL: [Class; 4] = [
        Class::Individual,
        Class::Broadcast,
        Class::LowerGroups,
        Class::UpperGroups,
    ];
}

/// As planners know them: the two classes of groups are told apart by their main groups.
impl fmt::Display for Class {
    fn fmt(&self, f: &mut fmt::Formatter<'_>) -> fmt::Result {
        f.pad(match self {
            Class::Individual => "individual",
            Class::Broadcast => "broadcast",
            Class::LowerGroups => "groups 0-13",
            Class::UpperGroups => "groups 14-31",
        })
    }
}

/// A setting, in the order of its codes.
#[derive(Clone, Copy, Debug, PartialEq, Eq, PartialOrd, Ord, Hash)]
pub enum Setting {
    /// Code 0.
    Closed,
    /// Code 1.
    Filter,
    /// Code 2.
    Open,
}

impl Setting {
    /// All three, in the order of their codes.
    pub const ALL: [Setting; 3] = [Setting::Closed, Setting::Filter, Setting::Open];
}

impl fmt::Display for Setting {
    fn fmt(&self, f: &mut fmt::Formatter<'_>) -> fmt::Result {
        f.pad(match self {
            Setting::Closed => "closed",
            Setting::Filter => "filter",
            Setting::Open => "open",
        })
    }
}

/// One of the two stores that filter tables lie in.
#[derive(Clone, Copy, Debug, PartialEq, Eq, PartialOrd, Ord, Hash)]
pub enum Store {
    /// The project store: "0 to 127 count in the project store".
    Project,
    /// The site's own store: "128 to 254 in the site's own store from its start".
    Own,
}

/// A filter table by its store and its place there, from 0.
#[derive(Clone, Copy, Debug, PartialEq, Eq, PartialOrd, Ord, Hash)]
pub struct TableAt {
    /// The store.
    pub store: Store,
    /// The place in the store.
    pub place: usize,
}

/// A coupler and its settings.
#[derive(Clone, Copy, Debug, PartialEq, Eq)]
pub struct Coupler {
    /// Its own line, which is its sub side.
    pub line: Line,
    /// A row for each direction, with a setting for each class.
    pub settings: [[Setting; 4]; 2],
    /// Its filter table, if it names one.
    pub table: Option<TableAt>,
}

impl Coupler {
    /// The setting of a class in a direction.
    pub fn setting(&self, direction: Direction, class: Class) -> Setting {
        self.settings[direction as usize][class as usize]
    }
}

/// A set of group addresses as rising ranges, both ends in, no two of which touch: so equal sets are
/// equal values.
#[derive(Clone, Debug, Default, PartialEq, Eq)]
pub struct Groups(Vec<(Group, Group)>);

impl Groups {
    /// The groups of the ranges given, which may overlap and stand in any order; one whose last group
    /// comes before its first has none.
    ///
    /// ```
    /// use planner::address::Group;
    /// use planner::plan::Groups;
    /// let groups = Groups::new(vec![(Group(7), Group(9)), (Group(1), Group(4)), (Group(5), Group(7))]);
    /// assert_eq!(groups.ranges(), [(Group(1), Group(9))]);
    /// ```
    pub fn new(mut ranges: Vec<(Group, Group)>) -> Groups {
        ranges.retain(|(first, last)| first <= last);
        ranges.sort();
        let mut apart: Vec<(Group, Group)> = Vec::new();
        for (first, last) in ranges {
            match apart.last_mut() {
                Some(before) if first.0 <= before.1 .0.saturating_add(1) => {
                    before.1 = before.1.max(last);
                }
                _ => apart.push((first, last)),
            }
        }
        Groups(apart)
    }

    /// The ranges, rising.
    pub fn ranges(&self) -> &[(Group, Group)] {
        &self.0
    }

    /// How many groups there are.
    pub fn count(&self) -> usize {
        let sizes = self.0.iter().map(|(first, last)| last.0 - first.0);
        sizes.map(|size| usize::from(size) + 1).sum()
    }
}

/// A site: its couplers in the order of the records, and the filter tables of both stores.
#[derive(Clone, Debug, Default, PartialEq, Eq)]
pub struct Plan {
    /// The couplers.
    pub couplers: Vec<Coupler>,
    /// The tables of the project store.
    pub project: Vec<Groups>,
    /// The tables of the site's own store.
    pub own: Vec<Groups>,
}

impl Plan {
    /// The tables of a store.
    pub fn tables(&self, store: Store) -> &[Groups] {
        match store {
            Store::Project => &self.project,
            Store::Own => &self.own,
        }
    }

    /// Whether a table is there.
    pub fn has(&self, table: TableAt) -> bool {
        table.place < self.tables(table.store).len()
    }
}
