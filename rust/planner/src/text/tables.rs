//! The names of filter tables.

use super::messages::{found, wrong, Wrong, END, KNOWN_NAME, NAME};
use super::row::{Row, Token};
use crate::plan::TableAt;
use std::collections::HashMap;

/// The tables of a file by their names.
#[derive(Default)]
pub struct Names<'a> {
    tables: HashMap<&'a str, Named>,
    /// Whether a block cannot be read that is perhaps a table's. Then no coupler is blamed for the name
    /// of a table that is not there.
    pub has_gap: bool,
}

/// Where a table is, at which line of the file, and whether it has no entries.
#[derive(Clone, Copy)]
pub struct Named {
    pub table: TableAt,
    pub at: usize,
    pub is_empty: bool,
}

impl<'a> Names<'a> {
    /// The table that has this name already, else it is noted.
    pub fn add(&mut self, name: &'a str, named: Named) -> Option<Named> {
        match self.tables.get(name) {
            Some(before) => Some(*before),
            None => self.tables.insert(name, named),
        }
    }

    /// The table that a coupler's line names after the word `table`.
    pub fn table(&self, row: &Row<'_>) -> Result<Option<TableAt>, Wrong> {
        let named = name_of(row.rest(), row.at).and_then(|name| {
            let named = self.tables.get(name);
            named.ok_or_else(|| wrong(row.at, KNOWN_NAME, found(row.rest().first())))
        });
        match named {
            Err(_) if self.has_gap => Ok(None),
            named => named.map(|named| Some(named.table)),
        }
    }
}

/// A table's name, which ends its line.
pub fn name_of<'a>(rest: &[Token<'a>], at: usize) -> Result<&'a str, Wrong> {
    match rest {
        [Token::Word(name)] if is_name(name) => Ok(name),
        [Token::Word(name), other, ..] if is_name(name) => Err(wrong(at, END, found(Some(other)))),
        _ => Err(wrong(at, NAME, found(rest.first()))),
    }
}

fn is_name(name: &str) -> bool {
    let is_part = |part: char| part.is_alphanumeric() || "-_.".contains(part);
    name.starts_with(char::is_alphabetic) && name.chars().all(is_part)
}
