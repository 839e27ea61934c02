//! What the reader says of a text that it cannot read. All words of its messages stand here.

use super::row::Token;
use crate::arguments::quoted;
use crate::plan::Store;
use std::collections::HashSet;

/// What is wrong at a line: what was expected there, and what was found.
pub struct Wrong {
    pub at: usize,
    pub expected: String,
    pub found: String,
}

pub fn wrong(at: usize, expected: impl Into<String>, found: impl Into<String>) -> Wrong {
    Wrong {
        at,
        expected: expected.into(),
        found: found.into(),
    }
}

/// All that is wrong with a text.
#[derive(Default)]
pub struct Wrongs {
    wrongs: Vec<Wrong>,
    /// The lines that are wrong as lines.
    spoilt: HashSet<usize>,
}

impl Wrongs {
    /// Notes what is wrong with a line as a line. Of what it says nothing is noted any more: it may
    /// follow from that.
    pub fn spoil(&mut self, wrong: Wrong) {
        let at = wrong.at;
        self.add(wrong);
        self.spoilt.insert(at);
    }

    pub fn add(&mut self, wrong: Wrong) {
        if !self.spoilt.contains(&wrong.at) {
            self.wrongs.push(wrong);
        }
    }

    /// What was read, or none with a note why.
    pub fn take<T>(&mut self, read: Result<T, Wrong>) -> Option<T> {
        read.map_err(|wrong| self.add(wrong)).ok()
    }

    pub fn is_empty(&self) -> bool {
        self.wrongs.is_empty()
    }

    /// All, from the first line to the last.
    pub fn sorted(mut self) -> Vec<Wrong> {
        self.wrongs.sort_by_key(|wrong| wrong.at);
        self.wrongs
    }
}

pub const UTF_8: &str = "a text in UTF-8";
pub const PLAIN_LINE: &str = "no control character but tabs, and lines that end in LF or CR LF";
pub const CLOSING_QUOTE: &str = "a closing '\"'";
pub const BLOCKS: &str = "'site', 'table', 'project table' or 'coupler'";
pub const NOTHING_ABOVE: &str = "an indented line with nothing above it";
pub const TABLE: &str = "'table'";
pub const TITLE: &str = "a title in straight quotes, as in \"Heating plant\"";
pub const ONE_TITLE: &str = "one title";
pub const BELOW_TITLE: &str = "an indented line below 'site'";
pub const NAME: &str = "a table's name: a letter, then letters, digits, '-', '_' or '.'";
pub const KNOWN_NAME: &str = "the name of a table in this file";
pub const ONE_TABLE: &str = "one table";
pub const LINE: &str = "the coupler's line, as in 4.7, area and line from 0 to 15";
pub const LABEL: &str =
    "a label in straight quotes, as in \"boiler house\", or the end of the line";
pub const ROWS: &str = "'down', 'up', 'both' or 'table'";
pub const BOTH_DIRECTIONS: &str = "the lines 'down' and 'up', or 'both', below";
pub const CLASSES: &str = "'individual', 'broadcast', 'groups' or 'all'";
pub const GROUPS: &str = "'0-13', '14-31', 'closed', 'filter' or 'open'";
pub const SETTINGS: &str = "'closed', 'filter' or 'open'";
pub const AFTER_SETTING: &str = "',' or the end of the line";
pub const GROUP: &str = "a group address, as in 2/2/52 (up to 31/7/255), 2/564 (up to 31/2047), \
     4660 (up to 65535) or 1234h";
pub const AFTER_GROUP: &str = "'-', ',' or the end of the line";
pub const AFTER_RANGE: &str = "',' or the end of the line, after a range";
pub const END: &str = "the end of the line";
pub const NONE: &str = "none";
pub const SOME: &str = "some";
pub const SECOND: &str = "a second one";

pub fn octet(octet: u8) -> String {
    format!("the octet {octet:02X}h")
}

pub fn spaces_before(word: &str) -> String {
    format!("spaces or a tab before {}", shown(word))
}

pub fn no_spaces_before(word: &str) -> String {
    format!("no spaces or tabs before {}", shown(word))
}

pub fn most_tables(store: Store, most: usize) -> String {
    match store {
        Store::Project => format!("at most {most} project tables"),
        Store::Own => format!("at most {most} tables besides those of the project"),
    }
}

pub fn one_more(most: usize) -> String {
    format!("table {}", most + 1)
}

pub fn other_name(name: &str) -> String {
    format!("a name other than '{name}'")
}

/// Of a table without entries: its line is perhaps a coupler's.
pub fn other_name_or_spaces(name: &str) -> String {
    format!("spaces or a tab before 'table', or a name other than '{name}'")
}

pub fn name_of_line(at: usize) -> String {
    format!("the name of the table at line {at}")
}

pub fn direction_below(direction: &str) -> String {
    format!("a line '{direction}' below")
}

pub fn once(direction: &str) -> String {
    format!("'{direction}' once")
}

pub fn second_after(before: usize) -> String {
    format!("a second one; line {before} has the first")
}

pub fn one_setting(class: &str) -> String {
    format!("one setting for {class}")
}

pub fn setting_for(classes: &[String]) -> String {
    format!("a setting for {}", classes.join(" and "))
}

pub fn same_form(first: &str) -> String {
    format!("a group address in the form of {first}, as the first in its line")
}

pub fn group_from(first: &str) -> String {
    format!("a group from {first} on")
}

/// What a message says was found.
pub fn found(token: Option<&Token<'_>>) -> String {
    match token {
        None => END.into(),
        Some(Token::Comma) => "','".into(),
        Some(Token::Word(word)) => shown(word),
        Some(Token::Quoted(text)) => format!("the text {}", shown(text)),
    }
}

/// What is found in an address's place. Zeros in front are named: they are easily overlooked.
pub fn found_address(token: Option<&Token<'_>>) -> String {
    let word = token.map_or("", Token::word);
    let mut numbers = word.split(|digit: char| !digit.is_ascii_digit());
    if numbers.any(|number| number.len() > 1 && number.starts_with('0')) {
        format!("{} with a leading zero", found(token))
    } else {
        found(token)
    }
}

/// A word in quotes, without the rest of a very long one.
pub fn shown(word: &str) -> String {
    match word.char_indices().nth(40) {
        Some((end, _)) => format!("{}..", quoted(&word[..end])),
        None => quoted(word),
    }
}
