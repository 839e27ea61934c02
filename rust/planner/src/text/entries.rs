//! The lines of a filter table: group addresses and ranges of them.

use super::messages::{found, found_address, group_from, same_form, wrong, Wrong, Wrongs};
use super::messages::{AFTER_GROUP, AFTER_RANGE, GROUP};
use super::row::{parts, Part, Row, Token};
use crate::address::Group;

/// The entries of a line, with the faults of those that are none noted.
pub fn entries(row: &Row<'_>, wrongs: &mut Wrongs) -> Vec<(usize, Group, Group)> {
    let mut line = Line {
        at: row.at,
        first: None,
    };
    let parts = parts(&row.tokens).into_iter();
    let ranges = parts.filter_map(|part| wrongs.take(line.range(&part)));
    ranges.map(|(first, last)| (row.at, first, last)).collect()
}

/// A line, and its first address: the others have the same form. So `2/2/52-60` and `2/2/52, 53`,
/// whose second numbers would be groups 0/0/60 and 0/0/53, are not read as what they do not mean.
struct Line<'a> {
    at: usize,
    first: Option<&'a str>,
}

impl<'a> Line<'a> {
    /// `2/2/52` or `2/2/50 - 2/2/59`, also without the spaces.
    fn range(&mut self, part: &Part<'_, 'a>) -> Result<(Group, Group), Wrong> {
        let tokens: Vec<Token<'a>> = part.tokens.iter().flat_map(apart).collect();
        let [start, rest @ ..] = &tokens[..] else {
            return Err(wrong(self.at, GROUP, part.found(0)));
        };
        let first = self.group(start)?;
        let (stop, rest) = match rest {
            [] => return Ok((first, first)),
            [Token::Word("-")] => return Err(wrong(self.at, GROUP, part.found_behind())),
            [Token::Word("-"), stop, rest @ ..] => (stop, rest),
            [other, ..] => return Err(wrong(self.at, AFTER_GROUP, found(Some(other)))),
        };
        let last = self.group(stop)?;
        match rest.first() {
            Some(_) => Err(wrong(self.at, AFTER_RANGE, found(rest.first()))),
            None if last < first => {
                let expected = group_from(start.word());
                Err(wrong(self.at, expected, found(Some(stop))))
            }
            None => Ok((first, last)),
        }
    }

    fn group(&mut self, token: &Token<'a>) -> Result<Group, Wrong> {
        let word = token.word();
        let read = Group::read(word);
        let group = read.ok_or_else(|| wrong(self.at, GROUP, found_address(Some(token))))?;
        let first = *self.first.get_or_insert(word);
        if form(first) != form(word) {
            return Err(wrong(self.at, same_form(first), found(Some(token))));
        }
        Ok(group)
    }
}

/// Levels, and whether in hex.
fn form(address: &str) -> (usize, bool) {
    let levels = address.matches('/').count();
    (levels, address.ends_with(['h', 'H']))
}

/// The hyphen, and what editors make of it.
const HYPHENS: [char; 5] = ['-', '\u{2010}', '\u{2013}', '\u{2014}', '\u{2212}'];

/// A token taken apart: the hyphens of a word on their own.
fn apart<'a>(token: &Token<'a>) -> Vec<Token<'a>> {
    if token.word().is_empty() {
        return vec![*token];
    }
    let parts = token.word().split_inclusive(HYPHENS).flat_map(|part| {
        let word = part.trim_end_matches(HYPHENS);
        [word, &part[word.len()..]]
    });
    let words = parts.filter(|part| !part.is_empty());
    words.map(Token::Word).collect()
}
