//! The lines of a site's text as blocks: what begins a line begins a block, the indented lines below
//! belong to it. Where the spaces are wrong and the words leave no doubt, the words decide, so that
//! one wrong line does not make those around it wrong.

use super::messages::{no_spaces_before, spaces_before, wrong, Wrong, Wrongs};
use super::messages::{BLOCKS, NONE, NOTHING_ABOVE, SOME};
use super::row::Row;

pub struct Block<'a> {
    pub head: Row<'a>,
    pub body: Vec<Row<'a>>,
}

/// Puts lines together to blocks, and notes those with wrong spaces before them.
pub fn blocks<'a>(rows: Vec<Row<'a>>, wrongs: &mut Wrongs) -> Vec<Block<'a>> {
    let mut blocks: Vec<Block<'a>> = Vec::new();
    for row in rows {
        let begins = begins_block(&row, blocks.last().map(|block| block.head.word()));
        if begins == row.indented {
            wrongs.spoil(wrong_spaces(&row));
        }
        match blocks.last_mut() {
            Some(block) if !begins => block.body.push(row),
            _ => blocks.push(Block {
                head: row,
                body: Vec::new(),
            }),
        }
    }
    blocks
}

/// `above` is the word that the block above begins with.
fn begins_block(row: &Row<'_>, above: Option<&str>) -> bool {
    match (row.word(), above) {
        (_, None) | ("coupler" | "site", _) => true,
        ("table" | "project", Some("site" | "table" | "project")) => true,
        ("down" | "up" | "both", Some("coupler")) => false,
        (word, Some("table" | "project")) if is_number(word) => false,
        _ => !row.indented,
    }
}

/// Whether a word begins as an address does.
pub fn is_number(word: &str) -> bool {
    word.starts_with(|digit: char| digit.is_ascii_digit())
}

fn wrong_spaces(row: &Row<'_>) -> Wrong {
    match row.word() {
        word if !row.indented => wrong(row.at, spaces_before(word), NONE),
        word @ ("site" | "table" | "project" | "coupler") => {
            wrong(row.at, no_spaces_before(word), SOME)
        }
        _ => wrong(row.at, BLOCKS, NOTHING_ABOVE),
    }
}
