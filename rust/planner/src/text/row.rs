//! One line of a site's text, taken apart.

use super::messages::{found, shown, wrong, Wrong, CLOSING_QUOTE, PLAIN_LINE};

/// A word, a text in quotes, or a comma.
#[derive(Clone, Copy, Debug, PartialEq, Eq)]
pub enum Token<'a> {
    Word(&'a str),
    Quoted(&'a str),
    Comma,
}

impl<'a> Token<'a> {
    /// The word, or nothing where it is no word.
    pub fn word(&self) -> &'a str {
        match self {
            Token::Word(word) => word,
            _ => "",
        }
    }
}

/// A line that says something, so that it has a token.
#[derive(Debug)]
pub struct Row<'a> {
    /// Its number in the file, from 1.
    pub at: usize,
    /// Whether spaces or tabs stand before it.
    pub indented: bool,
    pub tokens: Vec<Token<'a>>,
}

impl<'a> Row<'a> {
    /// The word that it begins with, or nothing where that is no word.
    pub fn word(&self) -> &'a str {
        self.tokens[0].word()
    }

    /// What stands behind the first token.
    pub fn rest(&self) -> &[Token<'a>] {
        &self.tokens[1..]
    }
}

/// What stands between two commas, or at an end.
pub struct Part<'r, 'a> {
    pub tokens: &'r [Token<'a>],
    comma: Option<Token<'a>>,
}

impl<'a> Part<'_, 'a> {
    /// The word at a place, or nothing where there is none.
    pub fn word(&self, place: usize) -> &'a str {
        self.tokens.get(place).map_or("", Token::word)
    }

    /// What is found at a place, or in its stead.
    pub fn found(&self, place: usize) -> String {
        found(self.tokens.get(place).or(self.comma.as_ref()))
    }

    /// What is found behind all its tokens.
    pub fn found_behind(&self) -> String {
        self.found(self.tokens.len())
    }
}

/// The parts between commas. A comma too many leaves an empty part; of several such side by side there
/// is one.
pub fn parts<'r, 'a>(tokens: &'r [Token<'a>]) -> Vec<Part<'r, 'a>> {
    let ends = tokens.split_inclusive(|token| *token == Token::Comma);
    let mut parts: Vec<Part<'r, 'a>> = ends
        .map(|tokens| match tokens {
            [before @ .., Token::Comma] => part(before, Some(Token::Comma)),
            _ => part(tokens, None),
        })
        .collect();
    if matches!(tokens, [] | [.., Token::Comma]) {
        parts.push(part(&[], None));
    }
    parts.dedup_by(|next, part| next.tokens.is_empty() && part.tokens.is_empty());
    parts
}

fn part<'r, 'a>(tokens: &'r [Token<'a>], comma: Option<Token<'a>>) -> Part<'r, 'a> {
    Part { tokens, comma }
}

/// Takes a line apart: none if it is blank or a comment; and says what is wrong with it as a line.
pub fn row(at: usize, line: &str) -> (Option<Row<'_>>, Option<Wrong>) {
    let begin = line.trim_start();
    let (mut tokens, mut is_closed) = (Vec::new(), true);
    let mut rest = begin;
    while let Some(first) = rest.chars().next().filter(|first| *first != '#') {
        let (token, behind) = match first {
            ',' => (Token::Comma, &rest[1..]),
            '"' => match rest[1..].split_once('"') {
                Some((text, behind)) => (Token::Quoted(text), behind),
                None => {
                    is_closed = false;
                    (Token::Quoted(&rest[1..]), "")
                }
            },
            _ => {
                let (word, behind) = rest.split_at(rest.find(ends_word).unwrap_or(rest.len()));
                (Token::Word(word), behind)
            }
        };
        tokens.push(token);
        rest = behind.trim_start();
    }
    let row = Row {
        at,
        indented: begin.len() < line.len(),
        tokens,
    };
    let row = Some(row).filter(|row| !row.tokens.is_empty());
    (row, wrong_line(at, line, is_closed))
}

fn ends_word(character: char) -> bool {
    character.is_whitespace() || matches!(character, ',' | '"' | '#')
}

/// A line that breaks where the file does not would hide what follows, at worst in a comment.
fn wrong_line(at: usize, line: &str, is_closed: bool) -> Option<Wrong> {
    let is_foreign = |character: char| {
        character != '\t' && character.is_control() || "\u{2028}\u{2029}".contains(character)
    };
    match line.chars().find(|character| is_foreign(*character)) {
        Some(character) => Some(wrong(at, PLAIN_LINE, shown(&character.to_string()))),
        None if !is_closed => Some(wrong(at, CLOSING_QUOTE, found(None))),
        None => None,
    }
}
