//! SVG, written: elements, and texts that are escaped and cut to the room they have.

use std::fmt::{Display, Write};

/// An element's attributes: names and values.
pub type Attributes<'a> = [(&'a str, &'a dyn Display)];

/// The elements written so far.
#[derive(Default)]
pub struct Svg {
    written: String,
    depth: usize,
}

/// Where a text's point lies on it.
#[derive(Clone, Copy)]
pub enum Anchor {
    /// At its start.
    Start,
    /// In its middle.
    Middle,
    /// At its end.
    End,
}

/// How a text looks.
#[derive(Clone, Copy)]
pub struct Letters {
    /// The size of the font.
    pub size: i32,
    /// Whether it is bold.
    pub bold: bool,
    /// Where its point lies on it.
    pub anchor: Anchor,
}

/// A point; x goes to the right, y down.
#[derive(Clone, Copy, Debug, PartialEq, Eq)]
pub struct Point {
    /// From the left edge.
    pub x: i32,
    /// From the upper edge.
    pub y: i32,
}

impl Point {
    /// The point so far to the right and so far down from this one.
    pub fn moved(self, right: i32, down: i32) -> Point {
        Point {
            x: self.x + right,
            y: self.y + down,
        }
    }
}

impl Svg {
    /// What is written.
    pub fn into_text(self) -> String {
        self.written
    }

    /// An element with nothing in it.
    pub fn element(&mut self, name: &str, attributes: &Attributes<'_>) {
        self.row(&format!("<{name}{}/>", written(attributes)));
    }

    /// An element with a text in it.
    pub fn text_element(&mut self, name: &str, attributes: &Attributes<'_>, text: &str) {
        let attributes = written(attributes);
        self.row(&format!("<{name}{attributes}>{}</{name}>", escaped(text)));
    }

    /// An element with others in it.
    pub fn group(
        &mut self,
        name: &str,
        attributes: &Attributes<'_>,
        inside: impl FnOnce(&mut Svg),
    ) {
        self.row(&format!("<{name}{}>", written(attributes)));
        self.depth += 1;
        inside(self);
        self.depth -= 1;
        self.row(&format!("</{name}>"));
    }

    /// A text on its base line; nothing for no text.
    pub fn text(&mut self, at: Point, letters: Letters, text: &str) {
        if text.is_empty() {
            return;
        }
        let anchor = match letters.anchor {
            Anchor::Start => "start",
            Anchor::Middle => "middle",
            Anchor::End => "end",
        };
        let weight = if letters.bold { "bold" } else { "normal" };
        self.text_element(
            "text",
            &[
                ("x", &at.x),
                ("y", &at.y),
                ("font-size", &letters.size),
                ("font-weight", &weight),
                ("text-anchor", &anchor),
            ],
            text,
        );
    }

    fn row(&mut self, row: &str) {
        self.written.extend((0..self.depth).map(|_| ' '));
        self.written.push_str(row);
        self.written.push('\n');
    }
}

fn written(attributes: &Attributes<'_>) -> String {
    let mut text = String::new();
    for (name, value) in attributes {
        // Writing to a string does not fail.
        let _ = write!(text, " {name}=\"{}\"", escaped(&value.to_string()));
    }
    text
}

/// A text as it stands in XML, which has no control characters, nor FFFEh and FFFFh.
fn escaped(text: &str) -> String {
    let mut safe = String::new();
    for character in text.chars() {
        match character {
            '<' => safe.push_str("&lt;"),
            '>' => safe.push_str("&gt;"),
            '&' => safe.push_str("&amp;"),
            '"' => safe.push_str("&quot;"),
            '\u{fffe}' | '\u{ffff}' => safe.push('\u{fffd}'),
            _ if character.is_control() => safe.push('\u{fffd}'),
            _ => safe.push(character),
        }
    }
    safe
}

/// A text that fits into a room: whole, or its beginning and an ellipsis.
pub fn cut(text: &str, letters: Letters, room: i32) -> String {
    if width(text, letters) <= room.into() {
        return text.into();
    }
    let room = i64::from(room) - width("…", letters);
    let beginnings = text.char_indices().map(|(end, _)| text[..end].trim_end());
    let fitting = beginnings.take_while(|beginning| width(beginning, letters) <= room);
    format!("{}…", fitting.last().unwrap_or_default())
}

/// How wide a text is at the most: no common sans-serif font is wider than this.
fn width(text: &str, letters: Letters) -> i64 {
    let hundredths: i64 = text.chars().map(hundredths).sum();
    let heavier = if letters.bold { 112 } else { 100 };
    (hundredths * i64::from(letters.size) * heavier + 9_999) / 10_000
}

/// A character's width in hundredths of the font's size.
fn hundredths(character: char) -> i64 {
    match character {
        'i' | 'j' | 'l' | 'I' | 'f' | 't' | 'r' | ' ' | '.' | ',' | ':' | ';' | '\'' | '|'
        | '!' | '(' | ')' | '[' | ']' | '-' | '/' => 45,
        'm' | 'w' | 'M' | 'W' | '@' | '%' | '&' => 102,
        'a'..='z' | '0'..='9' | 'ß'..='å' | 'ç'..='ö' | 'ø'..='ÿ' => 66,
        '\0'..='\u{7f}' | 'À'..='Å' | 'Ç'..='Ö' | 'Ø'..='Þ' => 86,
        '…' | '\u{80}'..='\u{17f}' | '\u{3000}'..='\u{9fff}' | '\u{ac00}'..='\u{d7a3}' => 108,
        _ => 143,
    }
}
