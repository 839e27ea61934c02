//! Lines of a text: a frame in hex, with a time before it or without.

use crate::arguments::quoted;
use crate::calendar::{Moment, Offset};
use crate::hex;

/// A line with a frame.
#[derive(Clone, Debug, PartialEq, Eq)]
pub struct Line {
    /// When it was heard, if the line says so.
    pub time: Option<Moment>,
    /// The frame's octets.
    pub octets: Vec<u8>,
}

/// What was expected in a line, and what was found.
#[derive(Clone, Debug, PartialEq, Eq)]
pub struct Unreadable {
    /// What was expected.
    pub expected: &'static str,
    /// What was found.
    pub found: String,
}

const HEX: &str = "two hex digits for each octet of a frame, and nothing or a time before them";
const TIME: &str = "a time such as 2026-11-16T15:40:35Z or 1731771635.250";
const FRAME: &str = "a frame in hex behind the time";

/// Reads a line; none where it is blank or a comment. A time without a zone is by the place's clock.
///
/// ```
/// use planner::calendar::Offset;
/// use planner::telegrams::lines::read;
/// let line = |text| read(text, Offset::UTC).unwrap().unwrap();
/// let with_time = line("2026-11-16 15:40:35 BC 00  # a date and a time, not hex");
/// assert_eq!(with_time.octets, [0xbc, 0x00]);
/// assert_eq!(with_time.time, line("2026-11-16T16:40:35+01:00 bc00").time);
/// assert_eq!(with_time.time, line("1794843635.0 BC-00").time);
/// assert_eq!(line("20 26 11 16").time, None);
/// assert_eq!(read("  # nothing", Offset::UTC), Ok(None));
/// assert!(read("2026-13-01T00:00:00Z BC", Offset::UTC).is_err());
/// ```
pub fn read(text: &str, place: Offset) -> Result<Option<Line>, Unreadable> {
    let text = text.split('#').next().unwrap_or_default().trim();
    if text.is_empty() {
        return Ok(None);
    }
    let (time, frame) = timed(text, place)?;
    match hex::read(frame) {
        Ok(octets) if octets.is_empty() => Err(unreadable(FRAME, "the end of the line")),
        Ok(octets) => Ok(Some(Line { time, octets })),
        Err(word) => Err(unreadable(HEX, &shortly(word))),
    }
}

/// The time that a line begins with, and the rest.
fn timed(text: &str, place: Offset) -> Result<(Option<Moment>, &str), Unreadable> {
    let (word, rest) = first_word(text);
    if !word.starts_with(|first: char| first.is_ascii_digit()) {
        return Ok((None, text));
    }
    let (time, rest) = match word.split_once('T') {
        Some((date, time)) => (Moment::read(date, time, place), rest),
        None if word.contains('.') => (Moment::read_seconds(word), rest),
        None if is_date(word) && is_time(first_word(rest).0) => {
            let (time, rest) = first_word(rest);
            (Moment::read(word, time, place), rest)
        }
        None => return Ok((None, text)),
    };
    match time {
        Some(time) => Ok((Some(time), rest)),
        None => Err(unreadable(TIME, &shortly(word))),
    }
}

fn first_word(text: &str) -> (&str, &str) {
    let (word, rest) = text.split_once(char::is_whitespace).unwrap_or((text, ""));
    (word, rest.trim_start())
}

/// Four digits, two and two with hyphens between them: octets are not written so.
fn is_date(word: &str) -> bool {
    has_shape(word, "0000-00-00") && word.len() == 10
}

fn is_time(word: &str) -> bool {
    has_shape(word, "00:00:00")
}

/// Whether a word begins as a shape does, where 0 stands for any digit.
fn has_shape(word: &str, shape: &str) -> bool {
    let is_like = |(own, like): (u8, u8)| match like {
        b'0' => own.is_ascii_digit(),
        like => own == like,
    };
    word.len() >= shape.len() && word.bytes().zip(shape.bytes()).all(is_like)
}

fn unreadable(expected: &'static str, found: &str) -> Unreadable {
    Unreadable {
        expected,
        found: found.into(),
    }
}

/// The beginning of a word that may be as long as a line.
fn shortly(word: &str) -> String {
    const LONGEST: usize = 24;
    match word.char_indices().nth(LONGEST) {
        Some((end, _)) => quoted(&format!("{}..", &word[..end])),
        None => quoted(word),
    }
}
