//! What the bindings and the header say of themselves: an example for each call, and the same
//! calls, sizes and words in both.

use std::fs;
use std::path::Path;

use klumdray::{coupler, leak, station, tp1, tracer, tunnelling, Refusal};

const HEADER: &str = include_str!("../../../include/klumdray.h");
const RAW: &str = include_str!("../src/raw.rs");

/// Public functions of a source without an example in the comment above them, and how many there
/// are in all.
fn without_example(source: &str) -> (Vec<&str>, usize) {
    let lines: Vec<&str> = source.lines().map(str::trim).collect();
    let calls = (0..lines.len()).filter(|&place| lines[place].starts_with("pub fn "));
    let bare = calls.clone().filter(|&place| {
        let above = lines[..place].iter().rev();
        let mut comment =
            above.take_while(|line| line.starts_with("///") || line.starts_with("#["));
        !comment.any(|&line| line == "/// ```")
    });
    (bare.map(|place| lines[place]).collect(), calls.count())
}

#[test]
fn every_call_has_an_example() {
    let folder = Path::new(env!("CARGO_MANIFEST_DIR")).join("src");
    let mut calls = 0;
    for entry in fs::read_dir(folder).unwrap() {
        let path = entry.unwrap().path();
        let source = fs::read_to_string(&path).unwrap();
        let (bare, count) = without_example(&source);
        assert!(bare.is_empty(), "{}: no example: {bare:?}", path.display());
        calls += count;
    }
    assert!(calls >= 70, "only {calls} public functions found");
}

/// A source without its comments.
fn code(source: &str) -> String {
    let lines = source
        .lines()
        .map(|line| line.split("//").next().unwrap_or(""));
    lines.collect::<Vec<_>>().join("\n")
}

#[test]
fn the_bindings_are_for_boards_too() {
    let folder = Path::new(env!("CARGO_MANIFEST_DIR")).join("src");
    let root = fs::read_to_string(folder.join("lib.rs")).unwrap();
    assert!(code(&root).contains("#![no_std]"));
    for entry in fs::read_dir(folder).unwrap() {
        let path = entry.unwrap().path();
        let source = code(&fs::read_to_string(&path).unwrap());
        let words: Vec<&str> = source
            .split(|c: char| !c.is_alphanumeric() && c != '_')
            .collect();
        for word in ["std", "alloc"] {
            assert!(!words.contains(&word), "{}: {word}", path.display());
        }
    }
}

/// A number's type in Rust.
fn number(c: &str) -> &str {
    match c {
        "uint8_t" => "u8",
        "uint16_t" => "u16",
        "uint32_t" => "u32",
        "uint64_t" => "u64",
        "int64_t" => "i64",
        "size_t" => "usize",
        _ => panic!("the surface has no {c}"),
    }
}

/// A parameter of the header in Rust.
fn parameter(c: &str) -> String {
    let (kind, name) = c.rsplit_once(' ').expect("a type and a name");
    match (kind, name.strip_prefix('*')) {
        ("const uint8_t", Some(name)) => format!("{name}: *const u8"),
        ("uint8_t", Some(name)) => format!("{name}: *mut u8"),
        _ => format!("{name}: {}", number(kind)),
    }
}

fn on_one_line(text: &str) -> String {
    let words: Vec<&str> = text.split_whitespace().collect();
    words.join(" ")
}

/// The header's declarations of the library's calls, in Rust.
fn declarations() -> Vec<String> {
    let statements = HEADER.split(';').filter_map(|statement| {
        let begin = statement.rfind("\nuint")?;
        let (head, parameters) = statement[begin..].trim().split_once('(')?;
        let (kind, name) = head.split_once(" klumdray_")?;
        let parameters = on_one_line(parameters.strip_suffix(')')?);
        let parameters: Vec<String> = parameters.split(", ").map(parameter).collect();
        let parameters = parameters.join(", ");
        Some(format!(
            "fn klumdray_{name}({parameters}) -> {};",
            number(kind)
        ))
    });
    statements.collect()
}

#[test]
fn the_calls_are_the_headers() {
    let raw = on_one_line(RAW);
    let declared = declarations();
    for declaration in &declared {
        assert!(raw.contains(declaration), "not in raw.rs: {declaration}");
    }
    assert_eq!(declared.len(), raw.matches("fn klumdray_").count());
    assert_eq!(declared.len(), 23);
}

#[test]
fn the_sizes_are_the_headers() {
    let sizes = [
        ("FRAME", tp1::FRAME_SIZE),
        ("TABLE", coupler::TABLE_SIZE),
        ("SETTINGS", coupler::SETTINGS_SIZE),
        ("MEMORY", coupler::MEMORY_SIZE),
        ("ROOM", coupler::ROOM_SIZE),
        ("RECORD", tracer::RECORD_SIZE),
        ("LISTED", tracer::LISTED_SIZE),
        ("LIST_ROOM", tracer::LIST_ROOM_SIZE),
        ("CHANNEL", tunnelling::CHANNEL_SIZE),
        ("CHANNELS", tunnelling::CHANNELS_SIZE),
        ("ACK", tunnelling::ACKNOWLEDGEMENT_SIZE),
        ("TOTAL", leak::TOTAL_SIZE),
        ("STATION_MEMORY", station::MEMORY_SIZE),
    ];
    for (name, size) in sizes {
        assert_has(&format!("KLUMDRAY_{name}_SIZE = {size}"));
    }
    assert_has(&format!("KLUMDRAY_CHANNELS = {}", tunnelling::CHANNELS));
}

/// Asserts that the header has a constant with this value.
fn assert_has(wanted: &str) {
    let mut lines = HEADER.lines().map(|line| line.trim().trim_end_matches(','));
    assert!(lines.any(|line| line == wanted), "{wanted}");
}

#[test]
fn the_refusals_are_the_headers() {
    let (_, table) = HEADER.split_once("words[] = {").expect("the words");
    let (table, _) = table.split_once('}').expect("their end");
    let spoken: Vec<&str> = table
        .lines()
        .filter_map(|line| line.split('"').nth(1))
        .collect();
    assert_eq!(spoken[0], "not a refusal");
    for number in 1..=u8::MAX {
        let refusal = Refusal::from_number(number);
        let words = refusal.map_or("not a number of these calls", Refusal::words);
        let row = format!("\n *   {number:2}  {words}\n");
        assert_eq!(HEADER.contains(&row), refusal.is_some(), "{row}");
        let said = spoken.get(usize::from(number)).unwrap_or(&words);
        assert_eq!(*said, words, "of {number}");
    }
    let last = u8::try_from(spoken.len() - 1).expect("a number");
    assert!(Refusal::from_number(last).is_some());
    assert_eq!((last + 1..=u8::MAX).find_map(Refusal::from_number), None);
}

#[test]
fn the_acknowledgement_is_the_headers() {
    let octet = coupler::Acknowledgement::Acknowledged.octet();
    let row = format!("\n *   bits  8 to 15  acknowledgement: {octet:02X}h, or 0 for none\n");
    assert!(HEADER.contains(&row), "not in the header: {row}");
}

#[test]
fn the_reasons_are_the_headers() {
    use tracer::Reason::*;
    let of_the_code = [Closed, NotBelow, NotAbove, NotInTable];
    let before = [NotFitted, OwnAddress].into_iter();
    let reasons = before.chain(of_the_code).chain([CountUsedUp]);
    for (place, reason) in reasons.enumerate() {
        let row = format!("\n *                    {}  {reason}\n", place + 1);
        assert!(HEADER.contains(&row), "not in the header: {row}");
    }
}
