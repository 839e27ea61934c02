//! Texts that are no site's: each draws faults with the right lines, one for each mistake.

mod support;

use inputs::{seed, Generator};
use planner::fault::Fault;
use planner::loading::{load_text, Failure};
use planner::text::read;
use std::collections::HashSet;
use support::broken::{all, GOOD};
use support::layouts::some_layout;
use support::sites::some_site;

const DAMAGED: u64 = 20_000;

fn faults(octets: &[u8]) -> Vec<Fault> {
    read("some.site", octets).err().unwrap_or_default()
}

#[test]
fn each_mistake_draws_one_fault_at_its_line() {
    assert_eq!(faults(GOOD.join("\n").as_bytes()), []);
    let mut different = HashSet::new();
    let mut wrong = Vec::new();
    for (text, line, expected, found) in all() {
        let octets = text.octets();
        let faults = faults(&octets);
        let is_right = match &faults[..] {
            [fault] => {
                fault.line == Some(*line)
                    && fault.expected.contains(expected)
                    && fault.found.contains(found)
            }
            _ => false,
        };
        if !is_right {
            let drawn: Vec<String> = faults.iter().map(Fault::to_string).collect();
            wrong.push(format!("{line}: {expected}, {found}: {drawn:#?}"));
        }
        different.insert(octets);
    }
    assert!(wrong.is_empty(), "{}", wrong.join("\n"));
    assert!(different.len() >= 200, "only {}", different.len());
}

/// No message of the reader goes without a text that draws it.
#[test]
fn each_message_is_drawn() {
    let faults: Vec<Fault> = all()
        .flat_map(|(text, ..)| faults(&text.octets()))
        .collect();
    let drawn = faults
        .iter()
        .flat_map(|fault| [&fault.expected, &fault.found]);
    let drawn: Vec<&String> = drawn.collect();
    let messages = literals(include_str!("../src/text/messages.rs"));
    assert!(messages.len() > 40, "only {}", messages.len());
    for message in messages {
        let is_drawn = drawn.iter().any(|drawn| fits(drawn, &message));
        assert!(is_drawn, "no text draws {message:?}");
    }
}

/// What is not among the messages would go unseen there.
#[test]
fn all_messages_are_in_one_place() {
    for source in [
        include_str!("../src/text/blocks.rs"),
        include_str!("../src/text/couplers.rs"),
        include_str!("../src/text/entries.rs"),
        include_str!("../src/text/read.rs"),
        include_str!("../src/text/row.rs"),
        include_str!("../src/text/settings.rs"),
        include_str!("../src/text/tables.rs"),
    ] {
        for literal in literals(&source.replace("'\"'", "''")) {
            assert!(!literal.contains([' ', '\'']), "{literal:?}");
        }
    }
}

/// Whether a message is made from a pattern with `{..}` in it.
fn fits(message: &str, pattern: &str) -> bool {
    let mut rest = message;
    pattern.split('{').enumerate().all(|(place, part)| {
        let part = match place {
            0 => part,
            _ => part.split_once('}').map_or(part, |(_, behind)| behind),
        };
        let behind = rest.split_once(part).map(|(_, behind)| behind);
        rest = behind.unwrap_or_default();
        behind.is_some()
    })
}

/// The texts in quotes of a source, comments aside.
fn literals(source: &str) -> Vec<String> {
    let lines = source
        .lines()
        .filter(|line| !line.trim_start().starts_with("//"));
    let source = lines.collect::<Vec<_>>().join("\n");
    let mut characters = source.chars();
    let mut literals = Vec::new();
    while characters.any(|character| character == '"') {
        literals.push(literal(&mut characters));
    }
    literals
}

fn literal(characters: &mut std::str::Chars<'_>) -> String {
    let mut text = String::new();
    while let Some(character) = characters.next().filter(|character| *character != '"') {
        match character {
            '\\' => match characters.next() {
                Some('\n') => *characters = characters.as_str().trim_start().chars(),
                escaped => text.extend(escaped),
            },
            _ => text.push(character),
        }
    }
    text
}

const MISTAKES: &str = "\
    Site \"Plant\"\n\
    coupler 4.7 boiler house\n\
    \x20   down individual opne, broadcast filter, groups 0-12 open\n\
    \x20   up all open\n\
    \x20   table leek\n\
    table leak\n\
    \x20   1/1/1, 1/1/256, 1/1/3 - 1/1/2\n\
    \x20   5/9/1\n\
    coupler 4.8\n\
    \x20   up all open\n\
    coupler 4.9\n\
    \x20   both all\n\
    \x20   table leak leak\n";

#[test]
fn all_mistakes_are_told_from_the_first_line_to_the_last() {
    let drawn: Vec<String> = faults(MISTAKES.as_bytes())
        .iter()
        .map(Fault::to_string)
        .collect();
    let group =
        "a group address, as in 2/2/52 (up to 31/7/255), 2/564 (up to 31/2047), 4660 (up to \
         65535) or 1234h";
    let expected = [
        "1: expected 'site', 'table', 'project table' or 'coupler', found 'Site'",
        "2: expected a label in straight quotes, as in \"boiler house\", or the end of the line, \
         found 'boiler'",
        "3: expected 'closed', 'filter' or 'open', found 'opne'",
        "3: expected '0-13', '14-31', 'closed', 'filter' or 'open', found '0-12'",
        &format!("7: expected {group}, found '1/1/256'"),
        "7: expected a group from 1/1/3 on, found '1/1/2'",
        &format!("8: expected {group}, found '5/9/1'"),
        "9: expected a line 'down' below, found none",
        "12: expected 'closed', 'filter' or 'open', found the end of the line",
    ];
    assert_eq!(drawn, expected.map(|fault| format!("some.site:{fault}")));
    // With a title that can be read, it is clear that no table 'leek' is there.
    let drawn = faults(MISTAKES.replace("Site", "site").as_bytes());
    let of_tables: Vec<_> = drawn.iter().map(|fault| fault.line).collect();
    assert_eq!(of_tables, [2, 3, 3, 5, 7, 7, 8, 9, 12, 13].map(Some));
}

/// Texts damaged by chance: nobody panics, and a fault's line lies within the text.
#[test]
fn damaged_texts_are_read_or_draw_faults() {
    let generator = &mut Generator::new(seed());
    let (mut refused, mut read_still) = (0, 0);
    for _ in 0..DAMAGED {
        let mut octets = some_text(generator);
        for _ in 0..=generator.below(2) {
            damage(generator, &mut octets);
        }
        let lines = octets.split(|octet| *octet == b'\n').count();
        match load_text("some.site", &octets) {
            Err(Failure::Faulty(faults)) => {
                let at: Vec<usize> = faults.iter().filter_map(|fault| fault.line).collect();
                assert!(at.is_sorted() && at.len() == faults.len() && !at.is_empty());
                assert!(at.iter().all(|at| (1..=lines).contains(at)), "{at:?}");
                refused += 1;
            }
            Err(Failure::Refused(site)) => assert!((1..=lines).contains(&site.line)),
            Err(Failure::Broken) => panic!("{}", String::from_utf8_lossy(&octets)),
            Ok(_) => read_still += 1,
        }
    }
    println!("{refused} faulty, {read_still} read of {DAMAGED}");
    assert!(refused > DAMAGED / 2 && read_still > DAMAGED / 20);
}

/// The good text, or a small site's in some layout.
fn some_text(generator: &mut Generator) -> Vec<u8> {
    if generator.below(2) == 0 {
        return GOOD.join("\n").into_bytes();
    }
    let mut plan = some_site(generator);
    plan.couplers.truncate(6);
    plan.couplers
        .retain(|coupler| coupler.table.is_none_or(|table| table.place < 3));
    plan.project.truncate(3);
    plan.own.truncate(3);
    some_layout(generator, plan).0.into_bytes()
}

/// Deletes, doubles, inserts or changes octets; some of what is inserted means something.
fn damage(generator: &mut Generator, octets: &mut Vec<u8>) {
    let start = generator.below(octets.len() + 1);
    let end = octets.len().min(start + generator.one_of(&[0, 1, 1, 2, 8]));
    let words = [
        "coupler", "table", "\n", "\r", " ", "\"", "#", ",", "-", "4.7", "2/2/52", "all",
        "\u{2028}",
    ];
    let inserted = match generator.below(6) {
        0 => Vec::new(),
        1 => octets[start..end].repeat(2),
        2 => [&octets[start..end], &generator.octets(2)].concat(),
        3 => [
            octets[start..end].to_vec(),
            vec![b' ' + generator.octet() % 96],
        ]
        .concat(),
        _ => [generator.one_of(&words).as_bytes(), &octets[start..end]].concat(),
    };
    octets.splice(start..end, inserted);
}

/// docs/SITE-TEXT.md shows a site, and a text with what is wrong with it.
#[test]
fn the_page_shows_what_is_read_and_told() {
    let page = include_str!("../../../docs/SITE-TEXT.md");
    let blocks: Vec<&str> = page.split("```").skip(1).step_by(2).collect();
    let [site, broken, told] = blocks[..] else {
        panic!("{} blocks", blocks.len());
    };
    let text = |block: &str| block.strip_prefix("text\n").expect("a text").to_string();
    let site = load_text("plant.site", text(site).as_bytes()).expect("a well-formed site");
    let plan = &site.text.plan;
    assert_eq!(
        (plan.couplers.len(), plan.project.len(), plan.own.len()),
        (3, 1, 1)
    );
    let faults = read("plant.site", text(broken).as_bytes()).unwrap_err();
    let drawn: String = faults.iter().map(|fault| format!("{fault}\n")).collect();
    assert_eq!(drawn, text(told));
}
