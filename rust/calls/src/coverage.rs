//! Tests that a table is about something: every function, every number, every outcome.

use crate::answer::{Answer, MEMORY_SIZE};
use crate::call::{Function, FUNCTIONS};
use crate::numbers::ranges;
use crate::reader::{kinds, Reader, Row};
use crate::rounds::{table, Options};
use inputs::USUAL_SEED;
use reference::{tp1, Meaning};
use std::collections::{BTreeMap, BTreeSet};

mod leak;
mod tunnelling;

/// As tools/check-boards asks for it.
const SHORT: Options = Options {
    count: 11_000,
    seed: USUAL_SEED,
    is_small: false,
    wrong: None,
};

const SMALL: Options = Options {
    is_small: true,
    ..SHORT
};

fn octets(options: Options) -> Vec<u8> {
    table(options).into_octets()
}

#[test]
fn functions_and_arguments_are_those_of_the_calls() {
    let calls = include_str!("../../../tests/emulated/calls.h");
    let mut listed = calls.split("\nCALL(").skip(1);
    for &function in Function::ALL {
        let call = listed.next().expect("a call");
        let name: String = format!("{function:?}").to_lowercase();
        let told = call
            .split([' ', ','])
            .find(|word| word.starts_with("klumdray_"));
        let told = told.expect("a name").replace('_', "");
        assert_eq!(told, format!("klumdray{name}"));
        let found: String = call
            .split(|letter: char| !letter.is_ascii_uppercase())
            .filter_map(|word| match word {
                "NUMBER" => Some('n'),
                "SIGNED" => Some('s'),
                "OCTETS" => Some('o'),
                "ROOM" => Some('r'),
                _ => None,
            })
            .collect();
        assert_eq!(found, kinds(function), "{name}");
    }
    assert!(listed.next().is_none());
}

#[test]
fn a_table_reads_back_with_the_reference_s_answers() {
    for options in [SHORT, SMALL] {
        let octets = octets(options);
        let mut reader = Reader::new(&octets);
        assert_eq!(reader.count, options.count);
        let mut calls = 0;
        for row in &mut reader {
            let expected = Answer::of(&row.call);
            assert_eq!(row.answer.number, expected.number);
            assert_eq!(row.answer.rooms, expected.rooms);
            calls += 1;
        }
        assert_eq!(calls, options.count);
    }
}

#[test]
fn the_same_seed_gives_the_same_table() {
    assert!(octets(SHORT) == octets(SHORT));
    let other = Options {
        seed: SHORT.seed + 1,
        ..SHORT
    };
    assert!(octets(SHORT) != octets(other));
}

#[test]
fn every_function_has_its_share() {
    for count in [150, 601, 749, 750, 1111, 8000] {
        let table = table(Options { count, ..SHORT });
        assert_eq!(table.count(), count);
        for (function, numbers) in table.numbers.iter().enumerate() {
            let calls: u64 = numbers.iter().sum();
            assert!(
                calls * 100 >= count as u64,
                "{function}: {calls} of {count}"
            );
        }
    }
}

/// The numbers that include/klumdray.h names for each function.
const NUMBERS: [&[usize]; FUNCTIONS] = [
    &[0],
    &[0, 1, 2, 3, 4, 5, 6],
    &[0, 13, 14],
    &[0, 1, 3, 4, 5, 7, 8, 9],
    &[0, 13, 14],
    &[0, 1, 3, 4, 5, 7, 8, 9, 10, 11, 12],
    &[0, 13, 14],
    &[0, 1, 2, 3, 4, 5, 6, 7, 8, 9, 10, 11, 12, 13, 14, 15, 18],
    &[0, 13, 14, 15, 16, 17, 18],
    &[0, 14, 15, 16, 17, 18],
    &[0, 1, 3, 4, 5, 7, 8, 9, 10, 11, 12, 19],
    &[0, 13, 14],
    &[0, 1, 5, 10, 11, 12, 19],
    &[0, 13, 14],
    &[0, 1, 3, 4, 5, 7, 8, 9, 10, 11, 12, 13, 14, 19, 20, 21],
    &[0, 13, 14, 20],
    &[0, 1, 5, 10, 11, 12, 14, 19, 20, 21],
    &[0, 14, 23],
    &[0, 1, 5, 23],
    &[0, 14],
    &[0],
    &[0, 14, 23, 24],
    &[0, 1, 2, 3, 4, 5, 6, 14, 23, 24],
];

#[test]
fn every_number_comes_from_every_function_that_has_it() {
    for options in [SHORT, SMALL] {
        let table = table(options);
        for (function, numbers) in table.numbers.iter().enumerate() {
            let given = (0..numbers.len()).filter(|&number| numbers[number] > 0);
            assert_eq!(given.collect::<Vec<_>>(), NUMBERS[function], "{function}");
        }
    }
}

/// What a step came to, as far as its answer and its medium tell.
fn outcome(row: &Row) -> Option<(&'static str, bool, u32)> {
    let answer = row.answer.number;
    if row.call.function != Function::Step || answer as u8 != 0 {
        return None;
    }
    let side = row.call.numbers()[0];
    let on_ip = row.call.slices()[0][9] == 1;
    let (acknowledged, own) = (answer >> 8 & 0xff != 0, answer >> 16 & 1 == 1);
    let kind = match (answer >> 32 > 0, own, acknowledged) {
        (true, ..) => "forwarded",
        (_, true, _) => "own",
        (_, _, true) => "repetition",
        _ => "stopped",
    };
    Some((kind, on_ip, side))
}

#[test]
fn every_outcome_of_a_step_comes() {
    for options in [SHORT, SMALL] {
        let octets = octets(options);
        let outcomes: BTreeSet<_> = Reader::new(&octets)
            .filter_map(|row| outcome(&row))
            .collect();
        for side in [0, 1] {
            for on_ip in [false, true] {
                for kind in ["forwarded", "own", "repetition", "stopped"] {
                    // IP has no repetitions.
                    let is_possible = kind != "repetition" || side == 1 || !on_ip;
                    assert_eq!(outcomes.contains(&(kind, on_ip, side)), is_possible);
                }
            }
        }
    }
}

/// The frame heard and what its side remembers, if a step accepts a frame from TP1 that is marked
/// repeated.
fn heard_again(row: &Row) -> Option<(Vec<u8>, Vec<u8>)> {
    let (_, on_ip, side) = outcome(row)?;
    let heard = row.call.slices()[2].to_vec();
    let memory = &row.call.rooms()[0];
    let (size, octets) = memory[side as usize * MEMORY_SIZE / 2..].split_at(2);
    let size = usize::from(u16::from_be_bytes([size[0], size[1]]));
    let remembered = octets[..MEMORY_SIZE / 2 - 2].get(..size)?.to_vec();
    let is_repeated = heard[0] & 0x20 == 0;
    let from_ip = on_ip && side == 0;
    (is_repeated && !from_ip).then_some((heard, remembered))
}

/// How a frame marked repeated that has the addresses of the one remembered differs from it, if it is
/// no repetition: in the head, in the first, a later or the last octet of the payload, in the length.
fn nearness((heard, remembered): (Vec<u8>, Vec<u8>)) -> Option<&'static str> {
    let (one, other) = (tp1::read(&remembered).ok()?, tp1::read(&heard).ok()?);
    let addresses = |it: &Meaning| (it.source, it.destination, it.group);
    if addresses(&one.meaning) != addresses(&other.meaning) {
        return None;
    }
    let head = |it: Meaning| (it.format, it.priority, it.count);
    let mut pairs = one.payload.iter().zip(other.payload);
    let place = pairs.position(|(one, other)| one != other);
    let last = other.payload.len() - 1;
    match (one.payload.len() == last + 1, place) {
        _ if head(one.meaning) != head(other.meaning) => Some("head"),
        (false, _) => Some("length"),
        (true, Some(0)) => Some("first"),
        (true, Some(place)) if place == last => Some("last"),
        (true, Some(_)) => Some("between"),
        (true, None) => None,
    }
}

#[test]
fn frames_like_the_one_remembered_come_and_are_forwarded() {
    for options in [SHORT, SMALL] {
        let octets = octets(options);
        let mut forwarded = BTreeMap::new();
        for row in Reader::new(&octets) {
            let near = heard_again(&row).and_then(nearness);
            if let (Some(near), Some(("forwarded", ..))) = (near, outcome(&row)) {
                *forwarded.entry(near).or_insert(0) += 1;
            }
        }
        println!("{forwarded:?}");
        let kinds: Vec<_> = forwarded.keys().copied().collect();
        assert_eq!(kinds, ["between", "first", "head", "last", "length"]);
    }
}

#[test]
fn every_reason_comes() {
    for options in [SHORT, SMALL] {
        let octets = octets(options);
        let whys = Reader::new(&octets).filter(|row| row.call.function == Function::Why);
        let reasons: BTreeSet<u64> = whys.map(|row| row.answer.number >> 8 & 0xff).collect();
        assert_eq!(reasons, (0..=7).collect());
    }
}

/// Functions and places of the numbers above their ranges: within 8 bits, or 16 for an address, and
/// above those.
fn outside_places(options: Options) -> [BTreeSet<(usize, usize)>; 2] {
    let octets = octets(options);
    let mut places = [BTreeSet::new(), BTreeSet::new()];
    for row in Reader::new(&octets) {
        let function = row.call.function;
        for (place, number) in row.call.numbers().into_iter().enumerate() {
            let most = ranges(function)[place];
            if number > most {
                assert_ne!(row.answer.number as u8, 0);
                let is_wide = number > if most > 255 { 65_535 } else { 255 };
                places[usize::from(is_wide)].insert((function as usize, place));
            }
        }
    }
    places
}

#[test]
fn every_number_is_once_outside_its_range() {
    let numbers: usize = Function::ALL
        .iter()
        .map(|&function| ranges(function).len())
        .sum();
    // Those that leave no number of 8 bits, or 16, outside: addresses and lines.
    let full = |&&most: &&u32| most == 255 || most == 65_535;
    let full: usize = Function::ALL
        .iter()
        .map(|&it| ranges(it).iter().filter(full).count())
        .sum();
    for options in [SHORT, SMALL] {
        let [narrow, wide] = outside_places(options);
        assert_eq!([narrow.len(), wide.len()], [numbers - full, numbers]);
    }
}

/// A number above its bits, cut to them, would have been accepted: whoever cuts it is seen.
#[test]
fn every_cut_of_a_number_is_seen() {
    let octets = octets(SHORT);
    let mut cuts = BTreeSet::new();
    for row in Reader::new(&octets) {
        let function = row.call.function;
        for (place, &most) in ranges(function).iter().enumerate() {
            let bits = if most > 255 { 65_535 } else { 255 };
            let mut call = row.call.clone();
            let number = call.number_mut(place);
            if *number > bits {
                let is_next = *number == bits + 1;
                *number &= bits;
                if Answer::of(&call).number != row.answer.number {
                    cuts.insert((function as usize, place, is_next));
                }
            }
        }
    }
    let numbers: usize = Function::ALL
        .iter()
        .map(|&function| ranges(function).len())
        .sum();
    // 256 for a message code, or for a channel to send on, is 0 if cut, which is none either.
    assert_eq!(cuts.len(), 2 * numbers - 5);
}

#[test]
fn a_small_table_fits_64_kilobytes() {
    let octets = octets(SMALL);
    let most: usize = Reader::new(&octets).most.iter().sum();
    assert!(most <= 28_790, "{most} octets lent");
}

#[test]
fn a_table_has_the_largest_stores_and_sites() {
    let octets = octets(SHORT);
    let most = Reader::new(&octets).most;
    assert!(most[4] >= 255 * 12);
    assert_eq!(most[5..7], [129 * 8192, 128 * 8192]);
}
