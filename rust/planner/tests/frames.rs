//! Frames told apart, and the places of refusals, beside what the library's readers say.

#[path = "support/emulated.rs"]
mod emulated;
#[path = "support/frames.rs"]
mod frames;

use emulated::number_of_inputs;
use frames::{broken, head, mend_total, whole};
use inputs::{seed, Generator};
use klumdray::Refusal;
use planner::frame::place::{place, Expected, Place};
use planner::frame::{tell, Kind, Told};
use std::collections::BTreeMap;

/// The number by which a reader refuses octets, 0 if it does not.
fn number(kind: Kind, octets: &[u8]) -> u8 {
    kind.read(octets).map_or_else(Refusal::number, |_| 0)
}

/// Which kinds begin as the octets do, by the layouts of documents 01 and 02.
fn kinds_of(octets: &[u8]) -> Vec<Kind> {
    let is_begun = |kind: &Kind| {
        let header = head(*kind).iter().take(4);
        octets.iter().zip(header).all(|(octet, own)| octet == own)
    };
    match octets {
        [0x11 | 0x29 | 0x2e, ..] => vec![Kind::Cemi],
        [0x06, ..] => Kind::ALL[2..].iter().copied().filter(is_begun).collect(),
        [control, ..] if control & 0b0101_0011 == 0b0001_0000 => vec![Kind::Tp1],
        _ => vec![],
    }
}

#[test]
fn at_most_one_reader_takes_a_first_octet() {
    let mut generator = Generator::new(seed());
    for first in 0..=255 {
        for kind in Kind::ALL {
            let mut octets = whole(&mut generator, kind);
            octets[0] = first;
            if let (Kind::Tp1, Some((check, before))) = (kind, octets.split_last_mut()) {
                *check = klumdray::check_octet(before);
            }
            let taken: Vec<Kind> = Kind::ALL
                .into_iter()
                .filter(|kind| kind.read(&octets).is_ok())
                .collect();
            assert!(taken.is_empty() || taken == [kind], "{octets:02X?}");
            assert!(taken.is_empty() || kinds_of(&octets) == [kind]);
        }
    }
}

/// The first octet, and in a datagram the header up to its service.
#[test]
fn the_first_octets_tell_what_was_meant() {
    let mut generator = Generator::new(seed());
    let mut hold = |begun: &[u8]| {
        for length in 1..=24 {
            let mut octets = generator.octets(length);
            for (octet, own) in octets.iter_mut().zip(begun) {
                *octet = *own;
            }
            let told = match tell(&octets, None) {
                Told::Accepted(content) => vec![content.kind()],
                Told::Refused(kind, _) => vec![kind],
                Told::Untold { likely, .. } => {
                    assert_ne!(likely.len(), 1, "{octets:02X?}");
                    likely
                }
            };
            assert_eq!(told, kinds_of(&octets), "{octets:02X?}");
        }
    };
    for octet in 0..=255 {
        hold(&[octet]);
        hold(&[0x06, octet]);
        hold(&[0x06, 0x10, octet]);
        hold(&[0x06, 0x10, 0x04, octet]);
        hold(&[0x06, 0x10, 0x05, octet]);
    }
}

#[test]
fn octets_that_tell_nothing() {
    let Told::Untold { likely, refusals } = tell(&[], None) else {
        panic!("no octet tells what was meant");
    };
    assert_eq!(likely, Kind::ALL);
    assert_eq!(refusals, Kind::ALL.map(|kind| (kind, Refusal::TOO_FEW)));
    let another_version = [0x06, 0x11, 0x05, 0x30, 0x00, 0x06];
    let Told::Untold { likely, refusals } = tell(&another_version, None) else {
        panic!("a header of another version");
    };
    assert_eq!(likely, []);
    let numbers: Vec<u8> = refusals
        .iter()
        .map(|(_, refusal)| refusal.number())
        .collect();
    assert_eq!(numbers, [2, 7, 10, 10, 10]);
}

#[test]
fn a_forced_kind_is_its_reader() {
    let mut generator = Generator::new(seed());
    for _ in 0..20_000 {
        let made = Kind::ALL[generator.below(Kind::ALL.len())];
        let octets = broken(&mut generator, made);
        for kind in Kind::ALL {
            let expected = match kind.read(&octets) {
                Ok(content) => Told::Accepted(content),
                Err(refusal) => Told::Refused(kind, refusal),
            };
            assert_eq!(tell(&octets, Some(kind)), expected);
        }
    }
}

/// A refusal under test.
#[derive(Debug)]
struct Case<'a> {
    kind: Kind,
    octets: &'a [u8],
    number: u8,
    place: Place,
}

impl Case<'_> {
    /// The number with other octets in the place.
    fn with(&self, values: &[u8]) -> u8 {
        let mut octets = self.octets.to_vec();
        octets[self.place.octets.clone()].copy_from_slice(values);
        number(self.kind, &octets)
    }

    /// The number with so many octets in all, which a datagram's total length says.
    fn of_length(&self, generator: &mut Generator, length: usize) -> u8 {
        let mut octets = self.octets.to_vec();
        octets.truncate(length);
        octets.extend(generator.octets(length - octets.len()));
        mend_total(self.kind, &mut octets);
        number(self.kind, &octets)
    }
}

/// Accepted; or refused for the check octet, which other octets need another of, or for the first
/// octet behind the header, which is asked when all of an acknowledgement are there.
const ENDS_RIGHT: [u8; 3] = [0, 6, 19];

/// "1": with the octets that are said to be needed, and no fewer, there are enough.
fn too_few(case: &Case<'_>, generator: &mut Generator) {
    let there = case.octets.len();
    assert_eq!(case.place.octets, there..there, "{case:?}");
    match case.place.expected {
        Expected::Size(size) if there >= head(case.kind).len() => {
            assert!(there < size, "{case:?}");
            for length in there..size {
                assert_eq!(case.of_length(generator, length), 1, "{case:?}");
            }
            assert!(
                ENDS_RIGHT.contains(&case.of_length(generator, size)),
                "{case:?}"
            );
            let above = case.of_length(generator, size + 1);
            assert!([5, 19].contains(&above), "{case:?}");
        }
        Expected::Size(size) | Expected::AtLeast(size) => {
            assert!(there < size, "{case:?}");
            for length in there..size {
                assert_ne!(case.of_length(generator, length), 0, "{case:?}");
            }
            assert_ne!(least_continued(case, size), 1, "{case:?}");
        }
        ref other => panic!("{other:?}"),
    }
}

/// Continued with a = 0, LG = 0 and, in a datagram, with the header's octets.
fn least_continued(case: &Case<'_>, size: usize) -> u8 {
    let mut least = head(case.kind).to_vec();
    match case.kind {
        Kind::Tp1 => least.push(0xbc),
        Kind::Cemi | Kind::Routing => least.push(0x29),
        Kind::Request => least.extend([0, 0, 0, 0x29]),
        Kind::Acknowledgement => {}
    }
    let mut octets = case.octets.to_vec();
    octets.extend(least.get(octets.len()..).unwrap_or(&[]));
    octets.resize(size, 0);
    mend_total(case.kind, &mut octets);
    number(case.kind, &octets)
}

/// "5": without the octets that are said to be left, and no more, none is left.
fn left(case: &Case<'_>, generator: &mut Generator) {
    let (end, there) = (case.place.octets.start, case.octets.len());
    assert_eq!(
        (case.place.octets.end, &case.place.expected),
        (there, &Expected::End)
    );
    assert!(end < there, "{case:?}");
    for length in end + 1..=there {
        assert_eq!(case.of_length(generator, length), 5, "{case:?}");
    }
    assert!(
        ENDS_RIGHT.contains(&case.of_length(generator, end)),
        "{case:?}"
    );
    assert_eq!(case.of_length(generator, end - 1), 1, "{case:?}");
}

/// The values that may stand in the place of a refusal.
fn expected_values(expected: &Expected) -> Vec<Vec<u8>> {
    let each = |octets: Vec<u8>| octets.into_iter().map(|octet| vec![octet]).collect();
    match expected {
        Expected::Octets(octets) => vec![octets.clone()],
        Expected::Total(total) => vec![total.to_be_bytes().to_vec()],
        Expected::OneOf(octets) => each(octets.to_vec()),
        Expected::UpTo(greatest) => each((0..=*greatest).collect()),
        Expected::Control => {
            let control = |octet: &u8| kinds_of(&[*octet]) == [Kind::Tp1];
            each((0..=255).filter(control).collect())
        }
        other => panic!("{other:?} in the place of an octet"),
    }
}

/// Every other refusal: an expected value in its place ends it, and no other value does.
fn in_place(case: &Case<'_>) {
    let expected = expected_values(&case.place.expected);
    for values in &expected {
        assert_ne!(case.with(values), case.number, "{case:?}");
    }
    let mut values = case.octets[case.place.octets.clone()].to_vec();
    if case.number == 3 {
        let other_fields = values[0] & 0xf0;
        assert_eq!(expected, [[other_fields]], "{case:?}");
    }
    for value in 0..=255 {
        *values.last_mut().expect("a place of an octet or two") = value;
        let fits = match case.number {
            3 => value & 0x0f == 0,
            _ => expected.contains(&values),
        };
        // LG above 15 in a cEMI standard frame is 9, but 255 is 4.
        let stays = match case.number {
            4 | 9 => [4, 9].contains(&case.with(&values)),
            number => case.with(&values) == number,
        };
        assert_eq!(stays, !fits, "{value:02X}: {case:?}");
    }
}

/// No octet behind the place has a part in the refusal.
fn behind(case: &Case<'_>, generator: &mut Generator) {
    for _ in 0..4 {
        let mut octets = case.octets.to_vec();
        let rest = &mut octets[case.place.octets.end..];
        rest.copy_from_slice(&generator.octets(rest.len()));
        assert_eq!(number(case.kind, &octets), case.number, "{case:?}");
    }
}

fn hold(case: &Case<'_>, generator: &mut Generator) {
    match case.number {
        1 => too_few(case, generator),
        5 => left(case, generator),
        _ => in_place(case),
    }
    if !matches!(case.number, 1 | 5 | 6 | 12) {
        behind(case, generator);
    }
}

#[test]
fn a_place_is_where_its_refusal_comes_from() {
    let seed = seed();
    println!("KLUMDRAY_SEED={seed:#x}");
    let mut generator = Generator::new(seed);
    let mut seen: BTreeMap<(&str, u8), usize> = BTreeMap::new();
    let rounds = number_of_inputs(100_000, 10_000);
    for round in 0..rounds {
        let kind = Kind::ALL[round % Kind::ALL.len()];
        let octets = broken(&mut generator, kind);
        let Err(refusal) = kind.read(&octets) else {
            continue;
        };
        let case = Case {
            kind,
            octets: &octets,
            number: refusal.number(),
            place: place(kind, &octets, refusal).expect("a reader's refusal has a place"),
        };
        hold(&case, &mut generator);
        *seen.entry((kind.token(), case.number)).or_default() += 1;
    }
    let numbers = |token| {
        let of_kind = seen.iter().filter(move |((kind, _), _)| *kind == token);
        let often = of_kind.filter(|(_, times)| **times >= rounds / 5_000);
        often.map(|((_, number), _)| *number).collect::<Vec<u8>>()
    };
    assert_eq!(numbers("tp1"), [1, 2, 3, 4, 5, 6], "{seen:?}");
    assert_eq!(numbers("cemi"), [1, 3, 4, 5, 7, 8, 9], "{seen:?}");
    let routing = [1, 3, 4, 5, 7, 8, 9, 10, 11, 12];
    assert_eq!(numbers("routing"), routing, "{seen:?}");
    let request = [1, 3, 4, 5, 7, 8, 9, 10, 11, 12, 19];
    assert_eq!(numbers("tunnelling_request"), request, "{seen:?}");
    let acknowledgement = [1, 5, 10, 11, 12, 19];
    assert_eq!(numbers("tunnelling_ack"), acknowledgement, "{seen:?}");
}

/// A datagram may be longer than any total length says.
#[test]
fn a_datagram_that_is_too_long() {
    for kind in &Kind::ALL[2..] {
        let mut octets = head(*kind).to_vec();
        octets.resize(65_536, 0);
        let refusal = kind.read(&octets).unwrap_err();
        assert_eq!(refusal, Refusal::TOTAL_LENGTH);
        let place = place(*kind, &octets, refusal).unwrap();
        assert_eq!((place.octets, place.expected), (4..6, Expected::Shorter));
    }
}

/// A place is asked for only after a refusal, but any question has an answer.
#[test]
fn no_question_is_too_odd() {
    let refusals = [
        Refusal::TOO_FEW,
        Refusal::ANOTHER_KIND,
        Refusal::EFF,
        Refusal::ESCAPE,
        Refusal::OCTETS_LEFT,
        Refusal::CHECK_OCTET,
        Refusal::MESSAGE_CODE,
        Refusal::INFORMATION,
        Refusal::STANDARD_LG,
        Refusal::HEADER,
        Refusal::SERVICE,
        Refusal::TOTAL_LENGTH,
        Refusal::ROOM,
        Refusal::FIRST_OCTET,
        Refusal::CHANNEL,
        Refusal::COUNTER,
    ];
    let mut generator = Generator::new(seed());
    for round in 0..3_000 {
        let octets = generator.octets(round % 30);
        for refusal in refusals {
            for kind in Kind::ALL {
                let told = Told::Refused(kind, refusal);
                let text = planner::frame::paragraph(&octets, &told, None);
                assert!(text.contains(refusal.words()));
                let record = planner::frame::record(&octets, &told, None).to_string();
                assert!(record.contains(refusal.words()));
            }
        }
    }
}
