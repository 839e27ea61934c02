//! The comparison for tunnelling requests without a table of channels: the proved library and the
//! bindings over it beside the reference.

#[path = "support/datagrams.rs"]
mod datagrams;
#[path = "support/messages.rs"]
mod messages;
mod support;
#[path = "support/wrong_messages.rs"]
mod wrong_messages;

use datagrams::around;
use inputs::frames::mend_total;
use inputs::{seed, Generator};
use messages::{
    all_shapes, assert_agrees, heads, likely_message, message, some_code, some_shapes, KINDS,
    TUNNELLING,
};
use support::{Answer, Comparison, Implementation, Reader, Request, Writer};

const REFERENCE: Implementation = messages::reference::<TUNNELLING>();
const LIBRARY: Implementation = messages::library::<TUNNELLING>();
const BINDINGS: Implementation = messages::bindings::<TUNNELLING>();

/// A request of any channel and counter, with the octet that is not read in any state.
fn request(generator: &mut Generator, message: &[u8]) -> Vec<u8> {
    let [channel, counter, last] = [generator.octet(), generator.octet(), generator.octet()];
    let head = [0x06, 0x10, 0x04, 0x20, 0, 0, 0x04, channel, counter, last];
    datagrams::datagram(&head, message)
}

/// Octets of one length: by chance; by chance behind a nearly right head; a likely message behind a
/// right one.
fn likely_request(generator: &mut Generator, length: usize) -> Vec<u8> {
    let message = likely_message(generator, length.saturating_sub(TUNNELLING));
    let mut octets = request(generator, &message);
    octets.truncate(length);
    mend_total(&mut octets);
    match generator.below(8) {
        0 => octets = generator.octets(length),
        1 => {
            let place = generator.below(TUNNELLING);
            if let Some(octet) = octets.get_mut(place) {
                *octet ^= generator.damage();
            }
        }
        _ => {}
    }
    octets
}

const HEAD: [u8; TUNNELLING] = [0x06, 0x10, 0x04, 0x20, 0, 0, 0x04, 0x01, 0x00, 0x00];
const SHORTEST: [u8; 10] = [0x11, 0, 0xbc, 0xe0, 0, 0, 0x12, 0x34, 0x00, 0x00];

fn reads(comparison: &mut Comparison, generator: &mut Generator) -> Result<(), String> {
    for length in (0..=530).flat_map(|length| [length; 200]) {
        comparison.read(&likely_request(generator, length))?;
    }
    datagrams::large(comparison, &HEAD, &SHORTEST)?;
    for (index, shape) in some_shapes(generator).into_iter().enumerate() {
        let code = some_code(generator);
        let message = message(generator, code, shape);
        let valid = request(generator, &message);
        around(comparison, generator, &valid)?;
        if index % 19 == 0 {
            heads::<TUNNELLING>(comparison, generator, &valid)?;
        }
    }
    for shape in all_shapes() {
        let code = some_code(generator);
        let message = message(generator, code, shape);
        comparison.read(&request(generator, &message))?;
    }
    Ok(())
}

fn writes(comparison: &mut Comparison, generator: &mut Generator) -> Result<(), String> {
    comparison.writes(generator, &KINDS, messages::size::<TUNNELLING>)
}

fn compare(
    proved: Implementation,
    reference: Implementation,
    seed: u64,
) -> Result<Comparison, String> {
    let mut comparison = Comparison::new(proved, reference);
    let generator = &mut Generator::new(seed);
    reads(&mut comparison, generator)?;
    writes(&mut comparison, generator)?;
    Ok(comparison)
}

const NUMBERS: [u8; 12] = [0, 1, 3, 4, 5, 7, 8, 9, 10, 11, 12, 19];

#[test]
fn library_agrees_with_the_reference() {
    assert_agrees("requests, library", compare, [LIBRARY, REFERENCE], &NUMBERS);
}

#[test]
fn bindings_agree_with_the_reference() {
    assert_agrees(
        "requests, bindings",
        compare,
        [BINDINGS, REFERENCE],
        &NUMBERS,
    );
}

/// References with one rule of the head turned round.
mod wrong {
    use super::*;
    use messages::{reference_read, reference_write};
    use wrong_messages::as_if;

    /// The reference with an octet of the head as it should be.
    fn not_tested<const PLACE: usize>(octets: &[u8]) -> Answer<'_> {
        let mut other = octets.to_vec();
        if let Some(octet) = other.get_mut(PLACE) {
            *octet = HEAD[PLACE];
        }
        as_if::<TUNNELLING>(octets, &other)
    }

    fn one_before_twelve(octets: &[u8]) -> Answer<'_> {
        match reference_read::<TUNNELLING>(octets) {
            answer if answer.number() == 12 && octets.len() < TUNNELLING => Answer::refused(1),
            answer => answer,
        }
    }

    fn twelve_before_eleven(octets: &[u8]) -> Answer<'_> {
        let wrong_total = || octets[4..6] != (octets.len() as u16).to_be_bytes();
        match reference_read::<TUNNELLING>(octets) {
            answer if answer.number() == 11 && wrong_total() => Answer::refused(12),
            answer => answer,
        }
    }

    fn nineteen_before_one(octets: &[u8]) -> Answer<'_> {
        let is_short = (7..TUNNELLING).contains(&octets.len());
        match reference_read::<TUNNELLING>(octets) {
            answer if answer.number() == 1 && is_short && octets[6] != 0x04 => Answer::refused(19),
            answer => answer,
        }
    }

    fn seven_before_nineteen(octets: &[u8]) -> Answer<'_> {
        let is_other = |code: &u8| ![0x11, 0x2e, 0x29].contains(code);
        match reference_read::<TUNNELLING>(octets) {
            answer if answer.number() == 19 && octets.get(TUNNELLING).is_some_and(is_other) => {
                Answer::refused(7)
            }
            answer => answer,
        }
    }

    fn last_octet_read(octets: &[u8]) -> Answer<'_> {
        match reference_read::<TUNNELLING>(octets) {
            answer if answer.number() == 0 && octets[9] != 0x00 => Answer::refused(19),
            answer => answer,
        }
    }

    fn channels_above_4_refused(octets: &[u8]) -> Answer<'_> {
        match reference_read::<TUNNELLING>(octets) {
            answer if answer.number() == 0 && !(1..=4).contains(&octets[7]) => Answer::refused(20),
            answer => answer,
        }
    }

    fn indications_alone(octets: &[u8]) -> Answer<'_> {
        match reference_read::<TUNNELLING>(octets) {
            answer if answer.number() == 0 && octets[TUNNELLING] != 0x29 => Answer::refused(7),
            answer => answer,
        }
    }

    fn writes_total_without_head(request: &Request, payload: &[u8], room: &mut [u8]) -> u64 {
        let answer = reference_write::<TUNNELLING>(request, payload, room);
        if answer as u8 == 0 {
            let total = (answer >> 8) as u16 - 10;
            room[4..6].copy_from_slice(&total.to_be_bytes());
        }
        answer
    }

    fn writes_counter_for_channel(request: &Request, payload: &[u8], room: &mut [u8]) -> u64 {
        let answer = reference_write::<TUNNELLING>(request, payload, room);
        if answer as u8 == 0 {
            room.swap(7, 8);
        }
        answer
    }

    const READERS: [(&str, Reader); 10] = [
        ("version not tested", not_tested::<1>),
        ("low octet of the service not tested", not_tested::<3>),
        ("first octet not tested", not_tested::<6>),
        ("1 before 12", one_before_twelve),
        ("12 before 11", twelve_before_eleven),
        ("19 before 1", nineteen_before_one),
        ("7 before 19", seven_before_nineteen),
        ("octet 00h read", last_octet_read),
        ("channels above 4 refused", channels_above_4_refused),
        ("indications alone", indications_alone),
    ];

    const WRITERS: [(&str, Writer); 2] = [
        ("writes a total without head", writes_total_without_head),
        ("counter for channel", writes_counter_for_channel),
    ];

    /// One of the two parts of the comparison.
    type Part = fn(&mut Comparison, &mut Generator) -> Result<(), String>;

    fn assert_noticed(name: &str, reference: Implementation, part: Part) {
        let comparison = &mut Comparison::new(LIBRARY, reference);
        match part(comparison, &mut Generator::new(seed())) {
            Ok(()) => panic!("not noticed: {name}"),
            Err(difference) => println!("{name}: {difference:.160}"),
        }
    }

    #[test]
    fn readers_are_noticed() {
        for (name, read) in wrong_messages::readers::<TUNNELLING>()
            .into_iter()
            .chain(READERS)
        {
            assert_noticed(name, Implementation { read, ..REFERENCE }, reads);
        }
    }

    #[test]
    fn writers_are_noticed() {
        for (name, write) in wrong_messages::writers::<TUNNELLING>()
            .into_iter()
            .chain(WRITERS)
        {
            assert_noticed(name, Implementation { write, ..REFERENCE }, writes);
        }
    }
}
