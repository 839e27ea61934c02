//! The comparison for routing: the proved library and the bindings over it beside the reference.

#[path = "support/datagrams.rs"]
mod datagrams;
#[path = "support/messages.rs"]
mod messages;
mod support;
#[path = "support/wrong_messages.rs"]
mod wrong_messages;

use datagrams::around;
use inputs::{seed, Generator};
use messages::{
    all_shapes, assert_agrees, heads, likely_message, message, some_code, some_shapes, KINDS,
    ROUTING,
};
use support::{Answer, Comparison, Implementation, Reader, Request, Writer};

const REFERENCE: Implementation = messages::reference::<ROUTING>();
const LIBRARY: Implementation = messages::library::<ROUTING>();
const BINDINGS: Implementation = messages::bindings::<ROUTING>();

const INDICATION: u8 = 0x29;

const HEADER: [u8; ROUTING] = [0x06, 0x10, 0x05, 0x30, 0, 0];

fn datagram(message: &[u8]) -> Vec<u8> {
    datagrams::datagram(&HEADER, message)
}

/// Octets of one length: by chance; by chance behind a nearly right header; a likely message
/// behind a right one.
fn likely_datagram(generator: &mut Generator, length: usize) -> Vec<u8> {
    let mut octets = datagram(&likely_message(generator, length.saturating_sub(ROUTING)));
    octets.truncate(length);
    match generator.below(8) {
        0 => octets = generator.octets(length),
        1 => {
            let place = generator.below(ROUTING);
            if let Some(octet) = octets.get_mut(place) {
                *octet ^= generator.damage();
            }
        }
        _ => {
            if length > ROUTING && generator.below(8) > 0 {
                octets[ROUTING] = INDICATION;
            }
        }
    }
    octets
}

const SHORTEST: [u8; 10] = [INDICATION, 0, 0xbc, 0xe0, 0, 0, 0x12, 0x34, 0x00, 0x00];

fn compare(
    proved: Implementation,
    reference: Implementation,
    seed: u64,
) -> Result<Comparison, String> {
    let mut comparison = Comparison::new(proved, reference);
    let generator = &mut Generator::new(seed);
    comparison.writes(generator, &KINDS, messages::size::<ROUTING>)?;
    datagrams::large(&mut comparison, &HEADER, &SHORTEST)?;
    for (index, shape) in some_shapes(generator).into_iter().enumerate() {
        let valid = datagram(&message(generator, INDICATION, shape));
        around(&mut comparison, generator, &valid)?;
        if index % 19 == 0 {
            heads::<ROUTING>(&mut comparison, generator, &valid)?;
        }
    }
    for shape in all_shapes() {
        let likely = generator.below(8) > 0;
        let code = if likely {
            INDICATION
        } else {
            some_code(generator)
        };
        comparison.read(&datagram(&message(generator, code, shape)))?;
    }
    for length in (0..=526).flat_map(|length| [length; 1000]) {
        comparison.read(&likely_datagram(generator, length))?;
    }
    Ok(comparison)
}

const NUMBERS: [u8; 11] = [0, 1, 3, 4, 5, 7, 8, 9, 10, 11, 12];

#[test]
fn library_agrees_with_the_reference() {
    assert_agrees("routing, library", compare, [LIBRARY, REFERENCE], &NUMBERS);
}

#[test]
fn bindings_agree_with_the_reference() {
    assert_agrees(
        "routing, bindings",
        compare,
        [BINDINGS, REFERENCE],
        &NUMBERS,
    );
}

/// References with one rule of the header turned round.
mod wrong {
    use super::*;
    use messages::{reference_read, reference_write};
    use wrong_messages::as_if;

    fn total_without_header(octets: &[u8]) -> Answer<'_> {
        if octets.len() < ROUTING {
            return reference_read::<ROUTING>(octets);
        }
        let mut more = octets.to_vec();
        let total = u16::from_be_bytes([octets[4], octets[5]]).wrapping_add(6);
        more[4..6].copy_from_slice(&total.to_be_bytes());
        as_if::<ROUTING>(octets, &more)
    }

    fn total_of_two_octets(octets: &[u8]) -> Answer<'_> {
        match reference_read::<ROUTING>(octets) {
            answer if answer.number() == 12 && octets[4..6] == octets.len().to_be_bytes()[6..] => {
                Answer::refused(5)
            }
            answer => answer,
        }
    }

    fn ten_before_one(octets: &[u8]) -> Answer<'_> {
        match octets {
            [length, ..] if *length != 0x06 => Answer::refused(10),
            _ => reference_read::<ROUTING>(octets),
        }
    }

    fn eleven_before_ten(octets: &[u8]) -> Answer<'_> {
        match reference_read::<ROUTING>(octets) {
            answer if answer.number() == 10 && octets[2..4] != [0x05, 0x30] => Answer::refused(11),
            answer => answer,
        }
    }

    fn seven_before_twelve(octets: &[u8]) -> Answer<'_> {
        let answer = reference_read::<ROUTING>(octets);
        match octets.get(ROUTING) {
            Some(&code) if code != INDICATION && answer.number() == 12 => Answer::refused(7),
            _ => answer,
        }
    }

    fn twelve_before_eleven(octets: &[u8]) -> Answer<'_> {
        let answer = reference_read::<ROUTING>(octets);
        let wrong_total = || octets[4..6] != (octets.len() as u16).to_be_bytes();
        if answer.number() == 11 && wrong_total() {
            Answer::refused(12)
        } else {
            answer
        }
    }

    fn version_not_tested(octets: &[u8]) -> Answer<'_> {
        let mut other = octets.to_vec();
        if let Some(version) = other.get_mut(1) {
            *version = 0x10;
        }
        as_if::<ROUTING>(octets, &other)
    }

    fn seven_for_nothing(octets: &[u8]) -> Answer<'_> {
        match reference_read::<ROUTING>(octets) {
            answer if answer.number() == 1 && octets.len() == ROUTING => Answer::refused(7),
            answer => answer,
        }
    }

    fn requests_taken(octets: &[u8]) -> Answer<'_> {
        let mut other = octets.to_vec();
        match other.get_mut(ROUTING) {
            Some(code) if *code == 0x11 => *code = INDICATION,
            _ => {}
        }
        as_if::<ROUTING>(octets, &other)
    }

    fn writes_total_without_header(request: &Request, payload: &[u8], room: &mut [u8]) -> u64 {
        let answer = reference_write::<ROUTING>(request, payload, room);
        if answer as u8 == 0 {
            let total = (answer >> 8) as u16 - 6;
            room[4..6].copy_from_slice(&total.to_be_bytes());
        }
        answer
    }

    const READERS: [(&str, Reader); 9] = [
        ("total length off by six", total_without_header),
        ("total length of two octets", total_of_two_octets),
        ("10 before 1", ten_before_one),
        ("11 before 10", eleven_before_ten),
        ("12 before 11", twelve_before_eleven),
        ("7 before 12", seven_before_twelve),
        ("version not tested", version_not_tested),
        ("7 where no octet is left", seven_for_nothing),
        ("requests taken", requests_taken),
    ];

    const WRITER: (&str, Writer) = ("writes a total off by six", writes_total_without_header);

    fn assert_noticed(name: &str, reference: Implementation) {
        let Err(difference) = compare(LIBRARY, reference, seed()) else {
            panic!("not noticed: {name}");
        };
        println!("{name}: {difference:.160}");
    }

    #[test]
    fn readers_are_noticed() {
        for (name, read) in wrong_messages::readers::<ROUTING>()
            .into_iter()
            .chain(READERS)
        {
            assert_noticed(name, Implementation { read, ..REFERENCE });
        }
    }

    #[test]
    fn writers_are_noticed() {
        for (name, write) in wrong_messages::writers::<ROUTING>()
            .into_iter()
            .chain([WRITER])
        {
            assert_noticed(name, Implementation { write, ..REFERENCE });
        }
    }
}
