//! The comparison for cEMI: the proved library and the bindings over it beside the reference.

#[path = "support/messages.rs"]
mod messages;
mod support;
#[path = "support/wrong_messages.rs"]
mod wrong_messages;

use inputs::{seed, Generator};
use messages::{
    all_shapes, assert_agrees, heads, likely_message, message, some_code, some_shapes, KINDS,
};
use support::{Comparison, Implementation};

const REFERENCE: Implementation = messages::reference::<0>();
const LIBRARY: Implementation = messages::library::<0>();
const BINDINGS: Implementation = messages::bindings::<0>();

/// The message, each octet damaged, each cut, 1 to 3 octets more.
fn around(
    comparison: &mut Comparison,
    generator: &mut Generator,
    message: &[u8],
) -> Result<(), String> {
    comparison.read(message)?;
    let mut octets = message.to_vec();
    for place in 0..message.len() {
        comparison.read(&message[..place])?;
        octets[place] ^= generator.damage();
        comparison.read(&octets)?;
        octets[place] = message[place];
    }
    for _ in 0..3 {
        octets.push(generator.octet());
        comparison.read(&octets)?;
    }
    Ok(())
}

fn compare(
    proved: Implementation,
    reference: Implementation,
    seed: u64,
) -> Result<Comparison, String> {
    let mut comparison = Comparison::new(proved, reference);
    let generator = &mut Generator::new(seed);
    comparison.writes(generator, &KINDS, messages::size::<0>)?;
    for (index, shape) in some_shapes(generator).into_iter().enumerate() {
        let code = some_code(generator);
        let message = message(generator, code, shape);
        around(&mut comparison, generator, &message)?;
        if index % 19 == 0 {
            heads::<0>(&mut comparison, generator, &message)?;
        }
    }
    for shape in all_shapes() {
        let code = some_code(generator);
        comparison.read(&message(generator, code, shape))?;
    }
    for length in (0..=520).flat_map(|length| [length; 1200]) {
        comparison.read(&likely_message(generator, length))?;
    }
    Ok(comparison)
}

const NUMBERS: [u8; 8] = [0, 1, 3, 4, 5, 7, 8, 9];

#[test]
fn library_agrees_with_the_reference() {
    assert_agrees("cEMI, library", compare, [LIBRARY, REFERENCE], &NUMBERS);
}

#[test]
fn bindings_agree_with_the_reference() {
    assert_agrees("cEMI, bindings", compare, [BINDINGS, REFERENCE], &NUMBERS);
}

fn assert_noticed(name: &str, reference: Implementation) {
    let Err(difference) = compare(LIBRARY, reference, seed()) else {
        panic!("not noticed: {name}");
    };
    println!("{name}: {difference:.160}");
}

#[test]
fn wrong_readers_are_noticed() {
    for (name, read) in wrong_messages::readers::<0>() {
        assert_noticed(name, Implementation { read, ..REFERENCE });
    }
}

#[test]
fn wrong_writers_are_noticed() {
    for (name, write) in wrong_messages::writers::<0>() {
        assert_noticed(name, Implementation { write, ..REFERENCE });
    }
}
