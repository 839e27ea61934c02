//! Codes, numbers of hundredths, totals and payloads, so that the float and the total come to
//! everything they may come to.

use crate::Generator;

/// The ends of what the writer takes.
pub const LEAST: i64 = -67_108_864;
pub const MOST: i64 = 67_043_328;

/// "7FFFh is invalid".
pub const INVALID: u16 = 0x7fff;

/// Any, the invalid one, those beside it and at the ends, small numbers.
pub fn some_code(generator: &mut Generator) -> u16 {
    match generator.below(8) {
        0 => INVALID,
        1 => generator.one_of(&[0x7ffe, 0xf800, 0xffff, 0x7800, 0x0000, 0x8000]),
        2 => generator.below(2_048) as u16,
        _ => generator.field(),
    }
}

/// Near an end, near 0, any.
pub fn some_total(generator: &mut Generator) -> i64 {
    let way = generator.below(1 << 28) as i64;
    match generator.below(6) {
        0 => i64::MAX - way,
        1 => i64::MIN + way,
        2 => i64::MAX - way % 4_096,
        3 => i64::MIN + way % 4_096,
        4 => way - (1 << 27),
        _ => generator.number() as i64,
    }
}

/// An increment, or what is nearly one: with another first or second octet, longer or shorter; or any.
pub fn some_payload(generator: &mut Generator) -> Vec<u8> {
    let [high, low] = some_code(generator).to_be_bytes();
    let mut payload = vec![0x00, 0x80, high, low];
    match generator.below(24) {
        0 => payload[0] = generator.damage(),
        1 => payload[0] ^= 1 << generator.below(8),
        2 => payload[1] = 0x81,
        3 => payload[1] ^= 1 << generator.below(8),
        4 => payload[1] = generator.octet(),
        5 => payload.truncate(1 + generator.below(3)),
        6 => payload.push(generator.octet()),
        7 => payload.extend([0x00; 2]),
        8 => {
            let length = generator.one_of(&[1, 16, 17, 255]);
            payload = generator.octets(length);
        }
        _ => {}
    }
    payload
}

/// Where the writer turns from one rule to the next: the ends, 0, and for each E the least and the
/// greatest M, the ties beyond them, from which on another E is used, and the tie between 0 and 1.
pub fn borders() -> Vec<i64> {
    let mut borders = vec![LEAST, MOST, 0];
    for exponent in 0..=15 {
        // Twice the M.
        for twice in [-4_097, -4_096, 4_094, 4_095, 1] {
            borders.push((twice << exponent) / 2);
        }
    }
    borders
}

/// A number within reach of the writer's range, large ones as often as small ones.
pub fn some_hundredths(generator: &mut Generator) -> i64 {
    let bits = 1 + generator.below(27);
    let number = generator.below(1 << bits) as i64;
    match generator.below(2) {
        0 => number,
        _ => -number,
    }
}
