//! References of the two-octet float with one rule turned round.

use crate::leaks::{of_code, packed_code, packed_value, Implementation, REFERENCE};
use reference::leak;

/// Sign, E and the eleven mantissa bits.
fn parts(code: u16) -> (bool, u32, i32) {
    let mantissa = i32::from(code & 0x07ff);
    (code >> 15 == 1, u32::from(code >> 11 & 15), mantissa)
}

/// A reader of codes with another rule, its slices with it.
macro_rules! reader {
    ($value:expr) => {
        Implementation {
            value: |code| packed_value(of_code(code, $value)),
            read: |octets| match *octets {
                [high, low] => packed_value($value(u16::from_be_bytes([high, low]))),
                _ => (REFERENCE.read)(octets),
            },
            ..REFERENCE
        }
    };
}

fn sign_apart(code: u16) -> Result<i32, u8> {
    leak::value(code)?;
    let (is_negative, exponent, mantissa) = parts(code);
    let value = mantissa << exponent;
    Ok(if is_negative { -value } else { value })
}

fn sign_forgotten(code: u16) -> Result<i32, u8> {
    leak::value(code)?;
    let (_, exponent, mantissa) = parts(code);
    Ok(mantissa << exponent)
}

fn three_exponent_bits(code: u16) -> Result<i32, u8> {
    leak::value(code)?;
    let (is_negative, exponent, mantissa) = parts(code);
    Ok((mantissa - 2_048 * i32::from(is_negative)) << (exponent & 7))
}

fn invalid_is_read(code: u16) -> Result<i32, u8> {
    match code {
        0x7fff => Ok(2_047 << 15),
        _ => leak::value(code),
    }
}

/// All with the highest exponent and mantissa bits, whatever the sign is.
fn negative_invalid_too(code: u16) -> Result<i32, u8> {
    match code & 0x7fff {
        0x7fff => Err(23),
        _ => leak::value(code),
    }
}

fn sixteen_bits_of_value(code: u16) -> Result<i32, u8> {
    leak::value(code).map(|value| i32::from(value as i16))
}

pub const READERS: [(&str, Implementation); 6] = [
    ("sign as a bit of its own", reader!(sign_apart)),
    ("sign forgotten", reader!(sign_forgotten)),
    ("three exponent bits", reader!(three_exponent_bits)),
    ("7FFFh read", reader!(invalid_is_read)),
    ("FFFFh refused too", reader!(negative_invalid_too)),
    ("value of sixteen bits", reader!(sixteen_bits_of_value)),
];

/// The reference with other slices.
const fn of_octets(read: fn(&[u8]) -> u64) -> Implementation {
    Implementation { read, ..REFERENCE }
}

fn low_octet_first(octets: &[u8]) -> u64 {
    let mut turned = octets.to_vec();
    turned.reverse();
    (REFERENCE.read)(&turned)
}

fn octets_left_allowed(octets: &[u8]) -> u64 {
    (REFERENCE.read)(&octets[..octets.len().min(2)])
}

fn missing_octet_is_zero(octets: &[u8]) -> u64 {
    match *octets {
        [high] => (REFERENCE.read)(&[high, 0]),
        _ => (REFERENCE.read)(octets),
    }
}

fn twenty_three_before_five(octets: &[u8]) -> u64 {
    match octets {
        [0x7f, 0xff, ..] => 23,
        _ => (REFERENCE.read)(octets),
    }
}

pub const READERS_OF_OCTETS: [(&str, Implementation); 4] = [
    ("low octet first", of_octets(low_octet_first)),
    ("octets left allowed", of_octets(octets_left_allowed)),
    (
        "missing octet taken for 00h",
        of_octets(missing_octet_is_zero),
    ),
    ("23 before 5", of_octets(twenty_three_before_five)),
];

/// What a writer makes of a number at an E: M, if that E is used.
type Rule = fn(i64, u32) -> Option<i64>;

/// The writer with another rule, in the reference's range.
fn written(hundredths: i64, rule: Rule) -> u32 {
    let code = leak::write(hundredths).map(|_| {
        let found = (0..16).find_map(|exponent| Some((exponent, rule(hundredths, exponent)?)));
        found.map_or(0, |(exponent, number)| {
            let mantissa = (number & 0x07ff) as u16;
            u16::from(number < 0) << 15 | (exponent as u16) << 11 | mantissa
        })
    });
    packed_code(code)
}

macro_rules! writer {
    ($rule:expr) => {
        Implementation {
            write: |hundredths| written(hundredths, $rule),
            ..REFERENCE
        }
    };
}

fn fitting(number: i64) -> Option<i64> {
    (-2_048..=2_047).contains(&number).then_some(number)
}

/// Whether a number is halfway between two.
fn is_tie(hundredths: i64, exponent: u32) -> bool {
    exponent > 0 && hundredths.rem_euclid(1 << exponent) == 1 << (exponent - 1)
}

fn floor(hundredths: i64, exponent: u32) -> i64 {
    hundredths.div_euclid(1 << exponent)
}

/// The nearest, ties upwards.
fn upwards(hundredths: i64, exponent: u32) -> i64 {
    (2 * hundredths + (1 << exponent)).div_euclid(2 << exponent)
}

/// The nearest with ties by another rule: upwards or not.
fn with_ties(hundredths: i64, exponent: u32, is_upwards: bool) -> i64 {
    match is_tie(hundredths, exponent) && !is_upwards {
        true => floor(hundredths, exponent),
        false => upwards(hundredths, exponent),
    }
}

fn nearest(hundredths: i64, exponent: u32) -> i64 {
    let is_odd = floor(hundredths, exponent) & 1 == 1;
    with_ties(hundredths, exponent, is_odd)
}

fn ties_to_odd(hundredths: i64, exponent: u32) -> Option<i64> {
    let is_odd = floor(hundredths, exponent) & 1 == 1;
    fitting(with_ties(hundredths, exponent, !is_odd))
}

/// The nearest M of those that fit: so far as half of 2 to the E is enough.
fn nearest_of_the_fitting(hundredths: i64, exponent: u32) -> Option<i64> {
    let number = nearest(hundredths, exponent).clamp(-2_048, 2_047);
    let off = (number << exponent) - hundredths;
    (2 * off.abs() <= 1 << exponent).then_some(number)
}

/// An E that holds the number without rounding up: -2,049 and 2,047.5 are past it.
fn fits_before_it_is_rounded(hundredths: i64, exponent: u32) -> Option<i64> {
    let (least, most) = (-2_048 << exponent, 2_047 << exponent);
    let fits = (least..=most).contains(&hundredths);
    fits.then(|| nearest(hundredths, exponent))
}

/// Numbers that a smaller E would hold too.
fn larger_exponent(hundredths: i64, exponent: u32) -> Option<i64> {
    let number = nearest(hundredths, exponent);
    (-1_024..=1_023).contains(&number).then_some(number)
}

/// Seldom: only where a number needs no E at all.
fn exponent_one_for_even(hundredths: i64, exponent: u32) -> Option<i64> {
    let skips = exponent == 0 && hundredths != 0 && hundredths % 2 == 0;
    fitting(nearest(hundredths, exponent)).filter(|_| !skips)
}

/// As 7FFFh has the value 67,076,096, were it a number.
fn range_to_the_invalid(hundredths: i64) -> u32 {
    match hundredths {
        67_043_329..=67_059_712 => 0x7ffe << 16,
        67_059_713..=67_076_096 => 0x7fff << 16,
        _ => (REFERENCE.write)(hundredths),
    }
}

fn range_without(end: i64, hundredths: i64) -> u32 {
    match hundredths == end {
        true => 14,
        false => (REFERENCE.write)(hundredths),
    }
}

pub const WRITERS: [(&str, Implementation); 14] = [
    (
        "ties away from zero",
        writer!(|number, exponent| fitting(with_ties(number, exponent, number > 0))),
    ),
    (
        "ties to zero",
        writer!(|number, exponent| fitting(with_ties(number, exponent, number < 0))),
    ),
    (
        "ties upwards",
        writer!(|number, exponent| fitting(upwards(number, exponent))),
    ),
    ("ties to odd M", writer!(ties_to_odd)),
    (
        "rounded down",
        writer!(|number, exponent| fitting(floor(number, exponent))),
    ),
    (
        "rounded to zero",
        writer!(|number, exponent| fitting(number / (1 << exponent))),
    ),
    (
        "nearest M of those that fit",
        writer!(nearest_of_the_fitting),
    ),
    (
        "fit before it is rounded",
        writer!(fits_before_it_is_rounded),
    ),
    ("larger E than needed", writer!(larger_exponent)),
    ("E 1 for even numbers", writer!(exponent_one_for_even)),
    (
        "range to 67,076,096",
        Implementation {
            write: range_to_the_invalid,
            ..REFERENCE
        },
    ),
    (
        "range without its least",
        Implementation {
            write: |hundredths| range_without(-67_108_864, hundredths),
            ..REFERENCE
        },
    ),
    (
        "range without its most",
        Implementation {
            write: |hundredths| range_without(67_043_328, hundredths),
            ..REFERENCE
        },
    ),
    (
        "number of 32 bits",
        Implementation {
            write: |hundredths| (REFERENCE.write)(i64::from(hundredths as i32)),
            ..REFERENCE
        },
    ),
];
