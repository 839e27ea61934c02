//! The KNX two-octet float (DPT 9) and the leak total: document 02, "R-4. Litres that add up".
//!
//! A code is the number 0000h to FFFFh that the two octets form, the high octet first.

use crate::refusal::{INVALID, OCTETS_LEFT, PAST_TOTAL, RANGE, TOO_FEW};
use std::cmp::Ordering;
use std::ops::RangeInclusive;

/// "7FFFh is invalid and refused (23)."
const NO_NUMBER: u16 = 0x7fff;

/// "The writer takes hundredths from -67,108,864 to 67,043,328"
const WRITTEN: RangeInclusive<i64> = -67_108_864..=67_043_328;

/// What a twelve-bit two's complement number can be.
const MANTISSAS: RangeInclusive<i64> = -2_048..=2_047;

/// What four exponent bits can be.
const EXPONENTS: RangeInclusive<u32> = 0..=15;

/// TPCI of a group telegram, and behind it the APCI of GroupValueWrite whose value follows in
/// octets of its own, as the KNX specifications have them.
const GROUP_VALUE_WRITE: [u8; 2] = [0x00, 0x80];

/// "sign, four exponent bits E, eleven mantissa bits; sign and mantissa form a twelve-bit two's
/// complement number M. Its value is M times 2 to the E hundredths, the signed number of hundredths
/// that the two octets stand for; 7FFFh is invalid and refused (23)."
pub fn value(code: u16) -> Result<i32, u8> {
    if code == NO_NUMBER {
        return Err(INVALID);
    }
    let sign = i32::from(code >> 15);
    let exponent = u32::from(code >> 11 & 0b1111);
    let mantissa = i32::from(code & 0b111_1111_1111);
    // In two's complement the highest of twelve bits stands for -2 to the 11.
    let number = mantissa - 2_048 * sign;
    Ok(number * 2_i32.pow(exponent))
}

/// The value of two octets: "fewer octets than the frame needs" (1), "octets left after the frame"
/// (5), then 23.
pub fn read(octets: &[u8]) -> Result<i32, u8> {
    match *octets {
        [] | [_] => Err(TOO_FEW),
        [high, low] => value(u16::from_be_bytes([high, low])),
        [_, _, _, ..] => Err(OCTETS_LEFT),
    }
}

/// "The writer takes hundredths from -67,108,864 to 67,043,328, else refuses (14), and uses the
/// smallest E for which the nearest M, ties to even M, fits"
pub fn write(hundredths: i64) -> Result<u16, u8> {
    if !WRITTEN.contains(&hundredths) {
        return Err(RANGE);
    }
    let code = EXPONENTS.into_iter().find_map(|exponent| {
        let number = nearest(hundredths, exponent);
        MANTISSAS.contains(&number).then(|| code(exponent, number))
    });
    Ok(code.expect("at E 15 the nearest M of every number in the range fits"))
}

/// "the nearest M, ties to even M": the whole number that, times 2 to the E, comes nearest.
fn nearest(hundredths: i64, exponent: u32) -> i64 {
    let unit = 2_i64.pow(exponent);
    // The two around it are this one and the next above, for numbers below zero too.
    let below = hundredths.div_euclid(unit);
    let rest = hundredths.rem_euclid(unit);
    match (2 * rest).cmp(&unit) {
        Ordering::Less => below,
        Ordering::Greater => below + 1,
        Ordering::Equal if below % 2 == 0 => below,
        Ordering::Equal => below + 1,
    }
}

/// "sign, four exponent bits E, eleven mantissa bits", of an M and an E that fit.
fn code(exponent: u32, number: i64) -> u16 {
    let sign = u16::from(number < 0);
    let mantissa = number.rem_euclid(2_048) as u16;
    sign << 15 | (exponent as u16) << 11 | mantissa
}

/// The code of an increment, where a payload is one: a GroupValueWrite of a two-octet float, which
/// has four octets, 00h 80h and the two.
pub fn increment(payload: &[u8]) -> Option<u16> {
    match *payload {
        [tpci, apci, high, low] if [tpci, apci] == GROUP_VALUE_WRITE => {
            Some(u16::from_be_bytes([high, low]))
        }
        _ => None,
    }
}

/// "The total is kept in 64 bits of hundredths and after any series of accepted increments equals
/// the start plus the sum of their values; a sum past the range is refused (24) and the total
/// stays." 23 comes first, since an invalid increment has no sum.
pub fn add(total: i64, code: u16) -> Result<i64, u8> {
    let sum = i128::from(total) + i128::from(value(code)?);
    i64::try_from(sum).map_err(|_| PAST_TOTAL)
}

#[cfg(test)]
mod tests;
