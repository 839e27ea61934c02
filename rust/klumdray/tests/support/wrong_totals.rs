//! References of increments and of the total with one rule turned round.

use crate::leaks::{by_total, packed_increment, Implementation, REFERENCE, TOTAL};
use reference::leak;

/// The reference with increments by another rule, which says whether a payload of four or more octets
/// is one.
macro_rules! increments {
    ($is_increment:expr) => {
        Implementation {
            increment: |payload| match *payload {
                [tpci, apci, high, low, ..] => {
                    let is_increment: fn(u8, u8, usize) -> bool = $is_increment;
                    let code = u16::from_be_bytes([high, low]);
                    let found = is_increment(tpci, apci, payload.len());
                    packed_increment(found.then_some(code))
                }
                _ => 0,
            },
            ..REFERENCE
        }
    };
}

/// Three octets, whose last is the low one.
fn shorter_taken(payload: &[u8]) -> u32 {
    match *payload {
        [0x00, 0x80, low] => packed_increment(Some(low.into())),
        _ => (REFERENCE.increment)(payload),
    }
}

fn low_octet_first(payload: &[u8]) -> u32 {
    let code = leak::increment(payload).map(u16::swap_bytes);
    packed_increment(code)
}

fn invalid_is_none(payload: &[u8]) -> u32 {
    let code = leak::increment(payload).filter(|&code| code != 0x7fff);
    packed_increment(code)
}

pub const INCREMENTS: [(&str, Implementation); 9] = [
    (
        "81h taken",
        increments!(|tpci, apci, length| tpci == 0 && apci | 1 == 0x81 && length == 4),
    ),
    (
        "low bits of 80h not tested",
        increments!(|tpci, apci, length| tpci == 0 && apci & 0xc0 == 0x80 && length == 4),
    ),
    (
        "second octet not tested",
        increments!(|tpci, _, length| tpci == 0 && length == 4),
    ),
    (
        "first octet not tested",
        increments!(|_, apci, length| apci == 0x80 && length == 4),
    ),
    (
        "low bits of the first octet alone",
        increments!(|tpci, apci, length| tpci & 3 == 0 && apci == 0x80 && length == 4),
    ),
    (
        "longer payloads taken",
        increments!(|tpci, apci, _| tpci == 0 && apci == 0x80),
    ),
    (
        "shorter payloads taken",
        Implementation {
            increment: shorter_taken,
            ..REFERENCE
        },
    ),
    (
        "low octet first",
        Implementation {
            increment: low_octet_first,
            ..REFERENCE
        },
    ),
    (
        "7FFFh as no increment",
        Implementation {
            increment: invalid_is_none,
            ..REFERENCE
        },
    ),
];

macro_rules! sums {
    ($add:expr) => {
        Implementation {
            add: |block, code| by_total(block, code, $add),
            ..REFERENCE
        }
    };
}

fn wrapping(total: i64, code: u16) -> Result<i64, u8> {
    leak::value(code).map(|value| total.wrapping_add(value.into()))
}

fn saturating(total: i64, code: u16) -> Result<i64, u8> {
    leak::value(code).map(|value| total.saturating_add(value.into()))
}

/// With the value that 7FFFh would have.
fn invalid_summed(total: i64, code: u16) -> Result<i64, u8> {
    match code {
        0x7fff => total.checked_add(2_047 << 15).ok_or(24),
        _ => leak::add(total, code),
    }
}

fn invalid_adds_nothing(total: i64, code: u16) -> Result<i64, u8> {
    match code {
        0x7fff => Ok(total),
        _ => leak::add(total, code),
    }
}

fn twenty_four_before_twenty_three(total: i64, code: u16) -> Result<i64, u8> {
    match invalid_summed(total, code) {
        Ok(_) => leak::add(total, code),
        refused => refused,
    }
}

fn without_the_ends(total: i64, code: u16) -> Result<i64, u8> {
    leak::add(total, code).and_then(|sum| match sum {
        i64::MIN | i64::MAX => Err(24),
        _ => Ok(sum),
    })
}

fn below_zero_refused(total: i64, code: u16) -> Result<i64, u8> {
    let sum = leak::add(total, code)?;
    if sum < 0 && total >= 0 {
        return Err(24);
    }
    Ok(sum)
}

fn amounts_alone(total: i64, code: u16) -> Result<i64, u8> {
    let value = i64::from(leak::value(code)?);
    total.checked_add(value.abs()).ok_or(24)
}

/// 24, but the sum is written.
fn refused_sum_stays(block: &mut [u8], code: u32) -> u32 {
    let answer = (REFERENCE.add)(block, code);
    if answer == 24 {
        by_total(block, code, wrapping);
    }
    answer
}

fn total_low_octet_first(block: &mut [u8], code: u32) -> u32 {
    block.reverse();
    let answer = (REFERENCE.add)(block, code);
    block.reverse();
    answer
}

fn longer_blocks_taken(block: &mut [u8], code: u32) -> u32 {
    let length = block.len().min(TOTAL);
    (REFERENCE.add)(&mut block[..length], code)
}

fn code_cut(block: &mut [u8], code: u32) -> u32 {
    (REFERENCE.add)(block, code & 0xffff)
}

/// The reference with another way from a block to its answer.
const fn of_blocks(add: fn(&mut [u8], u32) -> u32) -> Implementation {
    Implementation { add, ..REFERENCE }
}

pub const SUMS: [(&str, Implementation); 12] = [
    ("sum that wraps", sums!(wrapping)),
    ("sum that stays at an end", sums!(saturating)),
    ("7FFFh summed", sums!(invalid_summed)),
    ("7FFFh adds nothing", sums!(invalid_adds_nothing)),
    ("24 before 23", sums!(twenty_four_before_twenty_three)),
    ("ends of the range refused", sums!(without_the_ends)),
    ("below zero refused", sums!(below_zero_refused)),
    ("amounts without their sign", sums!(amounts_alone)),
    ("refused sum written", of_blocks(refused_sum_stays)),
    ("total's low octet first", of_blocks(total_low_octet_first)),
    ("longer blocks taken", of_blocks(longer_blocks_taken)),
    ("code cut", of_blocks(code_cut)),
];
