//! The reference's answers of the two-octet float, the total and a station, whose total and memory are
//! in lent blocks.

use super::packed::{packed_sum, packed_taken, packed_value};
use super::{address, part, put_part};
use crate::call::Function;
use reference::leak;
use reference::refusal::RANGE;
use reference::station::{Station, Taken};

pub const TOTAL_SIZE: usize = 8;
/// Two octets of size, and the largest frame.
pub const MEMORY_SIZE: usize = 265;

pub fn number(function: Function, numbers: &[u32], slices: &[&[u8]], rooms: &mut [Vec<u8>]) -> u64 {
    match (function, numbers, slices, rooms) {
        (Function::FloatValue, &[code], [], []) => {
            packed_value(address(code).and_then(leak::value))
        }
        (Function::FloatRead, [], &[octets], []) => packed_value(leak::read(octets)),
        (Function::Increment, [], &[payload], []) => packed_increment(leak::increment(payload)),
        (Function::TotalAdd, &[code], [], [total]) => packed_sum(add(total, code)),
        (Function::Take, &[group], &[octets], [total, memory]) => {
            packed_taken(take(total, memory, group, octets))
        }
        _ => panic!("{function:?} has other arguments"),
    }
}

/// "bit 8: 1 if the payload is" one; the number is always 0.
fn packed_increment(code: Option<u16>) -> u64 {
    code.map_or(0, |code| 1 << 8 | u64::from(code) << 16)
}

/// The total that a block holds: "64 bits, two's complement, high octet first". 14 for another length.
fn total_in(block: &[u8]) -> Result<i64, u8> {
    let octets = block.try_into().map_err(|_| RANGE)?;
    Ok(i64::from_be_bytes(octets))
}

fn add(block: &mut [u8], code: u32) -> Result<i64, u8> {
    let sum = leak::add(total_in(block)?, address(code)?)?;
    block.copy_from_slice(&sum.to_be_bytes());
    Ok(sum)
}

/// "14 if the total's block has not 8 octets, the memory's not 265 or the group is above FFFFh", then
/// the reference's.
fn take(total: &mut [u8], memory: &mut [u8], group: u32, octets: &[u8]) -> Result<Taken, u8> {
    let (hundredths, group) = (total_in(total)?, address(group)?);
    if memory.len() != MEMORY_SIZE {
        return Err(RANGE);
    }
    let mut station = Station {
        group,
        total: hundredths,
        remembered: part(memory),
    };
    let taken = station.take(octets)?;
    total.copy_from_slice(&station.total.to_be_bytes());
    put_part(memory, &station.remembered);
    Ok(taken)
}
