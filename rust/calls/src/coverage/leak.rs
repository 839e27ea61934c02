//! Of the float, the total and the station: every E, every outcome, every block.

use super::{octets, SHORT, SMALL};
use crate::answer::leak::{MEMORY_SIZE, TOTAL_SIZE};
use crate::call::Function;
use crate::reader::{Reader, Row};
use std::collections::BTreeSet;

/// The rows of a function in both tables.
fn rows_of(function: Function) -> [Vec<Row>; 2] {
    [SHORT, SMALL].map(|options| {
        let octets = octets(options);
        let rows = Reader::new(&octets);
        rows.filter(|row| row.call.function == function).collect()
    })
}

#[test]
fn numbers_of_both_signs_are_written_with_every_e() {
    for rows in rows_of(Function::FloatWrite) {
        let accepted = rows.iter().filter(|row| row.answer.number as u8 == 0);
        // Sign and E.
        let kinds: BTreeSet<u64> = accepted.map(|row| row.answer.number >> 27).collect();
        assert_eq!(kinds, (0..32).collect());
    }
}

/// 4,095 and -4,097, which show how a number is rounded before it is seen whether M fits.
#[test]
fn the_borders_of_the_writer_come() {
    for rows in rows_of(Function::FloatWrite) {
        for (hundredths, code) in [(4_095, 0x1400), (-4_097, 0x8800), (67_043_328, 0x7ffe)] {
            let found = rows.iter().find(|row| row.call.signed() == hundredths);
            assert_eq!(found.unwrap().answer.number, code << 16, "{hundredths}");
        }
    }
}

#[test]
fn every_outcome_of_a_taken_frame_comes() {
    for rows in rows_of(Function::Take) {
        let kinds: BTreeSet<u64> = rows
            .iter()
            .map(|row| row.answer.number >> 8 & 0xff)
            .collect();
        assert_eq!(kinds, (0..=4).collect());
        let counted = rows.iter().filter(|row| row.answer.number >> 8 & 0xff == 1);
        assert!(counted.count() >= rows.len() / 10);
    }
}

#[test]
fn payloads_are_increments_or_not() {
    for rows in rows_of(Function::Increment) {
        let increments = rows.iter().filter(|row| row.answer.number >> 8 & 1 == 1);
        let increments = increments.count();
        assert!(increments >= rows.len() / 4 && increments < rows.len());
    }
}

/// Blocks one octet shorter or longer than they have to be, and none at all.
#[test]
fn blocks_of_other_lengths_come() {
    for (function, place, size) in [
        (Function::TotalAdd, 0, TOTAL_SIZE),
        (Function::Take, 0, TOTAL_SIZE),
        (Function::Take, 1, MEMORY_SIZE),
    ] {
        for rows in rows_of(function) {
            let lengths: BTreeSet<usize> = rows
                .iter()
                .map(|row| row.call.rooms()[place].len())
                .collect();
            assert_eq!(lengths, [0, size - 1, size, size + 1].into());
        }
    }
}
