//! The comparison for the two-octet float and the total: the proved library and the bindings over it
//! beside the reference.

#[path = "support/leaks.rs"]
mod leaks;
#[path = "support/wrong_leaks.rs"]
mod wrong_leaks;
#[path = "support/wrong_totals.rs"]
mod wrong_totals;

use inputs::leaks::{borders, some_code, some_hundredths, some_total, INVALID, LEAST, MOST};
use inputs::{seed, Generator};
use leaks::{Comparison, Implementation, BINDINGS, LIBRARY, REFERENCE, TOTAL};
use std::thread;

/// One part of the comparison.
type Part = fn(&mut Comparison, &mut Generator) -> Result<(), String>;

/// All codes, and numbers that are none.
fn values(comparison: &mut Comparison, _: &mut Generator) -> Result<(), String> {
    for code in 0..=0xffff {
        comparison.value(code)?;
    }
    for code in [0, 0x0c1a, INVALID.into(), 0xffff] {
        for above in [1 << 16, 1 << 17, 1 << 31] {
            comparison.value(code | above)?;
        }
    }
    Ok(())
}

/// All pairs of octets, all single ones, and slices of 0 to 5 octets.
fn reads(comparison: &mut Comparison, generator: &mut Generator) -> Result<(), String> {
    for code in 0..=0xffff {
        comparison.read(&u16::to_be_bytes(code))?;
    }
    for octet in 0..=255 {
        comparison.read(&[octet])?;
    }
    for length in (0..=5).flat_map(|length| [length; 100]) {
        comparison.read(&generator.octets(length))?;
        comparison.read(&[0x7f, 0xff, 0x00, 0x00, 0x00][..length])?;
    }
    Ok(())
}

/// How far around a border every number is written, and how many besides come from the seed.
const AROUND: i64 = 5_000;
const FROM_SEED: usize = 200_000;

/// Every number near a border of the writer's rules, others from the seed, and numbers far outside the
/// range.
fn writes(comparison: &mut Comparison, generator: &mut Generator) -> Result<(), String> {
    let mut borders = borders();
    borders.sort_unstable();
    let mut end = i64::MIN;
    for border in borders {
        let start = end.max(border - AROUND);
        end = border + AROUND + 1;
        for hundredths in start..end {
            comparison.write(hundredths)?;
        }
    }
    for _ in 0..FROM_SEED / 2 {
        comparison.write(some_hundredths(generator))?;
        let any = LEAST + generator.below((MOST - LEAST + 1) as usize) as i64;
        comparison.write(any)?;
    }
    for hundredths in [i64::MIN, i64::MIN + 1, i64::MAX - 1, i64::MAX] {
        comparison.write(hundredths)?;
    }
    // A number in the range, and bits that 32 bits lack.
    for bit in 27..63 {
        for hundredths in [LEAST, -1, 0, 1, MOST, generator.below(1 << 26) as i64] {
            comparison.write(hundredths.wrapping_add(1 << bit))?;
            comparison.write(hundredths.wrapping_sub(1 << bit))?;
        }
    }
    Ok(())
}

/// Payloads of 0 to 8 octets, with all values of the first and of the second octet, and of those that
/// are the code.
fn increments(comparison: &mut Comparison, generator: &mut Generator) -> Result<(), String> {
    for length in 0..=8 {
        for place in 0..length.min(4) {
            for octet in 0..=255 {
                let mut payload = [&[0x00, 0x80], &generator.octets(6)[..]].concat();
                payload[place] = octet;
                comparison.increment(&payload[..length])?;
            }
        }
        for _ in 0..500 {
            comparison.increment(&generator.octets(length))?;
        }
    }
    for first in (0..=0xffff).map(u16::to_be_bytes) {
        comparison.increment(&[first[0], first[1], generator.octet(), generator.octet()])?;
    }
    for code in (0..=0xffff).map(u16::to_be_bytes) {
        comparison.increment(&[0x00, 0x80, code[0], code[1]])?;
    }
    comparison.increment(&[])
}

/// The sum of every code at both ends of the total: one before the end, the end, one past it.
fn ends(comparison: &mut Comparison, _: &mut Generator) -> Result<(), String> {
    for code in 0..=0xffff {
        let value = i64::from(reference::leak::value(code).unwrap_or(0));
        for end in [i64::MIN, i64::MAX] {
            for past in -1..=1 {
                let start = end.wrapping_sub(value).wrapping_add(past);
                comparison.add(&mut start.to_be_bytes(), code.into())?;
            }
        }
    }
    Ok(())
}

/// Series of increments. "after any series of accepted increments" the total "equals the start plus
/// the sum of their values".
fn series(comparison: &mut Comparison, generator: &mut Generator) -> Result<(), String> {
    for _ in 0..500 {
        let start = some_total(generator);
        let (mut block, mut sum) = (start.to_be_bytes(), i128::from(start));
        for _ in 0..generator.below(200) {
            let code = some_code(generator);
            if comparison.add(&mut block, code.into())? == 0 {
                let value = reference::leak::value(code).expect("an accepted increment");
                sum += i128::from(value);
            }
            assert_eq!(i128::from(i64::from_be_bytes(block)), sum);
        }
    }
    Ok(())
}

/// Blocks of another length, and numbers that are no code, in any order of refusals.
fn blocks(comparison: &mut Comparison, generator: &mut Generator) -> Result<(), String> {
    for length in 0..=TOTAL + 1 {
        for code in [0x0c1a, INVALID.into(), 1 << 16, 0x0c1a | 1 << 31] {
            let (high, low) = (
                &mut [0x7f; TOTAL + 1][..length],
                &mut [0xff; TOTAL + 1][..length],
            );
            for block in [high, low, &mut generator.octets(length)] {
                comparison.add(block, code)?;
            }
        }
    }
    Ok(())
}

const PARTS: [Part; 7] = [values, reads, writes, increments, ends, series, blocks];

fn compare(proved: Implementation, reference: Implementation) -> Result<Comparison, String> {
    let mut comparison = Comparison::new(proved, reference);
    let generator = &mut Generator::new(seed());
    for part in PARTS {
        part(&mut comparison, generator)?;
    }
    Ok(comparison)
}

fn assert_agrees(name: &str, proved: Implementation) {
    let seed = seed();
    println!("float and total, {name} and reference, KLUMDRAY_SEED={seed:#x}");
    match compare(proved, REFERENCE) {
        Ok(comparison) => {
            println!("float and total, {name}: {comparison}");
            comparison.assert_covers();
        }
        Err(difference) => panic!("KLUMDRAY_SEED={seed:#x}: {difference}"),
    }
}

#[test]
fn library_agrees_with_the_reference() {
    assert_agrees("library", LIBRARY);
}

#[test]
fn bindings_agree_with_the_reference() {
    assert_agrees("bindings", BINDINGS);
}

/// The first number from one to another that is not written as the reference writes it.
fn first_difference(from: i64, to: i64) -> Option<i64> {
    (from..=to).find(|&hundredths| {
        let expected = (REFERENCE.write)(hundredths);
        (LIBRARY.write)(hundredths) != expected || (BINDINGS.write)(hundredths) != expected
    })
}

/// Where each call goes to an emulated process, those that the comparison above has are all.
#[test]
fn all_numbers_of_the_range_are_written_alike() {
    if klumdray::LINKED == "emulated" {
        println!("numbers written: SAMPLED, since the library is emulated");
        return;
    }
    let halves = [(LEAST, -1), (0, MOST)];
    let found = thread::scope(|scope| {
        let started = halves.map(|(from, to)| scope.spawn(move || first_difference(from, to)));
        started.map(|half| half.join().expect("a half of the range"))
    });
    println!("numbers written: all {}", MOST - LEAST + 1);
    assert_eq!(found, [None, None]);
}

/// References with one rule turned round, and the library must be found to differ from them.
fn assert_noticed(references: &[(&str, Implementation)], parts: &[Part]) {
    for &(name, reference) in references {
        let comparison = &mut Comparison::new(LIBRARY, reference);
        let generator = &mut Generator::new(seed());
        match parts
            .iter()
            .try_for_each(|part| part(comparison, generator))
        {
            Ok(()) => panic!("not noticed: {name}"),
            Err(difference) => println!("{name}: {difference:.160}"),
        }
    }
}

#[test]
fn wrong_readers_are_noticed() {
    assert_noticed(&wrong_leaks::READERS, &[values, reads]);
    assert_noticed(&wrong_leaks::READERS_OF_OCTETS, &[reads]);
}

#[test]
fn wrong_writers_are_noticed() {
    assert_noticed(&wrong_leaks::WRITERS, &[writes]);
}

#[test]
fn wrong_increments_are_noticed() {
    assert_noticed(&wrong_totals::INCREMENTS, &[increments]);
}

#[test]
fn wrong_sums_are_noticed() {
    assert_noticed(&wrong_totals::SUMS, &[ends, series, blocks]);
}
