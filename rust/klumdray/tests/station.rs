//! The comparison for the station: the proved library and the bindings over it beside the reference,
//! in series that carry total and memory on.

#[path = "support/stations.rs"]
mod stations;
#[path = "support/wrong_stations.rs"]
mod wrong_stations;

use inputs::leaks::some_total;
use inputs::meters::Meters;
use inputs::{seed, Generator};
use klumdray::station::{self, Station};
use klumdray::Refusal;
use reference::station::Taken;
use stations::{
    library_take, packed, reference_take, Call, Comparison, Lent, Taker, MEMORY, TOTAL,
};

/// The reader's, 14, and those of an increment.
const NUMBERS: [u8; 10] = [0, 1, 2, 3, 4, 5, 6, 14, 23, 24];
const LONGEST_SERIES: usize = 100;

/// How much is compared.
#[derive(Clone, Copy)]
struct Extent {
    calls: u64,
    /// Whether memories are lent that no call leaves.
    spoils_memory: bool,
}

const LIBRARY: Extent = Extent {
    calls: 500_000,
    spoils_memory: true,
};

/// The bindings have no such memory.
const BINDINGS: Extent = Extent {
    calls: 300_000,
    spoils_memory: false,
};

/// Series of frames, each for a new station that remembers nothing.
fn compare<'s>(
    proved: &'s mut Taker,
    reference: &'s mut Taker,
    extent: Extent,
) -> Result<Comparison<'s>, String> {
    let mut comparison = Comparison::new(proved, reference);
    let generator = &mut Generator::new(seed());
    while comparison.calls() < extent.calls {
        let mut meters = Meters::new(generator);
        comparison.begin(some_total(generator));
        for _ in 0..=generator.below(LONGEST_SERIES) {
            if extent.spoils_memory && generator.one_in(50) {
                spoil(&mut comparison, generator);
            }
            let call = some_call(generator, &mut meters);
            comparison.take(&call)?;
        }
    }
    Ok(comparison)
}

/// A frame to a station with its blocks, in one call of 32 with something wrong with them or the group.
fn some_call(generator: &mut Generator, meters: &mut Meters) -> Call {
    let mut call = Call {
        group: meters.group.into(),
        total: TOTAL,
        memory: MEMORY,
        octets: meters.next(generator),
    };
    if generator.one_in(32) {
        match generator.below(4) {
            0 => call.group |= generator.one_of(&[1 << 16, 1 << 31]),
            1 => call.total = generator.one_of(&[0, TOTAL - 1, TOTAL + 1]),
            2 => call.memory = generator.one_of(&[0, 2, MEMORY - 1, MEMORY + 1]),
            _ => (call.total, call.memory) = (0, 0),
        }
    }
    call
}

/// Lets a station remember what no call leaves: a size above 263, which is none, or of less than a
/// frame, or one more or less than the frame's, or any; another check octet; another bit.
fn spoil(comparison: &mut Comparison<'_>, generator: &mut Generator) {
    let mut remembered = comparison.remembered();
    let size = remembered.size;
    match generator.below(8) {
        0 => remembered.size = 264,
        1 => remembered.size = 264 + generator.below(65_536 - 264),
        2 => remembered.size = generator.below(8),
        3 => remembered.size = generator.below(264),
        4 => remembered.size = (size + 1).min(263),
        5 => remembered.size = size.saturating_sub(1),
        6 => remembered.octets[size.clamp(1, 263) - 1] ^= generator.damage(),
        _ => remembered.octets[generator.below(size.clamp(1, 263))] ^= 1 << generator.below(8),
    }
    comparison.spoil(&remembered);
}

fn assert_agrees(name: &str, proved: &mut Taker, extent: Extent) {
    let seed = seed();
    println!("station, {name} and reference, KLUMDRAY_SEED={seed:#x}");
    match compare(proved, &mut reference_take, extent) {
        Ok(comparison) => {
            println!("station, {name}: {comparison}");
            comparison.assert_covers(extent.calls, &NUMBERS);
        }
        Err(difference) => panic!("KLUMDRAY_SEED={seed:#x}: {difference}"),
    }
}

#[test]
fn library_agrees_with_the_reference() {
    assert_agrees("library", &mut library_take, LIBRARY);
}

#[test]
fn bindings_agree_with_the_reference() {
    assert_agrees("bindings", &mut *bindings(), BINDINGS);
}

/// The bindings with a station of their own.
fn bindings() -> Box<Taker> {
    let mut station = Station::new(0, 0);
    Box::new(move |lent| bindings_take(&mut station, lent))
}

/// By the bindings, wherever their types have what is lent, and with their own station, whose total and
/// frame are put into the blocks.
fn bindings_take(station: &mut Station, lent: &mut Lent<'_>) -> u32 {
    let Some(lent_station) = lent.station() else {
        return library_take(lent);
    };
    if lent_station.remembered.frame().is_none() {
        *station = Station::new(lent_station.group, lent_station.total);
        assert_eq!(station.remembered(), None);
    }
    let answer = station.take(lent.octets);
    lent.total.copy_from_slice(&station.total().to_be_bytes());
    if let Some(frame) = station.remembered() {
        lent.memory[..2].copy_from_slice(&(frame.len() as u16).to_be_bytes());
        lent.memory[2..][..frame.len()].copy_from_slice(frame);
    }
    packed(answer.map(taken).map_err(Refusal::number))
}

/// The same of the reference.
fn taken(proved: station::Taken) -> Taken {
    match proved {
        station::Taken::Counted(code) => Taken::Counted(code),
        station::Taken::Repetition => Taken::Repetition,
        station::Taken::AnotherGroup => Taken::AnotherGroup,
        station::Taken::NoIncrement => Taken::NoIncrement,
    }
}

/// R-2's meter, told frame by frame: the octets, and the station's answer and total behind them.
#[test]
fn the_story_of_a_meter() {
    let first = [
        0xbc, 0x47, 0x12, 0x12, 0x34, 0xe3, 0x00, 0x80, 0x0c, 0x1a, 0x00,
    ];
    let next = [
        0xbc, 0x47, 0x12, 0x12, 0x34, 0xe3, 0x00, 0x80, 0x0c, 0x1b, 0x00,
    ];
    let other = [
        0xbc, 0x47, 0x12, 0x12, 0x35, 0xe3, 0x00, 0x80, 0x0c, 0x1a, 0x00,
    ];
    let invalid = [
        0xbc, 0x47, 0x12, 0x12, 0x34, 0xe3, 0x00, 0x80, 0x7f, 0xff, 0x00,
    ];
    let damaged = with_check(next).map(|octet| if octet == 0x1b { 0x5b } else { octet });
    let mut station = Station::new(0x1234, 100);
    for (octets, answer, total) in [
        (
            with_check(first),
            Ok(station::Taken::Counted(0x0c1a)),
            2_200,
        ),
        (repeated(first), Ok(station::Taken::Repetition), 2_200),
        (damaged, Err(Refusal::CHECK_OCTET), 2_200),
        (repeated(next), Ok(station::Taken::Counted(0x0c1b)), 4_302),
        (with_check(invalid), Err(Refusal::INVALID), 4_302),
        (repeated(next), Ok(station::Taken::Repetition), 4_302),
        (with_check(other), Ok(station::Taken::AnotherGroup), 4_302),
        (repeated(next), Ok(station::Taken::Counted(0x0c1b)), 6_404),
    ] {
        assert_eq!(station.take(&octets), answer, "{octets:02x?}");
        assert_eq!(station.total(), total, "{octets:02x?}");
    }
    assert_eq!(station.remembered(), Some(&repeated(next)[..]));
}

fn with_check(mut octets: [u8; 11]) -> [u8; 11] {
    octets[10] = reference::check_octet(&octets[..10]);
    octets
}

/// The frame marked repeated.
fn repeated(mut octets: [u8; 11]) -> [u8; 11] {
    octets[0] &= !0x20;
    with_check(octets)
}

#[test]
fn wrong_stations_are_noticed() {
    for (name, mut reference) in wrong_stations::all() {
        match compare(&mut library_take, &mut *reference, LIBRARY) {
            Ok(_) => panic!("not noticed: {name}"),
            Err(difference) => println!("{name}: {difference:.160}"),
        }
    }
}

/// The wrong ones differ from the reference by their rules alone.
#[test]
fn right_station_is_not_noticed() {
    let mut right = wrong_stations::right();
    if let Err(difference) = compare(&mut library_take, &mut *right, LIBRARY) {
        panic!("{difference}");
    }
}
