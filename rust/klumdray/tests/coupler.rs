//! The comparison for the coupler step: the proved library and the bindings over it beside the
//! reference, in series that carry the memory on.

#[path = "support/bit_by_bit.rs"]
mod bit_by_bit;
#[path = "support/couplers.rs"]
mod couplers;
#[path = "support/repetitions.rs"]
mod repetitions;
#[path = "support/traffic.rs"]
mod traffic;
#[path = "support/wrong_couplers.rs"]
mod wrong_couplers;
#[path = "support/wrong_repetitions.rs"]
mod wrong_repetitions;

use couplers::{library_step, packed, put_frame, reference_step, settings, Comparison, Lent};
use couplers::{Stepper, LARGEST_ROOM, MEMORY};
use inputs::{seed, Generator};
use klumdray::coupler::{self, Medium, Memory, Settings, Side};
use klumdray::{raw, Refusal};
use reference::coupler::{Acknowledgement, Coupler, Outcome, TABLE_SIZE};
use traffic::Series;

const NUMBERS: [u8; 17] = [0, 1, 2, 3, 4, 5, 6, 7, 8, 9, 10, 11, 12, 13, 14, 15, 18];
const LONGEST_SERIES: usize = 100;

/// How much is compared.
#[derive(Clone, Copy)]
struct Extent {
    steps: u64,
    /// Whether memories are lent that no step leaves.
    spoils_memory: bool,
}

const LIBRARY: Extent = Extent {
    steps: 2_000_000,
    spoils_memory: true,
};

/// The bindings have no such memory.
const BINDINGS: Extent = Extent {
    steps: 1_000_000,
    spoils_memory: false,
};

/// Series of steps: of one coupler, in every second one with other settings, or of a new one with
/// nothing remembered.
fn compare<'s>(
    proved: &'s mut Stepper,
    reference: &'s mut Stepper,
    seed: u64,
    extent: Extent,
) -> Result<Comparison<'s>, String> {
    let mut comparison = Comparison::new(proved, reference);
    let generator = &mut Generator::new(seed);
    let mut series = Series::new(generator);
    while comparison.steps() < extent.steps {
        if generator.one_in(2) {
            series = Series::new(generator);
            comparison.forget();
        } else {
            series.set(generator);
        }
        for _ in 0..=generator.below(LONGEST_SERIES) {
            if extent.spoils_memory && generator.one_in(50) {
                spoil(&mut comparison, generator);
            }
            let step = series.step(generator);
            comparison.step(series.setting(&step), step.memory, &step.octets, step.room)?;
        }
    }
    Ok(comparison)
}

/// Lets a side remember what no step leaves: a size above 263, which "counts as no frame remembered",
/// or of less than a frame, or one more or less than the frame's, or any; another check octet; another
/// bit.
fn spoil(comparison: &mut Comparison<'_>, generator: &mut Generator) {
    let side = generator.below(2);
    let mut remembered = comparison.remembered(side);
    let size = remembered.size;
    match generator.below(8) {
        0 => remembered.size = 264,
        1 => remembered.size = 264 + generator.below(65_536 - 264),
        2 => remembered.size = generator.below(8),
        3 => remembered.size = generator.below(264),
        4 => remembered.size = (size + 1).min(263),
        5 => remembered.size = size.saturating_sub(1),
        6 => remembered.octets[size.clamp(1, 263) - 1] ^= generator.damage(),
        _ => remembered.octets[generator.below(size.clamp(1, 263))] ^= 1 << generator.below(8),
    }
    comparison.spoil(side, &remembered);
}

fn assert_agrees(name: &str, proved: &mut Stepper, extent: Extent) {
    let seed = seed();
    println!("coupler, {name} and reference, KLUMDRAY_SEED={seed:#x}");
    match compare(proved, &mut reference_step, seed, extent) {
        Ok(comparison) => {
            println!("coupler, {name}: {comparison}");
            comparison.assert_covers(extent.steps, &NUMBERS);
        }
        Err(difference) => panic!("KLUMDRAY_SEED={seed:#x}: {difference}"),
    }
}

#[test]
fn library_agrees_with_the_reference() {
    assert_agrees("library", &mut library_step, LIBRARY);
}

#[test]
fn bindings_agree_with_the_reference() {
    assert_agrees("bindings", &mut *bindings(), BINDINGS);
}

#[test]
fn library_and_bindings_agree_bit_by_bit() {
    for (name, proved) in [
        ("library", &mut library_step as &mut Stepper),
        ("bindings", &mut *bindings()),
    ] {
        match bit_by_bit::compare(proved, &mut reference_step) {
            Ok(comparison) => println!("coupler bit by bit, {name}: {comparison}"),
            Err(difference) => panic!("{name}: {difference}"),
        }
    }
}

/// The bindings with a memory of their own.
fn bindings() -> Box<Stepper> {
    let mut memory = Memory::new();
    Box::new(move |lent| bindings_step(&mut memory, lent))
}

/// By the bindings, wherever their types have what is lent, and with their own memory, whose
/// frames are put into the block.
fn bindings_step(memory: &mut Memory, lent: &mut Lent<'_>) -> u64 {
    let side = lent.setting.side;
    let (Some((Coupler { line, codes, table }, medium @ 0..=1)), MEMORY, 0..=1) =
        (lent.coupler(), lent.memory.len(), side)
    else {
        return library_step(lent);
    };
    if lent.memory.iter().all(|&octet| octet == 0) {
        *memory = Memory::new();
    }
    let settings = Settings {
        line,
        codes,
        medium: [Medium::Tp1, Medium::Ip][usize::from(medium)],
        table,
    };
    let side = [Side::Main, Side::Sub][usize::from(side)];
    let front = lent.room.as_ptr();
    let outcome = coupler::step(&settings, side, memory, lent.octets, lent.room);
    assert_eq!(outcome.forwarded.as_ptr(), front);
    let answer = packed(Outcome {
        number: outcome.refusal.map_or(0, Refusal::number),
        acknowledgement: outcome.acknowledgement.map(acknowledgement),
        own: outcome.own,
        forwarded: outcome.forwarded.len(),
    });
    for (place, side) in [Side::Main, Side::Sub].into_iter().enumerate() {
        put_frame(lent.memory, place, memory.remembered(side).unwrap_or(&[]));
    }
    answer
}

/// The reference's acknowledgement with the octet of the bindings'.
fn acknowledgement(proved: coupler::Acknowledgement) -> Acknowledgement {
    let acknowledgement = match proved {
        coupler::Acknowledgement::Acknowledged => Acknowledgement::Acknowledged,
    };
    assert_eq!(proved.octet(), acknowledgement.octet());
    acknowledgement
}

/// A standard frame of 8 octets, first sending, with count 6.
fn frame(group: bool, destination: u16) -> [u8; 8] {
    let [d1, d0] = destination.to_be_bytes();
    let mut octets = [0xbc, 0xaf, 0xfe, d1, d0, u8::from(group) << 7 | 0x60, 0, 0];
    octets[7] = reference::check_octet(&octets[..7]);
    octets
}

/// Asserts for both directions that the library lets pass what the reference's rule does, and
/// says how many passed.
fn assert_passes(coupler: &Coupler<'_>, group: bool, destinations: &[u16]) -> u64 {
    use reference::coupler::Side;
    let (mut memory, mut room, mut passed) = ([0; MEMORY], [0; LARGEST_ROOM], 0);
    let settings = settings(coupler.line, coupler.codes, 0);
    for (number, side) in [(0, Side::Main), (1, Side::Sub)] {
        let setting = raw::Setting {
            settings: &settings,
            table: coupler.table,
            side: number,
        };
        for &destination in destinations {
            let octets = frame(group, destination);
            let answer = raw::step(&setting, &mut memory, &octets, &mut room);
            let own = !group && destination == u16::from(coupler.line) << 8;
            let passes = coupler.may_pass(side, group, destination);
            let acknowledged = own || passes;
            let expected = packed(Outcome {
                number: 0,
                acknowledgement: acknowledged.then_some(Acknowledgement::Acknowledged),
                own,
                forwarded: if passes { octets.len() } else { 0 },
            });
            let line = coupler.line;
            assert_eq!(
                answer, expected,
                "line {line:02x} side {number} to {destination:04x}"
            );
            passed += u64::from(passes);
        }
    }
    passed
}

#[test]
fn all_groups_agree() {
    let seed = seed();
    let table = Generator::new(seed).octets(TABLE_SIZE);
    let coupler = Coupler {
        line: 0x47,
        codes: [[0, 2, 1, 1], [0, 0, 1, 1]],
        table: &table,
    };
    println!("all group addresses, both directions, KLUMDRAY_SEED={seed:#x}");
    let groups: Vec<u16> = (0..=0xffff).collect();
    let passed = assert_passes(&coupler, true, &groups);
    println!("{} asked, {passed} passed", 2 * groups.len());
    assert!((60_000..71_000).contains(&passed));
}

fn is_emulated() -> bool {
    klumdray::LINKED == "emulated"
}

/// All, or a sample where each call goes to an emulated process: the first and the last address of
/// each line, and so of each area, and others at equal distances from a start by the seed.
fn destinations(generator: &mut Generator) -> Vec<u16> {
    if !is_emulated() {
        return (0..=0xffff).collect();
    }
    let borders = (0..=0xff).flat_map(|high: u16| [high << 8, high << 8 | 0xff]);
    let others = (generator.below(44) as u16..=0xffff).step_by(44);
    borders.chain(others).collect()
}

#[test]
fn individual_addresses_agree_on_all_lines() {
    let seed = seed();
    let extent = if is_emulated() {
        "SAMPLED, since the library is emulated"
    } else {
        "all 65,536"
    };
    println!("individual addresses: {extent}; 255 lines, both directions, KLUMDRAY_SEED={seed:#x}");
    let generator = &mut Generator::new(seed);
    let (mut asked, mut passed) = (0, 0);
    for line in 1..=255 {
        let coupler = Coupler {
            line,
            codes: [[1, 0, 0, 0]; 2],
            table: &[],
        };
        let destinations = destinations(generator);
        asked += 2 * destinations.len();
        passed += assert_passes(&coupler, false, &destinations);
    }
    println!("{asked} asked, {passed} passed");
}

fn assert_noticed(references: Vec<(&str, Box<Stepper>)>) {
    assert_noticed_by(&mut library_step, LIBRARY, references);
}

fn assert_noticed_by(proved: &mut Stepper, extent: Extent, references: Vec<(&str, Box<Stepper>)>) {
    for (name, mut reference) in references {
        match compare(proved, &mut *reference, seed(), extent) {
            Ok(_) => panic!("not noticed: {name}"),
            Err(difference) => println!("{name}: {difference:.160}"),
        }
    }
}

#[test]
fn wrong_forwarding_is_noticed() {
    assert_noticed(wrong_couplers::forwarding());
}

#[test]
fn wrong_passing_is_noticed() {
    assert_noticed(wrong_couplers::passing());
}

#[test]
fn wrong_acknowledging_is_noticed() {
    assert_noticed(wrong_couplers::acknowledging());
}

#[test]
fn wrong_remembering_is_noticed() {
    assert_noticed(wrong_couplers::remembering());
}

#[test]
fn wrong_comparing_is_noticed() {
    assert_noticed(wrong_repetitions::comparing());
    assert_noticed(wrong_repetitions::elsewhere());
}

#[test]
fn wrong_comparing_is_noticed_bit_by_bit() {
    for (name, mut reference) in wrong_repetitions::comparing() {
        match bit_by_bit::compare(&mut library_step, &mut *reference) {
            Ok(_) => panic!("not noticed: {name}"),
            Err(difference) => println!("{name}: {difference:.160}"),
        }
    }
}

/// The wrong ones differ from the reference by their rules alone.
#[test]
fn right_comparing_is_not_noticed() {
    let (mut library, mut right) = (library_step, wrong_repetitions::right());
    if let Err(difference) = compare(&mut library, &mut *right, seed(), LIBRARY) {
        panic!("{difference}");
    }
}

#[test]
fn wrong_refusing_is_noticed() {
    assert_noticed(wrong_couplers::refusing());
}

#[test]
fn wrong_outcomes_of_refused_steps_are_noticed() {
    assert_noticed(wrong_couplers::refused());
    assert_noticed_by(&mut *bindings(), BINDINGS, wrong_couplers::refused());
}
