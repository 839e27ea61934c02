//! The comparison for TP1: the proved library and the bindings over it beside the reference.

mod support;

use inputs::frames::mend_check;
use inputs::{seed, Generator};
use support::{packed_size, Answer, Comparison, Implementation, Kind, Reader, Request, Writer};

/// TP1 has neither message code nor error mark.
const KIND: Kind = Kind {
    code: 0,
    error_mark: 0,
};

const REFERENCE: Implementation = Implementation {
    read: reference_read,
    write: reference_write,
};

const LIBRARY: Implementation = Implementation {
    read: library_read,
    write: library_write,
};

const BINDINGS: Implementation = Implementation {
    read: bindings_read,
    write: bindings_write,
};

fn reference_read(octets: &[u8]) -> Answer<'_> {
    match reference::tp1::read(octets) {
        Ok(frame) => Answer {
            packed: Request::from(frame.meaning).packed(frame.payload),
            payload: frame.payload,
            information: &[],
        },
        Err(number) => Answer::refused(number),
    }
}

fn reference_write(request: &Request, payload: &[u8], room: &mut [u8]) -> u64 {
    packed_size(reference::tp1::write(&request.given(), payload, room))
}

fn library_read(octets: &[u8]) -> Answer<'_> {
    let packed = klumdray::raw::tp1_read(octets);
    let start = 6 + (packed >> 8 & 1) as usize;
    let length = (packed >> 48 & 0xff) as usize;
    let payload = octets.get(start..start + length).unwrap_or(&[]);
    Answer {
        packed,
        payload,
        information: &[],
    }
}

fn library_write(request: &Request, payload: &[u8], room: &mut [u8]) -> u64 {
    klumdray::raw::tp1_write(&request.numbers(), payload, room)
}

fn bindings_read(octets: &[u8]) -> Answer<'_> {
    match klumdray::tp1::read(octets) {
        Ok(frame) => Answer {
            packed: Request::from(frame.meaning).packed(frame.payload()),
            payload: frame.payload(),
            information: &[],
        },
        Err(refusal) => Answer::refused(refusal.number()),
    }
}

fn bindings_write(request: &Request, payload: &[u8], room: &mut [u8]) -> u64 {
    match request.meaning() {
        Some(meaning) => {
            let written = klumdray::tp1::write(&meaning, payload, room);
            packed_size(written.map_err(|refusal| refusal.number()))
        }
        None => library_write(request, payload, room),
    }
}

fn frame_size(request: &Request, payload_length: usize) -> usize {
    payload_length + if request.extended == 0 { 7 } else { 8 }
}

fn frame(request: &Request, payload: &[u8]) -> Vec<u8> {
    let mut octets = vec![0; frame_size(request, payload.len())];
    let written = reference::tp1::write(&request.given(), payload, &mut octets);
    assert_eq!(written, Ok(octets.len()));
    octets
}

/// Octets of one length, more and more like a frame: by chance; with a control octet; with EFF
/// and LG that fit or nearly do; with a right check octet as well.
fn likely_octets(generator: &mut Generator, length: usize) -> Vec<u8> {
    let mut octets = generator.octets(length);
    let likeness = generator.below(4);
    if likeness >= 1 && length >= 1 {
        octets[0] = octets[0] & 0xac | 0x10;
    }
    if likeness >= 2 && length >= 7 {
        let standard = octets[0] >= 0x80;
        let lg = likely_lg(generator, length - if standard { 6 } else { 7 });
        if standard {
            octets[5] = octets[5] & 0xf0 | lg & 0x0f;
        } else {
            octets[1] &= 0xf0;
            octets[6] = lg;
        }
    }
    if likeness >= 3 {
        mend_check(&mut octets);
    }
    octets
}

/// Of the octets behind the head two are TPCI and check octet: that LG, or one near it, or 255.
fn likely_lg(generator: &mut Generator, behind_head: usize) -> u8 {
    let fitting = behind_head.wrapping_sub(2) as u8;
    match generator.below(8) {
        0 => fitting.wrapping_sub(1),
        1 => fitting.wrapping_add(1),
        2 => 255,
        _ => fitting,
    }
}

fn random_inputs(comparison: &mut Comparison, generator: &mut Generator) -> Result<(), String> {
    for _ in 0..2500 {
        for length in 0..=300 {
            comparison.read(&likely_octets(generator, length))?;
        }
    }
    Ok(())
}

/// A frame of each format for each payload length that the format has.
fn frames(generator: &mut Generator) -> Vec<Vec<u8>> {
    let standard = (1..=16).map(|length| (0, length));
    let extended = (1..=255).map(|length| (1, length));
    let mut valid = |(format, length)| {
        let request = Request::valid(generator, KIND, format);
        frame(&request, &generator.octets(length))
    };
    standard.chain(extended).map(&mut valid).collect()
}

/// The frame, each octet damaged with and without a mended check octet, each cut, 1 to 3 more.
fn around(
    comparison: &mut Comparison,
    generator: &mut Generator,
    frame: &[u8],
) -> Result<(), String> {
    comparison.read(frame)?;
    for place in 0..frame.len() {
        comparison.read(&frame[..place])?;
        let mut octets = frame.to_vec();
        octets[place] ^= generator.damage();
        comparison.read(&octets)?;
        mend_check(&mut octets);
        comparison.read(&octets)?;
    }
    let mut octets = frame.to_vec();
    for _ in 0..3 {
        octets.push(generator.octet());
        comparison.read(&octets)?;
    }
    Ok(())
}

/// Each octet of the head through all 256 values, with and without a mended check octet, and two
/// of them wrong at once.
fn heads(
    comparison: &mut Comparison,
    generator: &mut Generator,
    frame: &[u8],
) -> Result<(), String> {
    for place in 0..7 {
        for value in 0..=255 {
            let mut octets = frame.to_vec();
            octets[place] = value;
            comparison.read(&octets)?;
            mend_check(&mut octets);
            comparison.read(&octets)?;
        }
    }
    for _ in 0..4 {
        comparison.pairs(generator, frame, &[0, 1, 2, 3, 4, 5, 6])?;
    }
    Ok(())
}

fn compare(
    proved: Implementation,
    reference: Implementation,
    seed: u64,
) -> Result<Comparison, String> {
    let mut comparison = Comparison::new(proved, reference);
    let generator = &mut Generator::new(seed);
    comparison.writes(generator, &[KIND], frame_size)?;
    for round in 0..6 {
        for (index, frame) in frames(generator).iter().enumerate() {
            around(&mut comparison, generator, frame)?;
            if round == 0 && index % 9 == 0 {
                heads(&mut comparison, generator, frame)?;
            }
        }
    }
    random_inputs(&mut comparison, generator)?;
    Ok(comparison)
}

fn assert_agrees(name: &str, proved: Implementation) {
    let seed = seed();
    println!("TP1, {name} and reference, KLUMDRAY_SEED={seed:#x}");
    match compare(proved, REFERENCE, seed) {
        Ok(comparison) => {
            println!("TP1, {name}: {comparison}");
            comparison.assert_covers(1_000_000, &[0, 1, 2, 3, 4, 5, 6], &[0, 13, 14]);
        }
        Err(difference) => panic!("KLUMDRAY_SEED={seed:#x}: {difference}"),
    }
}

#[test]
fn library_agrees_with_the_reference() {
    assert_agrees("library", LIBRARY);
}

#[test]
fn bindings_agree_with_the_reference() {
    assert_agrees("bindings", BINDINGS);
}

/// The surface's answer, which is an octet as a number of 32 bits.
fn raw_check_octet(octets: &[u8]) -> u8 {
    let answer = klumdray::raw::check_octet(octets);
    u8::try_from(answer).expect("an octet")
}

fn check_octets_differ(proved: fn(&[u8]) -> u8, expected: fn(&[u8]) -> u8) -> Option<Vec<u8>> {
    let mut generator = Generator::new(seed());
    let mut inputs = (0..=1500)
        .flat_map(|length| [length; 5])
        .map(|n| generator.octets(n));
    inputs.find(|octets| proved(octets) != expected(octets))
}

#[test]
fn check_octet_agrees_with_the_reference() {
    let expected = reference::check_octet;
    assert_eq!(check_octets_differ(raw_check_octet, expected), None);
    assert_eq!(check_octets_differ(klumdray::check_octet, expected), None);
}

/// A reference with one rule turned round, and the library must be found to differ from it.
mod wrong {
    use super::*;

    /// What the reference says of other octets, with the payload put in its place in these.
    fn as_if<'a>(octets: &'a [u8], read_instead: &[u8]) -> Answer<'a> {
        let answer = reference_read(read_instead);
        let start = 6 + (answer.packed >> 8 & 1) as usize;
        let payload = octets.get(start..start + answer.payload.len());
        Answer {
            packed: answer.packed,
            payload: payload.unwrap_or(&[]),
            information: &[],
        }
    }

    fn is_extended(octets: &[u8]) -> bool {
        octets[0] < 0x80
    }

    fn check_not_tested(octets: &[u8]) -> Answer<'_> {
        if reference_read(octets).number() != 6 {
            return reference_read(octets);
        }
        let mut mended = octets.to_vec();
        mend_check(&mut mended);
        as_if(octets, &mended)
    }

    fn lg_off_by_one(octets: &[u8]) -> Answer<'_> {
        let answer = reference_read(octets);
        match answer.payload.split_last() {
            Some((_, payload)) => Answer {
                packed: answer.packed - (1 << 48),
                payload,
                information: &[],
            },
            None => answer,
        }
    }

    fn largest_lg_refused(octets: &[u8]) -> Answer<'_> {
        match reference_read(octets) {
            answer if answer.payload.len() == 255 => Answer::refused(4),
            answer => answer,
        }
    }

    fn payload_begins_late(octets: &[u8]) -> Answer<'_> {
        let answer = reference_read(octets);
        let start = 7 + (answer.packed >> 8 & 1) as usize;
        Answer {
            payload: octets
                .get(start..start + answer.payload.len())
                .unwrap_or(&[]),
            ..answer
        }
    }

    fn addresses_changed_over(octets: &[u8]) -> Answer<'_> {
        let answer = reference_read(octets);
        let (source, destination) = (answer.packed >> 16 & 0xffff, answer.packed >> 32 & 0xffff);
        Answer {
            packed: answer.packed & !0xffff_ffff_0000 | source << 32 | destination << 16,
            ..answer
        }
    }

    fn repeat_flag_turned(octets: &[u8]) -> Answer<'_> {
        match reference_read(octets) {
            answer if answer.number() == 0 => Answer {
                packed: answer.packed ^ 1 << 9,
                ..answer
            },
            answer => answer,
        }
    }

    fn control_before_no_octet(octets: &[u8]) -> Answer<'_> {
        if octets.is_empty() {
            Answer::refused(2)
        } else {
            reference_read(octets)
        }
    }

    fn one_before_two(octets: &[u8]) -> Answer<'_> {
        match reference_read(octets) {
            answer if answer.number() == 2 && octets.len() < 6 => Answer::refused(1),
            answer => answer,
        }
    }

    fn one_before_four(octets: &[u8]) -> Answer<'_> {
        match reference_read(octets) {
            answer if answer.number() == 4 && octets.len() < 264 => Answer::refused(1),
            answer => answer,
        }
    }

    fn five_for_one(octets: &[u8]) -> Answer<'_> {
        match reference_read(octets) {
            answer if answer.number() == 1 => Answer::refused(5),
            answer if answer.number() == 5 => Answer::refused(1),
            answer => answer,
        }
    }

    fn six_before_five(octets: &[u8]) -> Answer<'_> {
        let answer = reference_read(octets);
        if answer.number() != 5 {
            return answer;
        }
        let size = if is_extended(octets) {
            9 + usize::from(octets[6])
        } else {
            8 + usize::from(octets[5] & 0x0f)
        };
        match reference_read(&octets[..size]).number() {
            6 => Answer::refused(6),
            _ => answer,
        }
    }

    fn four_before_three(octets: &[u8]) -> Answer<'_> {
        match reference_read(octets) {
            answer if answer.number() == 3 && octets[6] == 255 => Answer::refused(4),
            answer => answer,
        }
    }

    fn three_before_one(octets: &[u8]) -> Answer<'_> {
        let answer = reference_read(octets);
        let eff = octets.get(1).is_some_and(|ctrle| ctrle & 0x0f != 0);
        if answer.number() == 1 && eff && is_extended(octets) {
            Answer::refused(3)
        } else {
            answer
        }
    }

    fn writes_on_refusal(request: &Request, payload: &[u8], room: &mut [u8]) -> u64 {
        let answer = reference_write(request, payload, room);
        if answer == 13 && !room.is_empty() {
            room[0] ^= 0xff;
        }
        answer
    }

    fn clears_behind(request: &Request, payload: &[u8], room: &mut [u8]) -> u64 {
        let answer = reference_write(request, payload, room);
        if answer as u8 == 0 {
            room[(answer >> 8) as usize..].fill(0);
        }
        answer
    }

    fn thirteen_before_fourteen(request: &Request, payload: &[u8], room: &mut [u8]) -> u64 {
        if room.len() < frame_size(request, payload.len()) {
            13
        } else {
            reference_write(request, payload, room)
        }
    }

    fn wants_the_largest_room(request: &Request, payload: &[u8], room: &mut [u8]) -> u64 {
        if room.len() < 263 && reference_write(request, payload, &mut [0; 263]) as u8 == 0 {
            13
        } else {
            reference_write(request, payload, room)
        }
    }

    fn takes_priority_four(request: &Request, payload: &[u8], room: &mut [u8]) -> u64 {
        let priority = request.priority % 4;
        reference_write(
            &Request {
                priority,
                ..*request
            },
            payload,
            room,
        )
    }

    fn not_complemented(octets: &[u8]) -> u8 {
        !reference::check_octet(octets)
    }

    /// Behind so many octets of a run the next ones, up to the number, are passed over.
    fn passed_over(octets: &[u8], behind: usize, number: usize) -> u8 {
        let (before, rest) = octets.split_at(behind);
        let rest = rest.get(number..).unwrap_or_default();
        reference::check_octet(&[before, rest].concat())
    }

    const CHECKS: [(&str, fn(&[u8]) -> u8); 7] = [
        ("not complemented", not_complemented),
        ("the number of octets", |octets| octets.len() as u8),
        ("without the last octet", |octets| {
            passed_over(octets, octets.len().saturating_sub(1), 1)
        }),
        ("without the octets behind the last four", |octets| {
            passed_over(octets, octets.len() / 4 * 4, 3)
        }),
        ("without four octets behind the last eight", |octets| {
            passed_over(octets, octets.len() / 8 * 8, 4)
        }),
        ("without the second half", |octets| {
            passed_over(octets, octets.len() / 8 * 4, octets.len() / 8 * 4)
        }),
        ("without the fifth octet", |octets| {
            passed_over(octets, octets.len().min(4), 1)
        }),
    ];

    const READERS: [(&str, Reader); 13] = [
        ("check octet not tested", check_not_tested),
        ("LG off by one", lg_off_by_one),
        ("LG 254 refused", largest_lg_refused),
        ("payload begins one octet late", payload_begins_late),
        (
            "source and destination changed over",
            addresses_changed_over,
        ),
        ("repeat flag turned round", repeat_flag_turned),
        ("2 before no octet", control_before_no_octet),
        ("1 before 2", one_before_two),
        ("1 before 4", one_before_four),
        ("5 for 1 and 1 for 5", five_for_one),
        ("6 before 5", six_before_five),
        ("4 before 3", four_before_three),
        ("3 before 1", three_before_one),
    ];

    const WRITERS: [(&str, Writer); 5] = [
        ("writes on refusal", writes_on_refusal),
        ("clears the room behind", clears_behind),
        ("13 before 14", thirteen_before_fourteen),
        ("wants the largest room", wants_the_largest_room),
        ("takes priority 4", takes_priority_four),
    ];

    fn assert_noticed(name: &str, reference: Implementation) {
        let Err(difference) = compare(LIBRARY, reference, seed()) else {
            panic!("not noticed: {name}");
        };
        println!("{name}: {difference:.160}");
    }

    #[test]
    fn readers_are_noticed() {
        for (name, read) in READERS {
            assert_noticed(name, Implementation { read, ..REFERENCE });
        }
    }

    #[test]
    fn writers_are_noticed() {
        for (name, write) in WRITERS {
            assert_noticed(name, Implementation { write, ..REFERENCE });
        }
    }

    #[test]
    fn check_octet_is_noticed() {
        for (name, wrong) in CHECKS {
            let found = check_octets_differ(raw_check_octet, wrong);
            assert!(found.is_some(), "not noticed: {name}");
        }
    }
}
