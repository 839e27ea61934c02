//! References that take other frames for a repetition: "all octets must agree except the repeat bit
//! and the check octet" (R-2), each with one of its words turned round.

use crate::couplers::{part, put_part, reference_step, Lent, Stepper};
use crate::repetitions::{compared_bits, is_repetition_of, REPEAT_BIT};
use crate::wrong_couplers::{accepted, forwards_nothing};
use reference::tp1;
use reference::{Format, Meaning};

/// Whether octets, which are an accepted frame, are a repetition of those remembered.
type Rule = Box<dyn Fn(&[u8], &[u8]) -> bool>;

/// A frame's meaning and payload.
type Read<'a> = (Meaning, &'a [u8]);

/// The bits compared of the octet at a place, in a frame of this format and size.
type Bits = fn(Format, usize, usize) -> u8;

/// The reference with another rule, about the frame that this side (0) or the other (1) remembers.
fn by(rule: Rule, other: usize) -> Box<Stepper> {
    Box::new(move |lent| {
        if accepted(lent).is_none() || lent.is_from_ip() {
            return reference_step(lent);
        }
        let side = usize::from(lent.setting.side);
        let remembered = part(lent.memory, side ^ other);
        let repeats = remembered
            .frame()
            .is_some_and(|frame| rule(frame, lent.octets));
        forget_frame(lent.memory, side);
        match repeats {
            true => forwards_nothing(lent),
            false => reference_step(lent),
        }
    })
}

/// Leaves no frame, and the octets: so the reference finds no repetition.
fn forget_frame(memory: &mut [u8], side: usize) {
    let mut remembered = part(memory, side);
    remembered.size = 0;
    put_part(memory, side, &remembered);
}

fn is_marked(octets: &[u8]) -> bool {
    octets[0] & REPEAT_BIT == 0
}

fn format(octets: &[u8]) -> Format {
    match octets[0] & 0x80 {
        0 => Format::Extended,
        _ => Format::Standard,
    }
}

/// As many octets, marked repeated, that agree in these bits.
fn by_bits(bits: Bits) -> Box<Stepper> {
    let agree = move |remembered: &[u8], octets: &[u8]| {
        let size = octets.len();
        let mut pairs = remembered.iter().zip(octets).enumerate();
        is_marked(octets)
            && remembered.len() == size
            && pairs
                .all(|(place, (one, other))| (one ^ other) & bits(format(octets), size, place) == 0)
    };
    by(Box::new(agree), 0)
}

/// Frames marked repeated of which meanings and payloads agree by another rule. It is the right one for
/// remembered octets that are no frame.
fn by_meanings(agree: fn(Read<'_>, Read<'_>) -> bool) -> Box<Stepper> {
    let rule = move |remembered: &[u8], octets: &[u8]| {
        let (Ok(before), Ok(heard)) = (tp1::read(remembered), tp1::read(octets)) else {
            return is_repetition_of(remembered, octets);
        };
        // Marked alike, so that the rest is compared.
        let marked = Meaning {
            first_sending: false,
            ..before.meaning
        };
        let (before, heard) = ((marked, before.payload), (heard.meaning, heard.payload));
        is_marked(octets) && agree(before, heard)
    };
    by(Box::new(rule), 0)
}

fn without_source(format: Format, size: usize, place: usize) -> u8 {
    match (format, place) {
        (Format::Standard, 1 | 2) | (Format::Extended, 2 | 3) => 0,
        _ => compared_bits(size, place),
    }
}

fn without_destination(format: Format, size: usize, place: usize) -> u8 {
    match (format, place) {
        (Format::Standard, 3 | 4) | (Format::Extended, 4 | 5) => 0,
        _ => compared_bits(size, place),
    }
}

/// All but these bits of the octet that has AT and count.
fn without_of_at_and_count(bits: u8, format: Format, size: usize, place: usize) -> u8 {
    match (format, place) {
        (Format::Standard, 5) | (Format::Extended, 1) => !bits,
        _ => compared_bits(size, place),
    }
}

fn without_payload(format: Format, size: usize, place: usize) -> u8 {
    match (format, place) {
        (Format::Standard, 6..) | (Format::Extended, 7..) => 0,
        _ => compared_bits(size, place),
    }
}

fn without_tpci(format: Format, size: usize, place: usize) -> u8 {
    match (format, place) {
        (Format::Standard, 6) | (Format::Extended, 7) => 0,
        _ => compared_bits(size, place),
    }
}

/// All but these bits of the control octet.
fn without_control(bits: u8, size: usize, place: usize) -> u8 {
    match place {
        0 => compared_bits(size, 0) & !bits,
        _ => compared_bits(size, place),
    }
}

fn source_destination_and_at(meaning: &Meaning) -> (u16, u16, bool) {
    (meaning.source, meaning.destination, meaning.group)
}

/// The payload as far as the shorter one goes, and all before it but LG.
fn fronts_agree((one, before): Read<'_>, (other, heard): Read<'_>) -> bool {
    one == other && (before.starts_with(heard) || heard.starts_with(before))
}

/// The same octets, whatever their mark.
fn first_sending_repeats(remembered: &[u8], octets: &[u8]) -> bool {
    let mut marked = octets.to_vec();
    marked[0] &= !REPEAT_BIT;
    is_repetition_of(remembered, &marked)
}

/// As far as the shorter of the two goes, without its check octet.
fn agree_as_far_as_they_go(remembered: &[u8], octets: &[u8]) -> bool {
    let size = remembered.len().min(octets.len());
    let (one, other) = (&remembered[..size], &octets[..size]);
    size > 0 && is_repetition_of(one, other)
}

fn only_a_frame_is_repeated(remembered: &[u8], octets: &[u8]) -> bool {
    tp1::read(remembered).is_ok() && is_repetition_of(remembered, octets)
}

/// By the check octets, the repeat bit left out of them.
fn check_octets_agree(remembered: &[u8], octets: &[u8]) -> bool {
    let sum = |octets: &[u8]| {
        let bits = |(place, octet): (usize, &u8)| octet & compared_bits(octets.len(), place);
        octets.iter().enumerate().map(bits).fold(0, |a, b| a ^ b)
    };
    is_marked(octets) && remembered.len() == octets.len() && sum(remembered) == sum(octets)
}

/// What the rule says of a frame from IP beside the frame that the main side remembers, by meanings.
fn repeats_from_ip(lent: &mut Lent<'_>) -> u64 {
    let Some(heard) = accepted(lent).filter(|heard| lent.is_from_ip() && !heard.first_sending)
    else {
        return reference_step(lent);
    };
    let remembered = part(lent.memory, 0);
    let Some(Ok(before)) = remembered.frame().map(tp1::read) else {
        return reference_step(lent);
    };
    let marked = Meaning {
        first_sending: false,
        ..before.meaning
    };
    let payload = lent.heard().map(|(_, payload)| payload);
    match (heard, payload) == (marked, Some(before.payload)) {
        true => forwards_nothing(lent),
        false => reference_step(lent),
    }
}

/// The rule as it is.
pub fn right() -> Box<Stepper> {
    by(Box::new(is_repetition_of), 0)
}

/// Those that compare other octets, or fewer, or more.
pub fn comparing() -> Vec<(&'static str, Box<Stepper>)> {
    let mut all = of_the_head();
    all.extend(of_the_payload());
    all.extend(of_the_mark());
    all
}

fn of_the_head() -> Vec<(&'static str, Box<Stepper>)> {
    vec![
        (
            "addresses compared alone",
            by_meanings(|(one, _), (other, _)| {
                source_destination_and_at(&one) == source_destination_and_at(&other)
            }),
        ),
        (
            "addresses and payload compared alone",
            by_meanings(|(one, before), (other, heard)| {
                let addresses = source_destination_and_at(&one);
                addresses == source_destination_and_at(&other) && before == heard
            }),
        ),
        ("source not compared", by_bits(without_source)),
        ("destination not compared", by_bits(without_destination)),
        (
            "AT not compared",
            by_bits(|format, size, place| without_of_at_and_count(0x80, format, size, place)),
        ),
        (
            "count not compared",
            by_bits(|format, size, place| without_of_at_and_count(0x70, format, size, place)),
        ),
        (
            "priority not compared",
            by_bits(|_, size, place| without_control(0x0c, size, place)),
        ),
        (
            "bit of the format not compared",
            by_bits(|_, size, place| without_control(0x80, size, place)),
        ),
        (
            "control octet not compared",
            by_bits(|_, size, place| without_control(0xff, size, place)),
        ),
    ]
}

fn of_the_payload() -> Vec<(&'static str, Box<Stepper>)> {
    vec![
        ("payload not compared", by_bits(without_payload)),
        ("TPCI not compared", by_bits(without_tpci)),
        (
            "last octet of the payload not compared",
            by_bits(|_, size, place| match place + 2 == size {
                true => 0,
                false => compared_bits(size, place),
            }),
        ),
        (
            "octets from the 24th on not compared",
            by_bits(|_, size, place| match place {
                0..23 => compared_bits(size, place),
                _ => 0,
            }),
        ),
        (
            "octets from the 257th on not compared",
            by_bits(|_, size, place| match place {
                0..256 => compared_bits(size, place),
                _ => 0,
            }),
        ),
        (
            "bit 7 of an octet of the payload not compared",
            by_bits(|_, size, place| match place {
                0..7 => compared_bits(size, place),
                _ => compared_bits(size, place) & 0x7f,
            }),
        ),
        (
            "front of the payload compared alone",
            by_meanings(fronts_agree),
        ),
    ]
}

fn of_the_mark() -> Vec<(&'static str, Box<Stepper>)> {
    vec![
        (
            "check octet compared too",
            by_bits(|_, size, place| match place + 1 == size {
                true => 0xff,
                false => compared_bits(size, place),
            }),
        ),
        (
            "remembered repeat bit compared",
            by_bits(|_, size, place| compared_bits(size, place) | u8::from(place == 0) << 5),
        ),
        (
            "first sending as repetition",
            by(Box::new(first_sending_repeats), 0),
        ),
    ]
}

/// Those that show with more than one bit changed, in frames from elsewhere, or in a memory that no
/// step leaves.
pub fn elsewhere() -> Vec<(&'static str, Box<Stepper>)> {
    vec![
        (
            "format not compared",
            by_meanings(|(one, before), (other, heard)| {
                let format = other.format;
                Meaning { format, ..one } == other && before == heard
            }),
        ),
        (
            "check octets compared alone",
            by(Box::new(check_octets_agree), 0),
        ),
        (
            "compared as far as the shorter goes",
            by(Box::new(agree_as_far_as_they_go), 0),
        ),
        (
            "octets that are no frame never repeated",
            by(Box::new(only_a_frame_is_repeated), 0),
        ),
        (
            "other side's frame repeated",
            by(Box::new(is_repetition_of), 1),
        ),
        ("repetition from IP", Box::new(repeats_from_ip)),
    ]
}
