//! Frames beside the one before with each bit of each octet changed in turn, and with the payload an
//! octet longer or shorter: nothing is left to a seed.

use crate::couplers::{forwarded, is_acknowledged, is_own, is_repetition, settings};
use crate::couplers::{Comparison, Setting, Stepper, LARGEST_ROOM, MEMORY};
use crate::repetitions::is_repetition_of;
use inputs::frames::{mend_check, tp1};
use reference::Given;

/// From TP1 to TP1, down and up, and to IP: the main medium and the receiving side.
const WAYS: [(u8, u8); 3] = [(0, 0), (0, 1), (1, 1)];

/// A frame by its numbers and payload.
type Sent = (Given, Vec<u8>);

/// Of 9, 23 and 263 octets; and of 9 octets that are a frame in either format.
fn frames() -> [Sent; 4] {
    let sent = |extended, source, length: u8| {
        let given = Given {
            extended,
            first_sending: 1,
            priority: 3,
            source,
            group: 1,
            destination: 0x1234,
            count: 6,
        };
        (
            given,
            (0..length).map(|place| place.wrapping_mul(7)).collect(),
        )
    };
    [
        sent(0, 0x4712, 2),
        sent(0, 0x4712, 16),
        sent(1, 0x4712, 255),
        sent(0, 0xe012, 2),
    ]
}

fn marked((given, payload): &Sent, first_sending: u8) -> Vec<u8> {
    let given = Given {
        first_sending,
        ..*given
    };
    tp1(&given, payload)
}

/// The octets with each bit in turn changed, the check octet mended or left.
fn with_one_bit_changed(octets: &[u8]) -> impl Iterator<Item = Vec<u8>> + '_ {
    (0..16 * octets.len()).map(|case| {
        let mut octets = octets.to_vec();
        octets[case / 16] ^= 1 << (case % 8);
        if case / 8 % 2 == 0 {
            mend_check(&mut octets);
        }
        octets
    })
}

/// The frame with a payload one octet shorter, and one longer, as far as its format has them.
fn with_another_length((given, payload): &Sent) -> Vec<Sent> {
    let most = if given.extended == 1 { 255 } else { 16 };
    let longer = [&payload[..], &[0x55]].concat();
    let shorter = payload[..payload.len() - 1].to_vec();
    [shorter, longer]
        .into_iter()
        .filter(|payload| (1..=most).contains(&payload.len()))
        .map(|payload| (*given, payload))
        .collect()
}

/// The octets without their last one, and with one more: no frame.
fn with_another_number(octets: &[u8]) -> [Vec<u8>; 2] {
    let shorter = octets[..octets.len() - 1].to_vec();
    let longer = [octets, &[0x00]].concat();
    [shorter, longer].map(|mut octets| {
        mend_check(&mut octets);
        octets
    })
}

/// Compares the answers to both frames, and asserts what the second one's has to be where every code
/// is open: nothing is stopped but a repetition.
fn compare_pair(
    comparison: &mut Comparison<'_>,
    (medium, side): (u8, u8),
    before: &[u8],
    octets: &[u8],
) -> Result<(), String> {
    let settings = settings(0x47, [[2; 4]; 2], medium);
    let setting = Setting {
        settings: &settings,
        table: &[],
        side,
    };
    comparison.forget();
    comparison.step(setting, MEMORY, before, LARGEST_ROOM)?;
    let answer = comparison.step(setting, MEMORY, octets, LARGEST_ROOM)?;
    match reference::tp1::read(octets) {
        Ok(_) => {
            let is_said = is_repetition_of(before, octets);
            assert!(is_acknowledged(answer) && !is_own(answer), "{octets:02x?}");
            assert_eq!(is_repetition(answer), is_said, "{octets:02x?}");
            assert_eq!(forwarded(answer) == 0, is_said, "{octets:02x?}");
        }
        Err(number) => assert_eq!(answer, number.into(), "{octets:02x?}"),
    }
    Ok(())
}

/// Each way, each frame, each mark of it and of the one before.
pub fn compare<'s>(
    proved: &'s mut Stepper,
    reference: &'s mut Stepper,
) -> Result<Comparison<'s>, String> {
    let mut comparison = Comparison::new(proved, reference);
    for way in WAYS {
        for sent in frames() {
            for marks in 0..4 {
                let before = marked(&sent, marks & 1);
                let again = marked(&sent, marks >> 1);
                compare_pair(&mut comparison, way, &before, &again)?;
                for octets in with_one_bit_changed(&again).chain(with_another_number(&again)) {
                    compare_pair(&mut comparison, way, &before, &octets)?;
                }
                for other in with_another_length(&sent) {
                    let octets = marked(&other, marks >> 1);
                    compare_pair(&mut comparison, way, &before, &octets)?;
                    compare_pair(&mut comparison, way, &octets, &before)?;
                }
            }
        }
    }
    Ok(comparison)
}
