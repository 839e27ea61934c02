//! References with one rule of cEMI turned round, alone or behind a KNXnet/IP header.

use crate::messages::{reference_read, reference_write, size};
use crate::support::{Answer, Reader, Request, Writer};

/// What the reference says of other octets of the same length, with the parts put in their
/// places in these.
pub fn as_if<'a, const HEADER: usize>(octets: &'a [u8], read_instead: &[u8]) -> Answer<'a> {
    let answer = reference_read::<HEADER>(read_instead);
    let here = |part: &[u8]| {
        let start = part.as_ptr() as usize - read_instead.as_ptr() as usize;
        &octets[start..start + part.len()]
    };
    if answer.number() != 0 {
        return Answer::refused(answer.number());
    }
    Answer {
        packed: answer.packed,
        payload: here(answer.payload),
        information: here(answer.information),
    }
}

/// Ctrl1 onward of a message that has a second octet.
fn body<const HEADER: usize>(octets: &[u8]) -> &[u8] {
    let start = HEADER + 2 + usize::from(octets[HEADER + 1]);
    octets.get(start..).unwrap_or(&[])
}

fn bit_4_matters<const HEADER: usize>(octets: &[u8]) -> Answer<'_> {
    match reference_read::<HEADER>(octets) {
        answer if answer.number() == 0 && body::<HEADER>(octets)[0] & 0x10 == 0 => {
            Answer::refused(2)
        }
        answer => answer,
    }
}

fn error_mark_everywhere<const HEADER: usize>(octets: &[u8]) -> Answer<'_> {
    let mut answer = reference_read::<HEADER>(octets);
    if answer.number() == 0 {
        answer.packed |= u64::from(body::<HEADER>(octets)[0] & 1) << 58;
    }
    answer
}

fn information_in_payload<const HEADER: usize>(octets: &[u8]) -> Answer<'_> {
    let answer = reference_read::<HEADER>(octets);
    let length = answer.payload.len() + answer.information.len();
    Answer {
        packed: answer.packed & !(0xff << 48) | (length as u64 & 0xff) << 48,
        payload: &octets[octets.len() - length..],
        ..answer
    }
}

fn information_begins_early<const HEADER: usize>(octets: &[u8]) -> Answer<'_> {
    let answer = reference_read::<HEADER>(octets);
    let start = HEADER + 1;
    let information = octets.get(start..start + answer.information.len());
    Answer {
        information: information.unwrap_or(&[]),
        ..answer
    }
}

fn nine_before_four<const HEADER: usize>(octets: &[u8]) -> Answer<'_> {
    match reference_read::<HEADER>(octets) {
        answer if answer.number() == 4 && body::<HEADER>(octets)[0] >= 0x80 => Answer::refused(9),
        answer => answer,
    }
}

fn nine_in_extended<const HEADER: usize>(octets: &[u8]) -> Answer<'_> {
    match reference_read::<HEADER>(octets) {
        answer if answer.payload.len() > 16 => Answer::refused(9),
        answer => answer,
    }
}

fn eight_after_the_end<const HEADER: usize>(octets: &[u8]) -> Answer<'_> {
    match reference_read::<HEADER>(octets) {
        answer if answer.number() == 8 && body::<HEADER>(octets).len() < 7 => Answer::refused(1),
        answer => answer,
    }
}

fn eff_before_the_end<const HEADER: usize>(octets: &[u8]) -> Answer<'_> {
    let answer = reference_read::<HEADER>(octets);
    if answer.number() != 1 || octets.len() < HEADER + 2 {
        return answer;
    }
    match body::<HEADER>(octets) {
        [_, ctrl2, ..] if ctrl2 & 0x0f != 0 => Answer::refused(3),
        _ => answer,
    }
}

fn eff_only_in_extended<const HEADER: usize>(octets: &[u8]) -> Answer<'_> {
    let answer = reference_read::<HEADER>(octets);
    if answer.number() != 3 || body::<HEADER>(octets)[0] < 0x80 {
        return answer;
    }
    let mut without = octets.to_vec();
    let ctrl2 = octets.len() - body::<HEADER>(octets).len() + 1;
    without[ctrl2] &= 0xf0;
    as_if::<HEADER>(octets, &without)
}

fn four_before_three<const HEADER: usize>(octets: &[u8]) -> Answer<'_> {
    match reference_read::<HEADER>(octets) {
        answer if answer.number() == 3 && body::<HEADER>(octets)[6] == 255 => Answer::refused(4),
        answer => answer,
    }
}

fn one_before_seven<const HEADER: usize>(octets: &[u8]) -> Answer<'_> {
    match reference_read::<HEADER>(octets) {
        answer if answer.number() == 7 && octets.len() < HEADER + 2 => Answer::refused(1),
        answer => answer,
    }
}

fn eight_before_seven<const HEADER: usize>(octets: &[u8]) -> Answer<'_> {
    match reference_read::<HEADER>(octets) {
        answer if answer.number() == 7 && octets.get(HEADER + 1) == Some(&255) => {
            Answer::refused(8)
        }
        answer => answer,
    }
}

fn one_before_nine<const HEADER: usize>(octets: &[u8]) -> Answer<'_> {
    let answer = reference_read::<HEADER>(octets);
    if answer.number() != 9 {
        return answer;
    }
    match body::<HEADER>(octets) {
        [_, _, _, _, _, _, lg, payload @ ..] if payload.len() <= usize::from(*lg) => {
            Answer::refused(1)
        }
        _ => answer,
    }
}

fn five_for_one<const HEADER: usize>(octets: &[u8]) -> Answer<'_> {
    match reference_read::<HEADER>(octets) {
        answer if answer.number() == 1 => Answer::refused(5),
        answer if answer.number() == 5 => Answer::refused(1),
        answer => answer,
    }
}

pub fn readers<const HEADER: usize>() -> [(&'static str, Reader); 14] {
    [
        ("bit 4 of Ctrl1 matters", bit_4_matters::<HEADER>),
        (
            "error mark in every message",
            error_mark_everywhere::<HEADER>,
        ),
        (
            "information counted into the payload",
            information_in_payload::<HEADER>,
        ),
        (
            "information begins one octet early",
            information_begins_early::<HEADER>,
        ),
        ("1 before 7", one_before_seven::<HEADER>),
        ("8 before 7", eight_before_seven::<HEADER>),
        ("1 before 9", one_before_nine::<HEADER>),
        ("9 before 4", nine_before_four::<HEADER>),
        ("9 in extended frames", nine_in_extended::<HEADER>),
        (
            "8 after 'ends before or without LG'",
            eight_after_the_end::<HEADER>,
        ),
        (
            "3 before 'ends before or without LG'",
            eff_before_the_end::<HEADER>,
        ),
        ("3 in extended frames only", eff_only_in_extended::<HEADER>),
        ("4 before 3", four_before_three::<HEADER>),
        ("5 for 1 and 1 for 5", five_for_one::<HEADER>),
    ]
}

fn writes_on_refusal<const HEADER: usize>(
    request: &Request,
    payload: &[u8],
    room: &mut [u8],
) -> u64 {
    let answer = reference_write::<HEADER>(request, payload, room);
    if answer == 13 && !room.is_empty() {
        room[0] ^= 0xff;
    }
    answer
}

fn clears_behind<const HEADER: usize>(request: &Request, payload: &[u8], room: &mut [u8]) -> u64 {
    let answer = reference_write::<HEADER>(request, payload, room);
    if answer as u8 == 0 {
        room[(answer >> 8) as usize..].fill(0);
    }
    answer
}

fn thirteen_first<const HEADER: usize>(request: &Request, payload: &[u8], room: &mut [u8]) -> u64 {
    if room.len() < size::<HEADER>(request, payload.len()) {
        13
    } else {
        reference_write::<HEADER>(request, payload, room)
    }
}

fn takes_any_mark<const HEADER: usize>(request: &Request, payload: &[u8], room: &mut [u8]) -> u64 {
    let error_mark = request.error_mark & u8::from(request.code == 0x2e);
    reference_write::<HEADER>(
        &Request {
            error_mark,
            ..*request
        },
        payload,
        room,
    )
}

fn takes_any_code<const HEADER: usize>(request: &Request, payload: &[u8], room: &mut [u8]) -> u64 {
    reference_write::<HEADER>(
        &Request {
            code: 0x29,
            ..*request
        },
        payload,
        room,
    )
}

fn leaves_bit_4<const HEADER: usize>(request: &Request, payload: &[u8], room: &mut [u8]) -> u64 {
    let answer = reference_write::<HEADER>(request, payload, room);
    if answer as u8 == 0 {
        room[HEADER + 2] &= !0x10;
    }
    answer
}

pub fn writers<const HEADER: usize>() -> [(&'static str, Writer); 6] {
    [
        ("writes on refusal", writes_on_refusal::<HEADER>),
        ("clears the room behind", clears_behind::<HEADER>),
        ("13 before 14", thirteen_first::<HEADER>),
        (
            "takes an error mark in any message",
            takes_any_mark::<HEADER>,
        ),
        ("takes any message code", takes_any_code::<HEADER>),
        ("bit 4 of Ctrl1 is 0", leaves_bit_4::<HEADER>),
    ]
}
