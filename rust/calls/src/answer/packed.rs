//! The reference's answers in the bits that include/klumdray.h names. Only what `core` has is called
//! here: the crate `counted` has this file too.

use reference::cemi::{self, Code};
use reference::coupler::{Acknowledgement, Outcome, Side};
use reference::station::Taken;
use reference::tracer::{Stop, Traced};
use reference::{tp1, Format, Meaning};

/// "With a refusal every bit above 7 is 0."
pub fn packed(answer: Result<u64, u8>) -> u64 {
    answer.unwrap_or_else(u64::from)
}

fn packed_meaning(meaning: &Meaning, payload: &[u8]) -> u64 {
    u64::from(meaning.format == Format::Extended) << 8
        | u64::from(meaning.first_sending) << 9
        | u64::from(meaning.priority) << 10
        | u64::from(meaning.group) << 12
        | u64::from(meaning.count) << 13
        | u64::from(meaning.source) << 16
        | u64::from(meaning.destination) << 32
        | (payload.len() as u64) << 48
}

pub fn packed_tp1(frame: Result<tp1::Frame<'_>, u8>) -> u64 {
    packed(frame.map(|it| packed_meaning(&it.meaning, it.payload)))
}

pub fn packed_message(message: Result<cemi::Frame<'_>, u8>) -> u64 {
    packed(message.map(|it| packed_frame(&it)))
}

fn packed_frame(frame: &cemi::Frame<'_>) -> u64 {
    let code = match frame.code {
        Code::Request => 1,
        Code::Confirmation => 2,
        Code::Indication => 3,
    };
    // "error mark, in a confirmation only"
    let mark = u64::from(frame.error_mark);
    packed_meaning(&frame.meaning, frame.payload) | code << 56 | mark << 58
}

pub fn packed_size(written: Result<usize, u8>) -> u64 {
    packed(written.map(|size| (size as u64) << 8))
}

pub fn packed_outcome(outcome: Outcome) -> u64 {
    u64::from(outcome.number)
        | u64::from(outcome.acknowledgement.map_or(0, Acknowledgement::octet)) << 8
        | u64::from(outcome.own) << 16
        | (outcome.forwarded as u64) << 32
}

pub fn packed_trace(traced: Result<Traced, u8>) -> u64 {
    packed(traced.map(|it| (it.listed as u64) << 8 | (it.forwardings as u64) << 24))
}

pub fn packed_why(why: Result<Option<Stop>, u8>) -> u32 {
    match why {
        Ok(None) => 0,
        Ok(Some(Stop { line, from, reason })) => {
            let direction = u32::from(from == Side::Sub);
            (reason as u32 + 1) << 8 | u32::from(line) << 16 | direction << 24
        }
        Err(number) => number.into(),
    }
}

/// "if it is acknowledged again, every bit is 0"
pub fn packed_receipt(received: Result<Option<cemi::Frame<'_>>, u8>) -> u64 {
    packed(received.map(|frame| frame.map_or(0, |frame| packed_frame(&frame))))
}

pub fn packed_raising(raised: Result<bool, u8>) -> u64 {
    packed(raised.map(|is_raised| u64::from(is_raised) << 8))
}

/// The hundredths in two's complement.
pub fn packed_value(value: Result<i32, u8>) -> u64 {
    packed(value.map(|hundredths| u64::from(hundredths as u32) << 32))
}

pub fn packed_code(code: Result<u16, u8>) -> u64 {
    packed(code.map(|code| u64::from(code) << 16))
}

/// The sum is in the block.
pub fn packed_sum(sum: Result<i64, u8>) -> u64 {
    packed(sum.map(|_| 0))
}

pub fn packed_taken(taken: Result<Taken, u8>) -> u64 {
    packed(taken.map(|taken| match taken {
        Taken::Counted(code) => 1 << 8 | u64::from(code) << 16,
        Taken::Repetition => 2 << 8,
        Taken::AnotherGroup => 3 << 8,
        Taken::NoIncrement => 4 << 8,
    }))
}
