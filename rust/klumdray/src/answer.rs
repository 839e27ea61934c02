//! Takes the library's answers apart, by the bits that `include/klumdray.h` names.

use crate::cemi::Code;
use crate::coupler::{Acknowledgement, Side};
use crate::station::Taken;
use crate::tracer::{Reason, Why};
use crate::{tunnelling, Meaning, Refusal};

/// The refusal whose number an answer has.
#[inline]
fn refusal(answer: u64) -> Option<Refusal> {
    match answer as u8 {
        0 => None,
        number => Some(Refusal::answered(number)),
    }
}

/// An answer whose number is no refusal's.
#[inline]
fn accepted(answer: u64) -> Result<u64, Refusal> {
    refusal(answer).map_or(Ok(answer), Err)
}

/// A reader's answer that is not a refusal.
#[derive(Clone, Copy)]
pub(crate) struct Reading(u64);

impl Reading {
    #[inline]
    pub(crate) fn accepted(answer: u64) -> Result<Reading, Refusal> {
        accepted(answer).map(Reading)
    }

    #[inline]
    pub(crate) fn meaning(self) -> Meaning {
        Meaning {
            extended: self.bit(8),
            first_sending: self.bit(9),
            priority: (self.0 >> 10) as u8 & 3,
            source: (self.0 >> 16) as u16,
            group: self.bit(12),
            destination: (self.0 >> 32) as u16,
            count: (self.0 >> 13) as u8 & 7,
        }
    }

    #[inline]
    pub(crate) fn payload_length(self) -> usize {
        usize::from((self.0 >> 48) as u8)
    }

    /// Whether there is a message code, which a receive's answer has if the request is delivered.
    #[inline]
    pub(crate) fn has_code(self) -> bool {
        self.0 >> 56 & 3 != 0
    }

    /// The message code of a cEMI, routing or tunnelling answer.
    #[inline]
    pub(crate) fn code(self) -> Code {
        match self.0 >> 56 & 3 {
            1 => Code::Request,
            2 => Code::Confirmation,
            3 => Code::Indication,
            _ => unreachable!("an accepted cEMI frame has a message code"),
        }
    }

    #[inline]
    pub(crate) fn error_mark(self) -> bool {
        self.bit(58)
    }

    #[inline]
    fn bit(self, place: u32) -> bool {
        self.0 >> place & 1 == 1
    }
}

/// The octets written, or the refusal, of a writer's answer.
#[inline]
pub(crate) fn written(answer: u64) -> Result<usize, Refusal> {
    accepted(answer).map(|answer| (answer >> 8) as usize)
}

/// A step's answer, a refusal or not: it has its four parts whatever the number is.
#[derive(Clone, Copy)]
pub(crate) struct Step(pub(crate) u64);

impl Step {
    #[inline]
    pub(crate) fn refusal(self) -> Option<Refusal> {
        refusal(self.0)
    }

    #[inline]
    pub(crate) fn acknowledgement(self) -> Option<Acknowledgement> {
        match (self.0 >> 8) as u8 {
            0x00 => None,
            0xcc => Some(Acknowledgement::Acknowledged),
            _ => unreachable!("an acknowledgement is CCh or none"),
        }
    }

    #[inline]
    pub(crate) fn own(self) -> bool {
        self.0 >> 16 & 1 == 1
    }

    #[inline]
    pub(crate) fn forwarded(self) -> usize {
        (self.0 >> 32) as usize
    }
}

/// A trace's answer that is not a refusal.
#[derive(Clone, Copy)]
pub(crate) struct Trace(u64);

impl Trace {
    #[inline]
    pub(crate) fn accepted(answer: u64) -> Result<Trace, Refusal> {
        accepted(answer).map(Trace)
    }

    #[inline]
    pub(crate) fn listed(self) -> usize {
        usize::from((self.0 >> 8) as u16)
    }

    #[inline]
    pub(crate) fn forwardings(self) -> usize {
        usize::from((self.0 >> 24) as u16)
    }
}

/// What a why's answer says, or the refusal.
#[inline]
pub(crate) fn why(answer: u32) -> Result<Why, Refusal> {
    accepted(answer.into())?;
    let reason = match (answer >> 8) as u8 {
        0 => return Ok(Why::Reached),
        1 => Reason::NotFitted,
        2 => Reason::OwnAddress,
        3 => Reason::Closed,
        4 => Reason::NotBelow,
        5 => Reason::NotAbove,
        6 => Reason::NotInTable,
        7 => Reason::CountUsedUp,
        _ => unreachable!("a reason is 0 to 7"),
    };
    let from = match answer >> 24 & 1 {
        0 => Side::Main,
        _ => Side::Sub,
    };
    Ok(Why::Stopped {
        line: (answer >> 16) as u8,
        from,
        reason,
    })
}

/// What the answer of the acknowledgement's reader says, or the refusal.
#[inline]
pub(crate) fn acknowledgement(answer: u32) -> Result<tunnelling::Acknowledgement, Refusal> {
    accepted(answer.into())?;
    Ok(tunnelling::Acknowledgement {
        channel: (answer >> 8) as u8,
        counter: (answer >> 16) as u8,
        status: (answer >> 24) as u8,
    })
}

/// Whether a confirm's answer says that the send counter was raised, or the refusal.
#[inline]
pub(crate) fn raised(answer: u32) -> Result<bool, Refusal> {
    accepted(answer.into()).map(|answer| answer >> 8 & 1 == 1)
}

/// The hundredths in the answer to reading a float, or the refusal.
#[inline]
pub(crate) fn hundredths(answer: u64) -> Result<i32, Refusal> {
    accepted(answer).map(|answer| (answer >> 32) as i32)
}

/// The code in the answer to writing a float, or the refusal.
#[inline]
pub(crate) fn code(answer: u32) -> Result<u16, Refusal> {
    accepted(answer.into())?;
    Ok(code_in(answer))
}

/// The code that a payload's answer says it carries, if it is an increment.
#[inline]
pub(crate) fn increment(answer: u32) -> Option<u16> {
    (answer >> 8 & 1 == 1).then_some(code_in(answer))
}

/// The refusal, if an answer that says nothing else is one.
#[inline]
pub(crate) fn added(answer: u32) -> Result<(), Refusal> {
    accepted(answer.into()).map(|_| ())
}

/// What a take's answer says that the frame is, or the refusal.
#[inline]
pub(crate) fn taken(answer: u32) -> Result<Taken, Refusal> {
    accepted(answer.into())?;
    Ok(match (answer >> 8) as u8 {
        1 => Taken::Counted(code_in(answer)),
        2 => Taken::Repetition,
        3 => Taken::AnotherGroup,
        4 => Taken::NoIncrement,
        _ => unreachable!("an accepted frame is 1 to 4"),
    })
}

/// Where answers of 32 bits have a code.
#[inline]
fn code_in(answer: u32) -> u16 {
    (answer >> 16) as u16
}
