//! A station that listens to one TP1 line and keeps the leak total of one group: document 02, "R-2.
//! An increment eaten as a repetition" and "R-4. Litres that add up", over document 01's frames.

use crate::coupler::Remembered;
use crate::leak;
use crate::tp1::{self, Frame};

/// What an accepted frame is to the station.
#[derive(Clone, Copy, Debug, PartialEq, Eq)]
pub enum Taken {
    /// An increment, whose code was added to the total.
    Counted(u16),
    /// A repetition of the remembered frame, whose increment is in the total already.
    Repetition,
    /// A frame to another destination than the station's group.
    AnotherGroup,
    /// A frame to the group with another payload than an increment.
    NoIncrement,
}

#[derive(Clone, Debug, PartialEq, Eq)]
pub struct Station {
    /// The group whose increments are counted.
    pub group: u16,
    /// "The total is kept in 64 bits of hundredths"
    pub total: i64,
    /// "the last accepted frame", of whatever group.
    pub remembered: Remembered,
}

impl Station {
    /// A station that remembers nothing yet.
    pub fn new(group: u16, total: i64) -> Station {
        Station {
            group,
            total,
            remembered: Remembered::NONE,
        }
    }

    /// A frame arrives. The TP1 reader's refusals, then 23 and 24 of an increment: "A refusal
    /// returns its number and no frame; nothing lent is written, nothing remembered changes." Else
    /// "the accepted frame is the remembered one", whatever it is to the station.
    pub fn take(&mut self, octets: &[u8]) -> Result<Taken, u8> {
        let frame = tp1::read(octets)?;
        let taken = self.judge(&frame, octets);
        if let Taken::Counted(code) = taken {
            self.total = leak::add(self.total, code)?;
        }
        self.remembered.remember(octets);
        Ok(taken)
    }

    /// What the frame is, of several the first: of another group, a repetition, no increment. "AT 1
    /// means a group address".
    fn judge(&self, frame: &Frame<'_>, octets: &[u8]) -> Taken {
        let Frame { meaning, payload } = frame;
        if !meaning.group || meaning.destination != self.group {
            return Taken::AnotherGroup;
        }
        if self.remembered.is_repeated_by(meaning, octets) {
            return Taken::Repetition;
        }
        match leak::increment(payload) {
            Some(code) => Taken::Counted(code),
            None => Taken::NoIncrement,
        }
    }
}

#[cfg(test)]
mod tests;
