//! A station that listens to one TP1 line and adds up what is reported to a group.

use crate::answer::taken;
use crate::leak::Total;
use crate::{coupler, raw, tp1, Refusal};

/// The octets of a station's memory: two of size and the longest frame's.
pub const MEMORY_SIZE: usize = 2 + tp1::FRAME_SIZE;

/// What a frame that is not refused is to a station.
#[derive(Clone, Copy, Debug, PartialEq, Eq)]
pub enum Taken {
    /// An increment, which was added to the total: its code.
    Counted(u16),
    /// To the group, and a repetition of the frame remembered.
    Repetition,
    /// Not to the group.
    AnotherGroup,
    /// To the group, and nothing that adds to the total.
    NoIncrement,
}

/// A station that listens to one line and keeps the total of one group.
#[derive(Clone, Debug, PartialEq, Eq)]
pub struct Station {
    group: u16,
    total: Total,
    memory: [u8; MEMORY_SIZE],
}

impl Station {
    /// The station of a group at the start: a total of so many hundredths, and no frame remembered.
    ///
    /// ```
    /// use klumdray::station::Station;
    /// let station = Station::new(0x1234, 2_100);
    /// assert_eq!(station.total(), 2_100);
    /// assert_eq!(station.remembered(), None);
    /// ```
    #[inline]
    pub fn new(group: u16, total: i64) -> Station {
        Station {
            group,
            total: Total::new(total),
            memory: [0; MEMORY_SIZE],
        }
    }

    /// The total, in hundredths.
    ///
    /// ```
    /// use klumdray::station::Station;
    /// assert_eq!(Station::new(0x1234, -1).total(), -1);
    /// ```
    #[inline]
    pub fn total(&self) -> i64 {
        self.total.hundredths()
    }

    /// The octets of the last frame that was not refused, whatever group it was to.
    ///
    /// ```
    /// use klumdray::station::{Station, Taken};
    /// let mut station = Station::new(0x1234, 0);
    /// let octets = [0xb0, 0xaf, 0xfe, 0x00, 0x00, 0xe1, 0x01, 0x00, 0xfe];
    /// assert_eq!(station.take(&octets), Ok(Taken::AnotherGroup));
    /// assert_eq!(station.remembered(), Some(&octets[..]));
    /// ```
    #[inline]
    pub fn remembered(&self) -> Option<&[u8]> {
        coupler::frame_in(&self.memory)
    }

    /// Takes a frame from the line. What was sent directly before tells a repetition, so that every
    /// frame of the line is to be handed over, also those to others. Refusals: those of
    /// [`crate::tp1::read`], then of a frame to be counted 23 for 7FFFh and 24 exactly when the sum
    /// is past 64 bits; after them total and memory are as they were.
    ///
    /// ```
    /// use klumdray::station::{Station, Taken};
    /// use klumdray::Refusal;
    /// // The meter 4.7.21 reports to group 2/2/52.
    /// let mut station = Station::new(0x1234, 0);
    /// let first = [0xbc, 0x47, 0x15, 0x12, 0x34, 0xe3, 0x00, 0x80, 0x0c, 0x1a, 0x42];
    /// assert_eq!(station.take(&first), Ok(Taken::Counted(0x0c1a)));
    /// assert_eq!(station.total(), 2_100);
    ///
    /// let repeated = [0x9c, 0x47, 0x15, 0x12, 0x34, 0xe3, 0x00, 0x80, 0x0c, 0x1a, 0x62];
    /// assert_eq!(station.take(&repeated), Ok(Taken::Repetition));
    /// assert_eq!(station.total(), 2_100);
    ///
    /// // The next increment is damaged on its first sending, and counted once by its repeats.
    /// let damaged = [0xbc, 0x47, 0x15, 0x12, 0x34, 0xe3, 0x00, 0x80, 0x0c, 0x1b, 0x42];
    /// assert_eq!(station.take(&damaged), Err(Refusal::CHECK_OCTET));
    /// let repeated = [0x9c, 0x47, 0x15, 0x12, 0x34, 0xe3, 0x00, 0x80, 0x0c, 0x1b, 0x63];
    /// assert_eq!(station.take(&repeated), Ok(Taken::Counted(0x0c1b)));
    /// assert_eq!(station.take(&repeated), Ok(Taken::Repetition));
    /// assert_eq!(station.total(), 2_100 + 2_102);
    ///
    /// // Who asks for the group's value, and who writes 7FFFh, adds nothing.
    /// let asked = [0xbc, 0x11, 0x01, 0x12, 0x34, 0xe1, 0x00, 0x00, 0x94];
    /// assert_eq!(station.take(&asked), Ok(Taken::NoIncrement));
    /// let invalid = [0xbc, 0x47, 0x15, 0x12, 0x34, 0xe3, 0x00, 0x80, 0x7f, 0xff, 0xd4];
    /// assert_eq!(station.take(&invalid), Err(Refusal::INVALID));
    /// assert_eq!(station.remembered(), Some(&asked[..]));
    /// ```
    #[inline]
    pub fn take(&mut self, octets: &[u8]) -> Result<Taken, Refusal> {
        let (total, memory) = (&mut self.total.0, &mut self.memory);
        taken(raw::take(total, memory, self.group.into(), octets))
    }
}
