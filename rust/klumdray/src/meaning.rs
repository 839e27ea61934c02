use crate::raw::Numbers;

/// A frame's meaning, without its payload.
#[derive(Clone, Copy, Debug, PartialEq, Eq)]
pub struct Meaning {
    /// The format: extended, or standard.
    pub extended: bool,
    /// The repeat flag as the bit stands: first sending, or repeated; in a cEMI request,
    /// whether repetitions are asked for.
    pub first_sending: bool,
    /// The two priority bits, 0 to 3.
    pub priority: u8,
    /// The source address.
    pub source: u16,
    /// AT: a group address, or an individual one.
    pub group: bool,
    /// The destination address; group 0000h is broadcast.
    pub destination: u16,
    /// The hop count, 0 to 7.
    pub count: u8,
}

impl Meaning {
    #[inline]
    pub(crate) fn numbers(&self) -> Numbers {
        Numbers {
            extended: self.extended.into(),
            first_sending: self.first_sending.into(),
            priority: self.priority.into(),
            source: self.source.into(),
            group: self.group.into(),
            destination: self.destination.into(),
            count: self.count.into(),
        }
    }
}
