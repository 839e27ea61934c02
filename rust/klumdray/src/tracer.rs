//! Sites and the tracer: the lines that a telegram reaches from its starting line, and why it does
//! not reach another.

use core::fmt;

use crate::answer::{self, Trace};
use crate::coupler::Side;
use crate::{raw, Refusal};

pub use crate::raw::Site;

/// The octets of a coupler's record in a site.
pub const RECORD_SIZE: usize = 12;

/// The octets of a listed line: line, count on arrival, couplers crossed.
pub const LISTED_SIZE: usize = 3;

/// The octets that a trace's room has at the least: a place for each of the 256 lines.
pub const LIST_ROOM_SIZE: usize = 768;

/// A telegram to trace.
#[derive(Clone, Copy, Debug, PartialEq, Eq)]
pub struct Query {
    /// The starting line, area times 16 plus line, any.
    pub start: u8,
    /// Whether the destination is a group address.
    pub group: bool,
    /// The destination address.
    pub destination: u16,
    /// The hop count on the starting line, 0 to 7.
    pub count: u8,
}

impl Query {
    #[inline]
    fn numbers(&self) -> raw::Query {
        raw::Query {
            start: self.start.into(),
            kind: self.group.into(),
            destination: self.destination.into(),
            count: self.count.into(),
        }
    }
}

/// A line that a telegram reaches.
#[derive(Clone, Copy, Debug, PartialEq, Eq)]
pub struct Listed {
    /// The line.
    pub line: u8,
    /// The hop count on arrival.
    pub count: u8,
    /// How many couplers were crossed.
    pub crossed: u8,
}

/// Where a telegram arrives.
#[derive(Clone, Copy, Debug, PartialEq, Eq)]
pub struct Traced<'a> {
    /// The list as it lies at the front of the room: line, count on arrival and couplers crossed of
    /// each listed line, rising. The starting line is always listed.
    pub list: &'a [u8],
    /// How many forwardings were made on the site.
    pub forwardings: usize,
}

impl<'a> Traced<'a> {
    /// The listed lines, rising.
    ///
    /// ```
    /// use klumdray::tracer::{trace, Listed, Query, Site, LIST_ROOM_SIZE};
    /// let site = Site { records: &[], project: &[], own: &[] };
    /// let query = Query { start: 0x47, group: true, destination: 0x1234, count: 6 };
    /// let mut room = [0; LIST_ROOM_SIZE];
    /// let traced = trace(&query, &site, &mut room)?;
    /// assert!(traced.lines().eq([Listed { line: 0x47, count: 6, crossed: 0 }]));
    /// # Ok::<(), klumdray::Refusal>(())
    /// ```
    #[inline]
    pub fn lines(&self) -> impl Iterator<Item = Listed> + 'a {
        let listed = self.list.chunks_exact(LISTED_SIZE);
        listed.map(|octets| Listed {
            line: octets[0],
            count: octets[1],
            crossed: octets[2],
        })
    }
}

/// Lists the lines that a telegram reaches. Refusals: 14 for the count, 13 exactly when the room is
/// below 768 octets, 18 for a store's size, 16 for the records' length, then record by record 16,
/// 15, 18, 17. Octets of the room behind the list stay; after a refusal all do.
///
/// ```
/// use klumdray::tracer::{trace, Query, Site, LIST_ROOM_SIZE};
/// use klumdray::Refusal;
/// let records = [0x20, 0x40, 0x45, 0x47].map(|line| {
///     [0x43, 0x50, line, 2, 2, 2, 2, 2, 2, 2, 2, 0xff]
/// });
/// let site = Site { records: records.as_flattened(), project: &[], own: &[] };
/// let query = Query { start: 0x47, group: true, destination: 0x1234, count: 2 };
/// let mut room = [0; LIST_ROOM_SIZE];
///
/// let traced = trace(&query, &site, &mut room)?;
/// assert_eq!(traced.list, [0x00, 0, 2, 0x40, 1, 1, 0x45, 0, 2, 0x47, 2, 0]);
/// assert_eq!(traced.forwardings, 3);
///
/// let cut = Site { records: &site.records[1..], ..site };
/// assert_eq!(trace(&query, &cut, &mut room), Err(Refusal::SITE));
/// assert_eq!(trace(&query, &site, &mut room[1..]), Err(Refusal::ROOM));
/// # Ok::<(), Refusal>(())
/// ```
#[inline]
pub fn trace<'a>(
    query: &Query,
    site: &Site<'_>,
    room: &'a mut [u8],
) -> Result<Traced<'a>, Refusal> {
    let trace = Trace::accepted(raw::trace(&query.numbers(), site, room))?;
    Ok(Traced {
        list: &room[..LISTED_SIZE * trace.listed()],
        forwardings: trace.forwardings(),
    })
}

/// Why a coupler does not hand a telegram on; where more than one applies, the first of them.
///
/// ```
/// use klumdray::tracer::Reason;
/// assert_eq!(Reason::NotFitted.to_string(), "no coupler fitted");
/// assert_eq!(Reason::CountUsedUp.to_string(), "the count is used up");
/// ```
#[derive(Clone, Copy, Debug, PartialEq, Eq, PartialOrd, Ord, Hash)]
pub enum Reason {
    /// No coupler is fitted.
    NotFitted,
    /// The destination is the coupler's own address.
    OwnAddress,
    /// The code is closed.
    Closed,
    /// Code 1, and the destination is not below.
    NotBelow,
    /// Code 1, and the destination is not above.
    NotAbove,
    /// Code 1, and the group is not in the coupler's filter table.
    NotInTable,
    /// The count is used up.
    CountUsedUp,
}

impl fmt::Display for Reason {
    fn fmt(&self, f: &mut fmt::Formatter<'_>) -> fmt::Result {
        f.write_str(match self {
            Reason::NotFitted => "no coupler fitted",
            Reason::OwnAddress => "the destination is the coupler's own address",
            Reason::Closed => "the code is closed",
            Reason::NotBelow => "code 1, and the destination is not below",
            Reason::NotAbove => "code 1, and the destination is not above",
            Reason::NotInTable => "code 1, and the group is not in its table",
            Reason::CountUsedUp => "the count is used up",
        })
    }
}

/// Whether a telegram reaches a line, and if not, why.
#[derive(Clone, Copy, Debug, PartialEq, Eq)]
pub enum Why {
    /// The line is listed by [`trace`].
    Reached,
    /// The first coupler on the path from the starting line that does not hand the telegram on.
    Stopped {
        /// The line of this coupler, fitted or not.
        line: u8,
        /// The side that it is come to from: from [`Side::Main`] the telegram goes from main to
        /// sub.
        from: Side,
        /// Why the telegram goes no further.
        reason: Reason,
    },
}

/// Whether a telegram reaches a line, and if not, which coupler stops it and why. Refusals: those
/// of [`trace`] but 13.
///
/// ```
/// use klumdray::coupler::Side;
/// use klumdray::tracer::{why, Query, Reason, Site, Why};
/// let records = [0x20, 0x40, 0x47].map(|line| {
///     [0x43, 0x50, line, 1, 0, 0, 0, 1, 0, 0, 0, 0xff]
/// });
/// let site = Site { records: records.as_flattened(), project: &[], own: &[] };
///
/// let query = Query { start: 0x20, group: false, destination: 0x4700, count: 6 };
/// assert_eq!(why(&query, &site, 0x40)?, Why::Reached);
/// let stopped = Why::Stopped { line: 0x47, from: Side::Main, reason: Reason::OwnAddress };
/// assert_eq!(why(&query, &site, 0x47)?, stopped);
///
/// let query = Query { start: 0x47, destination: 0x4901, ..query };
/// let stopped = Why::Stopped { line: 0x40, from: Side::Sub, reason: Reason::NotAbove };
/// assert_eq!(why(&query, &site, 0x20)?, stopped);
/// # Ok::<(), klumdray::Refusal>(())
/// ```
#[inline]
pub fn why(query: &Query, site: &Site<'_>, line: u8) -> Result<Why, Refusal> {
    answer::why(raw::why(&query.numbers(), site, line.into()))
}
