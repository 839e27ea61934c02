//! Where in the octets a refusal comes from, and what was expected there. This is explanation: that
//! they are refused, and by which number, the library has said before.

use super::Kind;
use crate::arguments::listed;
use klumdray::{check_octet, Refusal};
use std::fmt;
use std::ops::Range;

/// Octets that a refusal comes from.
#[derive(Clone, Debug, PartialEq, Eq)]
pub struct Place {
    /// Which octets, from 0; an empty range at the end where octets are missing.
    pub octets: Range<usize>,
    /// What was expected there.
    pub expected: Expected,
}

/// What was expected in the place of a refusal.
#[derive(Clone, Debug, PartialEq, Eq)]
pub enum Expected {
    /// So many octets in all.
    Size(usize),
    /// So many octets in all or more: how many is said by an octet that is missing.
    AtLeast(usize),
    /// A TP1 control octet.
    Control,
    /// These very octets.
    Octets(Vec<u8>),
    /// The datagram's length in two octets.
    Total(u16),
    /// One of these octets.
    OneOf(&'static [u8]),
    /// An octet from 00h up to this one.
    UpTo(u8),
    /// The end of the frame.
    End,
    /// A datagram that has a total length.
    Shorter,
}

impl fmt::Display for Expected {
    fn fmt(&self, f: &mut fmt::Formatter<'_>) -> fmt::Result {
        match self {
            Expected::Size(octets) => write!(f, "{octets} octets"),
            Expected::AtLeast(octets) => write!(f, "at least {octets} octets"),
            // "Bit 6: 0. .. Bit 4: 1. .. Bits 1 and 0: 00."
            Expected::Control => write!(f, "the bits x0x1xx00"),
            Expected::Octets(octets) => write!(f, "{}", marked(octets).join(" ")),
            Expected::Total(length) => {
                let octets = marked(&length.to_be_bytes()).join(" ");
                write!(f, "{octets}, the datagram's {length} octets")
            }
            Expected::OneOf(octets) => {
                let octets = marked(octets);
                let octets: Vec<&str> = octets.iter().map(String::as_str).collect();
                write!(f, "{}", listed(&octets))
            }
            Expected::UpTo(octet) => write!(f, "00h to {octet:02X}h"),
            Expected::End => write!(f, "the end of the frame"),
            Expected::Shorter => write!(f, "a datagram of at most 65535 octets"),
        }
    }
}

/// Each octet as document 01 writes one in a sentence: "CCh".
pub fn marked(octets: &[u8]) -> Vec<String> {
    octets.iter().map(|octet| format!("{octet:02X}h")).collect()
}

/// The place of a refusal that a kind's reader gave; none for a refusal that no reader gives.
///
/// ```
/// use planner::frame::{place::place, Kind};
/// let octets = [0xb0, 0xaf, 0xfe, 0x00, 0x00, 0xe1, 0x01, 0x00, 0xff];
/// let refusal = Kind::Tp1.read(&octets).unwrap_err();
/// let place = place(Kind::Tp1, &octets, refusal).unwrap();
/// assert_eq!((place.octets, place.expected.to_string().as_str()), (8..9, "FEh"));
/// ```
pub fn place(kind: Kind, octets: &[u8], refusal: Refusal) -> Option<Place> {
    let layout = Layout::of(kind, octets);
    let message = header(kind);
    let (octets, expected) = match refusal {
        Refusal::TOO_FEW => (octets.len()..octets.len(), layout.needed()),
        Refusal::ANOTHER_KIND => (0..1, Expected::Control),
        Refusal::EFF => {
            let octet = octets.get(layout.eff)?;
            (one(layout.eff), Expected::Octets(vec![octet & 0xf0]))
        }
        Refusal::ESCAPE | Refusal::STANDARD_LG => (one(layout.lg), Expected::UpTo(layout.most)),
        Refusal::OCTETS_LEFT => (layout.size()..octets.len(), Expected::End),
        Refusal::CHECK_OCTET => {
            let (_, before) = octets.split_last()?;
            let expected = Expected::Octets(vec![check_octet(before)]);
            (one(before.len()), expected)
        }
        Refusal::MESSAGE_CODE => (one(message), codes(kind)),
        Refusal::INFORMATION => (one(message + 1), Expected::UpTo(254)),
        Refusal::HEADER => beginning(octets)?,
        Refusal::SERVICE => (2..4, Expected::Octets(kind.service()?.to_vec())),
        Refusal::TOTAL_LENGTH => (4..6, total(octets.len())),
        Refusal::FIRST_OCTET => (one(6), Expected::Octets(vec![0x04])),
        _ => return None,
    };
    Some(Place { octets, expected })
}

fn one(octet: usize) -> Range<usize> {
    octet..octet + 1
}

/// The octets before a cEMI message.
fn header(kind: Kind) -> usize {
    match kind {
        Kind::Routing => 6,
        Kind::Request | Kind::Acknowledgement => 10,
        Kind::Tp1 | Kind::Cemi => 0,
    }
}

fn codes(kind: Kind) -> Expected {
    Expected::OneOf(match kind {
        Kind::Routing => &[0x29],
        _ => &[0x11, 0x2e, 0x29],
    })
}

/// Of header length and version, those that are wrong.
fn beginning(octets: &[u8]) -> Option<(Range<usize>, Expected)> {
    let [length, version, ..] = *octets else {
        return None;
    };
    let wrong = match (length == 0x06, version == 0x10) {
        (false, true) => 0..1,
        (true, _) => 1..2,
        (false, false) => 0..2,
    };
    let expected = Expected::Octets([0x06, 0x10][wrong.clone()].to_vec());
    Some((wrong, expected))
}

fn total(length: usize) -> Expected {
    u16::try_from(length).map_or(Expected::Shorter, Expected::Total)
}

/// Where the fields lie that say how long a frame is, as far as the octets there tell.
struct Layout {
    /// The octet of EFF.
    eff: usize,
    /// The octet of LG.
    lg: usize,
    /// The greatest LG of the format.
    most: u8,
    /// The octets of such a frame with LG 0.
    least: usize,
    /// LG, if it is there.
    value: Option<u8>,
}

impl Layout {
    fn of(kind: Kind, octets: &[u8]) -> Layout {
        match kind {
            Kind::Tp1 => Layout::of_tp1(octets),
            Kind::Cemi | Kind::Routing | Kind::Request => Layout::of_message(header(kind), octets),
            Kind::Acknowledgement => Layout::without_message(header(kind)),
        }
    }

    /// An acknowledgement ends where a request's message begins.
    fn without_message(header: usize) -> Layout {
        Layout {
            eff: header,
            lg: header,
            most: 0,
            least: header,
            value: Some(0),
        }
    }

    /// "Standard, 8 + LG octets", "Extended, 9 + LG octets".
    fn of_tp1(octets: &[u8]) -> Layout {
        let standard = is_standard(octets.first());
        let (eff, lg) = if standard { (5, 5) } else { (1, 6) };
        let most = greatest(standard);
        let mask = if standard { 0x0f } else { 0xff };
        Layout {
            eff,
            lg,
            most,
            least: lg + 3,
            value: octets.get(lg).map(|octet| octet & mask),
        }
    }

    /// "10 + a + LG octets: message code, a, a octets of additional information .., Ctrl1, Ctrl2
    /// .., source, destination, LG".
    fn of_message(header: usize, octets: &[u8]) -> Layout {
        let a = octets.get(header + 1).copied().map_or(0, usize::from);
        let control = header + 2 + a;
        let lg = control + 6;
        Layout {
            eff: control + 1,
            lg,
            most: greatest(is_standard(octets.get(control))),
            least: lg + 2,
            value: octets.get(lg).copied(),
        }
    }

    fn size(&self) -> usize {
        self.least + self.value.map_or(0, usize::from)
    }

    fn needed(&self) -> Expected {
        match self.value {
            Some(_) => Expected::Size(self.size()),
            None => Expected::AtLeast(self.size()),
        }
    }
}

/// "Bit 7: 1 standard, 0 extended."
fn is_standard(control: Option<&u8>) -> bool {
    control.is_none_or(|control| control & 0x80 != 0)
}

fn greatest(standard: bool) -> u8 {
    if standard {
        15
    } else {
        254
    }
}
