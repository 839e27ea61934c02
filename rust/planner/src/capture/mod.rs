//! Captures of packets, pcap and pcapng, and the UDP datagrams in them. This is translation: whether
//! a datagram is a telegram, and what it says, the library is asked.

mod described;
mod internet;
mod link;
mod pcap;
mod pcapng;
mod source;
mod udp;

pub use source::{Broken, Source};
pub use udp::{datagram, Datagram, Unread};

use crate::calendar::Moment;

/// The longest packet, as Wireshark has it: a longer one is a length field that was damaged.
const LONGEST_PACKET: u32 = 262_144;

/// An interface that packets were captured on. pcap has one; pcapng counts them in each section
/// anew, so that two sections' are not known to be the same.
#[derive(Clone, Copy, Debug, Default, PartialEq, Eq, PartialOrd, Ord, Hash)]
pub struct Interface {
    /// The section, from 0.
    pub section: u32,
    /// The interface in it, from 0.
    pub number: u32,
    /// Of a capture on all interfaces at once (Linux cooked 2), the system's number of the one.
    pub index: Option<u32>,
}

/// A packet as it was captured.
#[derive(Clone, Copy, Debug, PartialEq, Eq)]
pub struct Packet<'a> {
    /// Where.
    pub interface: Interface,
    /// The link type, which says what the octets begin with.
    pub link: u16,
    /// When, if the capture says so and it is between 1970 and 9999.
    pub time: Option<Moment>,
    /// Its octets, or as many as were kept.
    pub octets: &'a [u8],
}

/// A capture that is read packet by packet; no more than one is held.
pub enum Capture<'a> {
    /// The older form.
    Pcap(pcap::Reader<'a>),
    /// The newer form.
    Pcapng(pcapng::Reader<'a>),
}

/// What a file is, by its first octets.
#[derive(Clone, Copy, Debug, PartialEq, Eq)]
pub enum Form {
    /// pcap, in the byte order and with the fractions of a second that its mark says.
    Pcap,
    /// pcapng.
    Pcapng,
    /// Compressed, by the program named.
    Compressed(&'static str),
    /// None of these.
    Other,
}

impl Form {
    /// Tells a file's form by its first four octets, or all that it has.
    ///
    /// ```
    /// use planner::capture::Form;
    /// assert_eq!(Form::of(&[0xd4, 0xc3, 0xb2, 0xa1]), Form::Pcap);
    /// assert_eq!(Form::of(&[0x0a, 0x0d, 0x0d, 0x0a]), Form::Pcapng);
    /// assert_eq!(Form::of(&[0x1f, 0x8b, 0x08, 0x00]), Form::Compressed("gzip"));
    /// assert_eq!(Form::of(b"BC 0"), Form::Other);
    /// ```
    pub fn of(first: &[u8]) -> Form {
        match *first {
            [0x0a, 0x0d, 0x0d, 0x0a] => Form::Pcapng,
            [0x1f, 0x8b, ..] => Form::Compressed("gzip"),
            [0x28, 0xb5, 0x2f, 0xfd] => Form::Compressed("zstd"),
            [0x04, 0x22, 0x4d, 0x18] => Form::Compressed("lz4"),
            [0xfd, b'7', b'z', b'X'] => Form::Compressed("xz"),
            [b'B', b'Z', b'h', _] => Form::Compressed("bzip2"),
            [b'P', b'K', 0x03, 0x04] => Form::Compressed("zip"),
            [a, b, c, d] if pcap::Mark::read([a, b, c, d]).is_some() => Form::Pcap,
            _ => Form::Other,
        }
    }
}

impl<'a> Capture<'a> {
    /// Begins with a pcap file.
    pub fn pcap(source: Source<'a>) -> Result<Capture<'a>, Broken> {
        pcap::Reader::begin(source).map(Capture::Pcap)
    }

    /// Begins with a pcapng file.
    pub fn pcapng(source: Source<'a>) -> Capture<'a> {
        Capture::Pcapng(pcapng::Reader::begin(source))
    }

    /// The next packet; none at the end of the file.
    pub fn packet(&mut self) -> Result<Option<Packet<'_>>, Broken> {
        match self {
            Capture::Pcap(reader) => reader.packet(),
            Capture::Pcapng(reader) => reader.packet(),
        }
    }

    /// How many octets of the file have been read.
    pub fn octet(&self) -> u64 {
        match self {
            Capture::Pcap(reader) => reader.octet(),
            Capture::Pcapng(reader) => reader.octet(),
        }
    }
}

/// The order of a number's octets in a file.
#[derive(Clone, Copy, Debug, PartialEq, Eq)]
enum Order {
    High,
    Low,
}

impl Order {
    fn u16(self, octets: [u8; 2]) -> u16 {
        match self {
            Order::High => u16::from_be_bytes(octets),
            Order::Low => u16::from_le_bytes(octets),
        }
    }

    fn u32(self, octets: [u8; 4]) -> u32 {
        match self {
            Order::High => u32::from_be_bytes(octets),
            Order::Low => u32::from_le_bytes(octets),
        }
    }

    fn i64(self, octets: [u8; 8]) -> i64 {
        match self {
            Order::High => i64::from_be_bytes(octets),
            Order::Low => i64::from_le_bytes(octets),
        }
    }

    /// A row of numbers of four octets each.
    fn row<const N: usize>(self, octets: &[u8]) -> [u32; N] {
        let mut numbers = [0; N];
        for (number, octets) in numbers.iter_mut().zip(octets.as_chunks().0) {
            *number = self.u32(*octets);
        }
        numbers
    }
}
