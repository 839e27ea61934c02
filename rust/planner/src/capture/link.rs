//! What packets begin with, by link type, up to the IP packet in them.

use super::Unread;

/// The link types that are read, for a fault.
pub const KNOWN: &str = "Ethernet, Linux cooked, raw IP or loopback";

const NULL: u16 = 0;
const ETHERNET: u16 = 1;
const LOOP: u16 = 108;
/// As packets are captured on all interfaces at once; the second form says which one it was.
const COOKED: u16 = 113;
const COOKED_2: u16 = 276;
/// Raw IP has three numbers, and one more for each version.
const RAW: [u16; 5] = [101, 12, 14, 228, 229];

const IPV4: u16 = 0x0800;
const IPV6: u16 = 0x86dd;
const TAGS: [u16; 3] = [0x8100, 0x88a8, 0x9100];

/// Whether packets of a link type are read here.
pub fn is_known(link: u16) -> bool {
    let others = [NULL, ETHERNET, LOOP, COOKED, COOKED_2];
    others.contains(&link) || RAW.contains(&link)
}

/// Whether a packet may stand in the capture once for each interface that it crossed, and nothing in
/// it tells them apart.
pub fn is_blurred(link: u16) -> bool {
    link == COOKED
}

/// The system's number of the interface that a packet was captured on, where its link says so.
pub fn index(link: u16, octets: &[u8]) -> Option<u32> {
    match (link, octets) {
        (COOKED_2, [_, _, _, _, i0, i1, i2, i3, ..]) => {
            Some(u32::from_be_bytes([*i0, *i1, *i2, *i3]))
        }
        _ => None,
    }
}

/// The IP packet in a captured one, and whatever stands behind it.
pub fn internet(link: u16, octets: &[u8]) -> Result<&[u8], Unread> {
    match link {
        ETHERNET => by_type(octets, 12, 14),
        COOKED => by_type(octets, 14, 16),
        COOKED_2 => by_type(octets, 0, 20),
        NULL | LOOP => by_family(octets),
        link if RAW.contains(&link) => Ok(octets),
        _ => Err(Unread::Link),
    }
}

/// A type of two octets says what follows the head; before an IP packet tags may stand.
fn by_type(octets: &[u8], place: usize, head: usize) -> Result<&[u8], Unread> {
    let two = |octets: &[u8], place: usize| match octets.get(place..place + 2) {
        Some(&[high, low]) => Ok(u16::from_be_bytes([high, low])),
        _ => Err(Unread::Cut),
    };
    let mut kind = two(octets, place)?;
    let mut rest = octets.get(head..).ok_or(Unread::Cut)?;
    while TAGS.contains(&kind) {
        kind = two(rest, 2)?;
        rest = &rest[4..];
    }
    match kind {
        IPV4 | IPV6 => Ok(rest),
        _ => Err(Unread::Other),
    }
}

/// The family in front is a number of the capturing machine, in its byte order.
fn by_family(octets: &[u8]) -> Result<&[u8], Unread> {
    let (family, rest) = octets.split_first_chunk::<4>().ok_or(Unread::Cut)?;
    let families = [u32::from_be_bytes(*family), u32::from_le_bytes(*family)];
    // IPv4 is 2 everywhere, IPv6 has another number on each system.
    let is_internet = |family: &u32| [2, 10, 24, 28, 30].contains(family);
    match families.iter().any(is_internet) {
        true => Ok(rest),
        false => Err(Unread::Other),
    }
}
