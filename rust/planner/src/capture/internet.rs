//! IPv4 and IPv6, up to what they carry.

use super::Unread;
use std::net::{IpAddr, Ipv4Addr, Ipv6Addr};

const UDP: u8 = 17;

/// What an IP packet carries, if it is UDP.
pub struct Carried<'a> {
    pub from: IpAddr,
    pub to: IpAddr,
    /// The number that its sender gave the packet; 0 where it gave none.
    pub identification: u16,
    /// The octets that are there, without what a link puts behind a short packet.
    pub octets: &'a [u8],
    /// Whether the head announces more.
    pub is_cut: bool,
    /// Whether this is the first part of a datagram that was sent in several.
    pub is_fragment: bool,
}

/// Takes an IP packet apart; one that carries anything but UDP, or a later part of a datagram, is
/// another packet.
pub fn carried(octets: &[u8]) -> Result<Carried<'_>, Unread> {
    match octets.first().ok_or(Unread::Cut)? >> 4 {
        4 => version_4(octets),
        6 => version_6(octets),
        _ => Err(Unread::Other),
    }
}

fn version_4(octets: &[u8]) -> Result<Carried<'_>, Unread> {
    let head = octets.first_chunk::<20>().ok_or(Unread::Cut)?;
    let size = usize::from(head[0] & 15) * 4;
    let total = usize::from(u16::from_be_bytes([head[2], head[3]]));
    let flags = u16::from_be_bytes([head[6], head[7]]);
    let (more, place) = (flags & 0x2000 != 0, flags & 0x1fff);
    if size < head.len() || total < size || head[9] != UDP || place != 0 {
        return Err(Unread::Other);
    }
    let (rest, is_cut) = between(octets, size, total)?;
    let address = |at: usize| Ipv4Addr::new(head[at], head[at + 1], head[at + 2], head[at + 3]);
    Ok(Carried {
        from: address(12).into(),
        to: address(16).into(),
        identification: u16::from_be_bytes([head[4], head[5]]),
        octets: rest,
        is_cut,
        is_fragment: more,
    })
}

fn version_6(octets: &[u8]) -> Result<Carried<'_>, Unread> {
    let head = octets.first_chunk::<40>().ok_or(Unread::Cut)?;
    let total = 40 + usize::from(u16::from_be_bytes([head[4], head[5]]));
    let (mut rest, is_cut) = between(octets, 40, total)?;
    let (mut next, mut is_fragment) = (head[6], false);
    while next != UDP {
        let size = match (next, rest) {
            // Options for each router, a route, options for the destination.
            (0 | 43 | 60, [_, eights, ..]) => 8 * (1 + usize::from(*eights)),
            (44, [_, _, high, low, ..]) => {
                let flags = u16::from_be_bytes([*high, *low]);
                if flags >> 3 != 0 {
                    return Err(Unread::Other);
                }
                is_fragment = flags & 1 == 1;
                8
            }
            (0 | 43 | 44 | 60, _) => return Err(Unread::Cut),
            _ => return Err(Unread::Other),
        };
        next = rest[0];
        rest = rest.get(size..).ok_or(Unread::Cut)?;
    }
    let address = |at: usize| {
        let octets = head[at..].first_chunk::<16>();
        octets.map_or(Ipv6Addr::UNSPECIFIED, |octets| Ipv6Addr::from(*octets))
    };
    Ok(Carried {
        from: address(8).into(),
        to: address(24).into(),
        identification: 0,
        octets: rest,
        is_cut,
        is_fragment,
    })
}

/// The octets between a head's end and the packet's, and whether some of them are missing.
fn between(octets: &[u8], start: usize, end: usize) -> Result<(&[u8], bool), Unread> {
    let rest = octets.get(start..end.min(octets.len()));
    Ok((rest.ok_or(Unread::Cut)?, end > octets.len()))
}
