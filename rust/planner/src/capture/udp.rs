//! UDP datagrams out of packets.

use super::internet::{carried, Carried};
use super::{link, Interface, Packet};
use std::net::SocketAddr;

const HEAD: usize = 8;

/// A UDP datagram: its ends and what it carries.
#[derive(Clone, Copy, Debug, PartialEq, Eq)]
pub struct Datagram<'a> {
    /// Where it was captured.
    pub interface: Interface,
    /// Whether its packet may stand in the capture once for each interface that it crossed.
    pub is_blurred: bool,
    /// Who sent it.
    pub from: SocketAddr,
    /// To whom.
    pub to: SocketAddr,
    /// The number that its sender gave the packet; 0 where it gave none.
    pub identification: u16,
    /// What it carries.
    pub octets: &'a [u8],
}

/// Why a packet is not read.
#[derive(Clone, Copy, Debug, PartialEq, Eq)]
pub enum Unread {
    /// It is no UDP datagram from or to the port.
    Other,
    /// It begins a datagram that was sent in several packets.
    Fragment,
    /// Octets of it are missing in the capture, or its lengths do not fit together.
    Cut,
    /// It was captured on a link that is not read here.
    Link,
}

/// The datagram in a packet, if it comes from the port or goes to it.
pub fn datagram<'a>(packet: &Packet<'a>, port: u16) -> Result<Datagram<'a>, Unread> {
    let carried = carried(link::internet(packet.link, packet.octets)?)?;
    let Carried {
        from, to, octets, ..
    } = carried;
    let (head, _) = octets.split_first_chunk::<HEAD>().ok_or(Unread::Cut)?;
    let [f0, f1, t0, t1, l0, l1, ..] = *head;
    let (source, destination) = (u16::from_be_bytes([f0, f1]), u16::from_be_bytes([t0, t1]));
    if source != port && destination != port {
        return Err(Unread::Other);
    }
    if carried.is_fragment {
        return Err(Unread::Fragment);
    }
    let length = usize::from(u16::from_be_bytes([l0, l1]));
    let octets = octets.get(HEAD..length).filter(|_| !carried.is_cut);
    Ok(Datagram {
        interface: Interface {
            index: link::index(packet.link, packet.octets),
            ..packet.interface
        },
        is_blurred: link::is_blurred(packet.link),
        from: SocketAddr::new(from, source),
        to: SocketAddr::new(to, destination),
        identification: carried.identification,
        octets: octets.ok_or(Unread::Cut)?,
    })
}
