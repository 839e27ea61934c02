//! What was heard and belongs to no way.

use super::Counts;
use crate::capture::Unread;

/// The service by which a router says that it has lost telegrams, ROUTING_LOST_MESSAGE.
const LOST_MESSAGE: [u8; 2] = [0x05, 0x31];

/// What no way is known of, and what is not read.
#[derive(Clone, Debug, Default)]
pub struct Aside {
    /// The readers' refusals.
    pub counts: Counts,
    /// Lines of which it is not to be told what they are.
    pub untold: u64,
    /// KNXnet/IP datagrams of other services.
    pub other_services: u64,
    /// Of these, routers' notes that they have lost telegrams.
    pub lost: u64,
    /// Packets that are no UDP datagrams of the port.
    pub other_packets: u64,
    /// Packets that begin a datagram sent in several.
    pub fragments: u64,
    /// Packets cut short.
    pub cut: u64,
    /// Packets of links that are not read.
    pub other_links: u64,
    /// Datagrams whose packets may stand in the capture once for each interface that they crossed.
    pub blurred: u64,
}

impl Aside {
    /// A packet that is not read.
    pub fn unread(&mut self, unread: Unread) {
        match unread {
            Unread::Other => self.other_packets += 1,
            Unread::Fragment => self.fragments += 1,
            Unread::Cut => self.cut += 1,
            Unread::Link => self.other_links += 1,
        }
    }

    /// A datagram that is no routing indication and no tunnelling request.
    pub fn other_service(&mut self, octets: &[u8]) {
        self.other_services += 1;
        self.lost += u64::from(octets.get(2..4) == Some(&LOST_MESSAGE));
    }
}
