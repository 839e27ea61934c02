//! The ways that telegrams come to a capture.

use crate::capture::{Datagram, Interface};
use std::fmt;
use std::net::{IpAddr, SocketAddr};

/// A way that telegrams come by. What is heard on two ways may be the same telegram twice.
#[derive(Clone, Copy, Debug, PartialEq, Eq, Hash)]
pub enum Way {
    /// The lines of a text.
    Text,
    /// Routing datagrams of one sender.
    Routing {
        /// Where they were captured.
        interface: Interface,
        /// Who sends them.
        from: IpAddr,
    },
    /// Tunnelling requests between two ends.
    Tunnelling {
        /// Where they were captured.
        interface: Interface,
        /// Who sends them.
        from: SocketAddr,
        /// To whom.
        to: SocketAddr,
        /// The number of the session.
        channel: u8,
    },
}

impl Way {
    /// The way of a routing datagram.
    pub fn routing(datagram: &Datagram<'_>) -> Way {
        Way::Routing {
            interface: datagram.interface,
            from: datagram.from.ip(),
        }
    }

    /// The way of a tunnelling request.
    pub fn tunnelling(datagram: &Datagram<'_>, channel: u8) -> Way {
        Way::Tunnelling {
            interface: datagram.interface,
            from: datagram.from,
            to: datagram.to,
            channel,
        }
    }

    /// Whether a session lies between a datagram's addresses, in either direction. The ports may be
    /// others: a session is opened between control ends, and its requests go between data ends.
    pub fn is_between(&self, datagram: &Datagram<'_>) -> bool {
        let ends = (datagram.from.ip(), datagram.to.ip());
        match self {
            Way::Tunnelling {
                interface,
                from,
                to,
                ..
            } => {
                let own = (from.ip(), to.ip());
                *interface == datagram.interface && (own == ends || own == (ends.1, ends.0))
            }
            _ => false,
        }
    }

    /// Its interface; none of a text.
    pub fn interface(&self) -> Option<Interface> {
        match self {
            Way::Text => None,
            Way::Routing { interface, .. } | Way::Tunnelling { interface, .. } => Some(*interface),
        }
    }
}

impl fmt::Display for Way {
    fn fmt(&self, f: &mut fmt::Formatter<'_>) -> fmt::Result {
        match self {
            Way::Text => write!(f, "the lines of the text")?,
            Way::Routing { from, .. } => write!(f, "routing from {from}")?,
            Way::Tunnelling {
                from, to, channel, ..
            } => write!(f, "tunnelling from {from} to {to}, channel {channel}")?,
        }
        let Some(interface) = self.interface() else {
            return Ok(());
        };
        write!(f, ", interface {}", interface.number)?;
        if let Some(index) = interface.index {
            write!(f, " ({index} of the system)")?;
        }
        match interface.section {
            0 => Ok(()),
            section => write!(f, " of section {section}"),
        }
    }
}
