//! Captures written as Wireshark and dumpcap write them, octet by octet.

pub const ETHERNET: u16 = 1;
pub const ROUTER: End = End([192, 168, 1, 10], 3671);
pub const OTHER_ROUTER: End = End([192, 168, 1, 11], 3671);
pub const MULTICAST: End = End([224, 0, 23, 12], 3671);
pub const LAPTOP: End = End([192, 168, 1, 77], 50_123);

/// An address and a port.
#[derive(Clone, Copy)]
pub struct End(pub [u8; 4], pub u16);

/// A UDP datagram with its head.
pub fn udp(from: u16, to: u16, octets: &[u8]) -> Vec<u8> {
    let length = 8 + octets.len() as u16;
    let head = [from, to, length, 0].map(u16::to_be_bytes);
    [head.as_flattened(), octets].concat()
}

/// An IPv4 packet; `fragment` are the flags and the place.
pub fn ipv4(from: End, to: End, protocol: u8, fragment: u16, octets: &[u8]) -> Vec<u8> {
    let [t1, t0] = (20 + octets.len() as u16).to_be_bytes();
    let [f1, f0] = fragment.to_be_bytes();
    let head = [0x45, 0, t1, t0, 0, 0, f1, f0, 16, protocol, 0, 0];
    [&head[..], &from.0, &to.0, octets].concat()
}

/// The same packet with a number of its sender's.
pub fn numbered(mut packet: Vec<u8>, number: u16) -> Vec<u8> {
    packet[4..6].copy_from_slice(&number.to_be_bytes());
    packet
}

/// An IPv4 packet with a UDP datagram.
pub fn packet(from: End, to: End, octets: &[u8]) -> Vec<u8> {
    ipv4(from, to, 17, 0x4000, &udp(from.1, to.1, octets))
}

/// An IPv6 packet with extension heads before a UDP datagram.
pub fn ipv6(next: u8, extensions: &[u8], from: u16, to: u16, octets: &[u8]) -> Vec<u8> {
    let carried = [extensions, &udp(from, to, octets)].concat();
    let [l1, l0] = (carried.len() as u16).to_be_bytes();
    let mut address = [0xfe; 16];
    address[15] = 1;
    let head = [0x60, 0, 0, 0, l1, l0, next, 64];
    [&head[..], &address, &address, &carried].concat()
}

/// An Ethernet frame, filled to the 60 octets that the shortest has.
pub fn ethernet(packet: &[u8]) -> Vec<u8> {
    let mut frame = [&[1, 0, 0x5e, 0, 0x17, 0x0c, 2, 2, 2, 2, 2, 2, 8, 0], packet].concat();
    frame.resize(frame.len().max(60), 0);
    frame
}

/// A routing datagram on Ethernet.
pub fn routed(from: End, octets: &[u8]) -> Vec<u8> {
    ethernet(&packet(from, MULTICAST, octets))
}

/// The order of a number's octets.
#[derive(Clone, Copy, Debug, PartialEq, Eq)]
pub enum Order {
    High,
    Low,
}

impl Order {
    pub fn two(self, number: u16) -> Vec<u8> {
        match self {
            Order::High => number.to_be_bytes().to_vec(),
            Order::Low => number.to_le_bytes().to_vec(),
        }
    }

    pub fn four(self, number: u32) -> Vec<u8> {
        match self {
            Order::High => number.to_be_bytes().to_vec(),
            Order::Low => number.to_le_bytes().to_vec(),
        }
    }

    pub fn fours(self, numbers: &[u32]) -> Vec<u8> {
        numbers
            .iter()
            .flat_map(|number| self.four(*number))
            .collect()
    }
}

/// The head of a pcap file.
pub fn pcap_head(order: Order, is_nano: bool, link: u16) -> Vec<u8> {
    let mark = if is_nano { 0xa1b2_3c4d } else { 0xa1b2_c3d4 };
    [
        order.four(mark),
        order.two(2),
        order.two(4),
        order.fours(&[0, 0, 262_144, link.into()]),
    ]
    .concat()
}

/// A packet of a pcap file; `parts` are those of the second.
pub fn pcap_packet(order: Order, seconds: u32, parts: u32, octets: &[u8]) -> Vec<u8> {
    let size = octets.len() as u32;
    [order.fours(&[seconds, parts, size, size]), octets.to_vec()].concat()
}

/// A block of a pcapng file.
pub fn block(order: Order, kind: u32, inside: &[u8]) -> Vec<u8> {
    let mut inside = inside.to_vec();
    inside.resize(inside.len().next_multiple_of(4), 0);
    let length = order.four(12 + inside.len() as u32);
    [order.four(kind), length.clone(), inside, length].concat()
}

/// The block that begins a section, with a comment.
pub fn section(order: Order) -> Vec<u8> {
    let inside = [
        order.four(0x1a2b_3c4d),
        order.two(1),
        order.two(0),
        vec![0xff; 8],
        option(order, 1, b"a test"),
        option(order, 0, b""),
    ];
    block(order, 0x0a0d_0d0a, &inside.concat())
}

/// An option of a block.
pub fn option(order: Order, code: u16, value: &[u8]) -> Vec<u8> {
    let mut octets = [
        order.two(code),
        order.two(value.len() as u16),
        value.to_vec(),
    ]
    .concat();
    octets.resize(octets.len().next_multiple_of(4), 0);
    octets
}

/// An interface with a link type, the most that is kept of a packet, and options.
pub fn interface(order: Order, link: u16, most: u32, options: &[Vec<u8>]) -> Vec<u8> {
    let mut inside = [order.two(link), order.two(0), order.four(most)].concat();
    inside.extend(options.concat());
    if !options.is_empty() {
        inside.extend(option(order, 0, b""));
    }
    block(order, 1, &inside)
}

/// An enhanced packet block.
pub fn enhanced(order: Order, interface: u32, units: u64, octets: &[u8]) -> Vec<u8> {
    let (high, low) = ((units >> 32) as u32, units as u32);
    let size = octets.len() as u32;
    let mut inside = order.fours(&[interface, high, low, size, size]);
    inside.extend(octets);
    inside.resize(inside.len().next_multiple_of(4), 0);
    inside.extend(option(order, 2, &[0; 4]));
    inside.extend(option(order, 0, b""));
    block(order, 6, &inside)
}

/// An obsolete packet block.
pub fn obsolete(order: Order, interface: u16, units: u64, octets: &[u8]) -> Vec<u8> {
    let (high, low) = ((units >> 32) as u32, units as u32);
    let size = octets.len() as u32;
    let mut inside = [order.two(interface), order.two(3)].concat();
    inside.extend(order.fours(&[high, low, size, size]));
    inside.extend(octets);
    block(order, 2, &inside)
}

/// A simple packet block.
pub fn simple(order: Order, size: u32, octets: &[u8]) -> Vec<u8> {
    block(order, 3, &[order.four(size), octets.to_vec()].concat())
}
