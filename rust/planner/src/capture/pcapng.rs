//! pcapng: blocks, each with its kind and its length in front and its length once more behind.

use super::described::{self, Described};
use super::{Broken, Interface, Order, Packet, Source, LONGEST_PACKET};

/// A block's kind and length in front, its length behind.
const AROUND: u32 = 12;
/// A section's kind reads the same in either byte order.
const SECTION: [u8; 4] = [0x0a, 0x0d, 0x0d, 0x0a];
const INTERFACE: u32 = 1;
const OBSOLETE_PACKET: u32 = 2;
const SIMPLE_PACKET: u32 = 3;
const ENHANCED_PACKET: u32 = 6;
/// Behind a block's length: order, versions and length of a section.
const SECTION_HEAD: u32 = 16;
const PACKET_HEAD: usize = 20;
/// No machine has as many; each is remembered.
const MOST_INTERFACES: usize = 4_096;

/// A packet whose octets are in the room.
struct Kept {
    interface: u32,
    units: Option<u64>,
}

/// Reads block by block.
pub struct Reader<'a> {
    source: Source<'a>,
    order: Order,
    /// How many sections have begun.
    sections: u32,
    interfaces: Vec<Described>,
    room: Vec<u8>,
}

impl<'a> Reader<'a> {
    /// Begins before the first section.
    pub fn begin(source: Source<'a>) -> Reader<'a> {
        Reader {
            source,
            order: Order::High,
            sections: 0,
            interfaces: Vec::new(),
            room: Vec::new(),
        }
    }

    /// How many octets of the file have been read.
    pub fn octet(&self) -> u64 {
        self.source.octet()
    }

    /// The next packet; none at the end of the file.
    pub fn packet(&mut self) -> Result<Option<Packet<'_>>, Broken> {
        loop {
            let start = self.source.octet();
            let mut head = [0; 8];
            if !self.source.begin(&mut head, "a block's kind and length")? {
                return Ok(None);
            }
            let Some(kept) = self.block(start, head)? else {
                continue;
            };
            self.source.count_packet();
            return Ok(Some(self.described(kept)));
        }
    }

    fn described(&self, kept: Kept) -> Packet<'_> {
        let described = &self.interfaces[kept.interface as usize];
        Packet {
            interface: Interface {
                section: self.sections - 1,
                number: kept.interface,
                index: None,
            },
            link: described.link,
            time: kept.units.and_then(|units| described.time(units)),
            octets: &self.room,
        }
    }

    /// Reads a block whose first eight octets are there; a packet, if it has one.
    fn block(&mut self, start: u64, head: [u8; 8]) -> Result<Option<Kept>, Broken> {
        let [k0, k1, k2, k3, length @ ..] = head;
        let kind = [k0, k1, k2, k3];
        if kind == SECTION {
            self.begin_section(start)?;
        }
        let length = self.order.u32(length);
        let inside = self.inside(start, kind == SECTION, length)?;
        let (kept, used) = match self.order.u32(kind) {
            _ if kind == SECTION => (None, SECTION_HEAD),
            INTERFACE => (None, self.interface(start, inside)?),
            kind @ (ENHANCED_PACKET | OBSOLETE_PACKET) => self.whole_packet(start, kind, inside)?,
            SIMPLE_PACKET => self.simple_packet(start, inside)?,
            _ => (None, 0),
        };
        self.source
            .skip((inside - used).into(), "the rest of a block")?;
        self.end(length)?;
        Ok(kept)
    }

    /// A section says in which order the octets of its numbers stand, its own length's too.
    fn begin_section(&mut self, start: u64) -> Result<(), Broken> {
        let mut head = [0; SECTION_HEAD as usize];
        self.source.fill(&mut head, "a section's head")?;
        let [m0, m1, m2, m3, v0, v1, ..] = head;
        self.order = match [m0, m1, m2, m3] {
            [0x1a, 0x2b, 0x3c, 0x4d] => Order::High,
            [0x4d, 0x3c, 0x2b, 0x1a] => Order::Low,
            other => {
                let expected = "1A2B3C4Dh in either byte order";
                let found = format!("{:08X}h", u32::from_be_bytes(other));
                return Err(self.source.broken(start + 8, expected, &found));
            }
        };
        let version = self.order.u16([v0, v1]);
        if version != 1 {
            let found = version.to_string();
            let expected = "version 1 of pcapng";
            return Err(self.source.broken(start + 12, expected, &found));
        }
        self.sections += 1;
        self.interfaces.clear();
        Ok(())
    }

    /// The octets between a block's two lengths, and of a section at least its head.
    fn inside(&self, start: u64, is_section: bool, length: u32) -> Result<u32, Broken> {
        let least = AROUND + if is_section { SECTION_HEAD } else { 0 };
        if length < least || !length.is_multiple_of(4) {
            let expected = format!("a block's length, a multiple of 4 from {least} on");
            return Err(self
                .source
                .broken(start + 4, &expected, &length.to_string()));
        }
        Ok(length - AROUND)
    }

    /// The length behind a block.
    fn end(&mut self, length: u32) -> Result<(), Broken> {
        let place = self.source.octet();
        let mut octets = [0; 4];
        self.source.fill(&mut octets, "a block's length")?;
        let found = self.order.u32(octets);
        if found != length {
            let expected = format!("the block's length {length} once more");
            return Err(self.source.broken(place, &expected, &found.to_string()));
        }
        Ok(())
    }

    /// Reads an interface's description, and says how many octets it has taken.
    fn interface(&mut self, start: u64, inside: u32) -> Result<u32, Broken> {
        self.hold(start, inside, described::HEAD)?;
        let (described, used) = Described::read(&mut self.source, self.order, inside)?;
        if self.interfaces.len() >= MOST_INTERFACES {
            let expected = format!("at most {MOST_INTERFACES} interfaces");
            return Err(self.source.broken(start, &expected, "another"));
        }
        self.interfaces.push(described);
        Ok(used)
    }

    /// Reads a packet that says its interface and its time.
    fn whole_packet(
        &mut self,
        start: u64,
        kind: u32,
        inside: u32,
    ) -> Result<(Option<Kept>, u32), Broken> {
        let mut head = [0; PACKET_HEAD];
        self.hold(start, inside, PACKET_HEAD)?;
        self.source.fill(&mut head, "a packet's head")?;
        let [first, high, low, size, _] = self.order.row(&head);
        // The obsolete form has a count of lost packets behind a shorter number.
        let interface = match kind {
            OBSOLETE_PACKET => self.order.u16([head[0], head[1]]).into(),
            _ => first,
        };
        self.known(start + 8, interface)?;
        self.octets(start + 20, size, inside - PACKET_HEAD as u32)?;
        let kept = Kept {
            interface,
            units: Some(u64::from(high) << 32 | u64::from(low)),
        };
        Ok((Some(kept), PACKET_HEAD as u32 + size))
    }

    /// Reads a packet of the first interface, which has no time. How much was kept of it is said by
    /// the interface.
    fn simple_packet(&mut self, start: u64, inside: u32) -> Result<(Option<Kept>, u32), Broken> {
        let mut head = [0; 4];
        self.hold(start, inside, head.len())?;
        self.source.fill(&mut head, "a packet's head")?;
        self.known(start, 0)?;
        let most = match self.interfaces[0].most {
            0 => u32::MAX,
            most => most,
        };
        let size = self.order.u32(head).min(most);
        self.octets(start + 8, size, inside - 4)?;
        let kept = Kept {
            interface: 0,
            units: None,
        };
        Ok((Some(kept), 4 + size))
    }

    /// Whether a block is long enough for what its kind begins with.
    fn hold(&self, start: u64, inside: u32, least: usize) -> Result<(), Broken> {
        if (inside as usize) < least {
            let expected = format!("a block of this kind with at least {least} octets inside");
            let found = inside.to_string();
            return Err(self.source.broken(start + 4, &expected, &found));
        }
        Ok(())
    }

    fn known(&self, place: u64, interface: u32) -> Result<(), Broken> {
        if interface as usize >= self.interfaces.len() {
            let expected = "an interface that was described before";
            let found = format!("number {interface} of {}", self.interfaces.len());
            return Err(self.source.broken(place, expected, &found));
        }
        Ok(())
    }

    /// Reads a packet's octets into the room.
    fn octets(&mut self, place: u64, size: u32, inside: u32) -> Result<(), Broken> {
        let most = inside.min(LONGEST_PACKET);
        if size > most {
            let expected = format!("a packet of at most {most} octets");
            return Err(self.source.broken(place, &expected, &size.to_string()));
        }
        self.room.resize(size as usize, 0);
        self.source.fill(&mut self.room, "a packet")
    }
}
