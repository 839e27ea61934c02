//! pcap: a head of 24 octets, then for each packet 16 and its own.

use super::{link, Broken, Interface, Order, Packet, Source, LONGEST_PACKET};
use crate::calendar::Moment;

const HEAD: usize = 24;
const RECORD: usize = 16;
/// The version of the form since 1998.
const VERSION: u16 = 2;

/// What the first four octets say.
#[derive(Clone, Copy, Debug, PartialEq, Eq)]
pub struct Mark {
    order: Order,
    /// The parts of a second that are counted.
    each_second: u32,
}

impl Mark {
    /// The mark of either byte order, for microseconds or nanoseconds.
    pub fn read(octets: [u8; 4]) -> Option<Mark> {
        let orders = [Order::High, Order::Low].into_iter();
        let mut marks = orders.map(|order| (order, order.u32(octets)));
        marks.find_map(|(order, mark)| {
            let each_second = match mark {
                0xa1b2_c3d4 => 1_000_000,
                0xa1b2_3c4d => 1_000_000_000,
                _ => return None,
            };
            Some(Mark { order, each_second })
        })
    }
}

/// Reads packet by packet.
pub struct Reader<'a> {
    source: Source<'a>,
    mark: Mark,
    link: u16,
    room: Vec<u8>,
}

impl<'a> Reader<'a> {
    /// Reads the head.
    pub fn begin(mut source: Source<'a>) -> Result<Reader<'a>, Broken> {
        let mut head = [0; HEAD];
        source.fill(&mut head, "a pcap file's head")?;
        let [m0, m1, m2, m3, v0, v1, .., l0, l1, l2, l3] = head;
        let Some(mark) = Mark::read([m0, m1, m2, m3]) else {
            return Err(source.broken(0, "a pcap file's mark", "other octets"));
        };
        let version = mark.order.u16([v0, v1]);
        if version != VERSION {
            let found = version.to_string();
            return Err(source.broken(4, "version 2 of pcap", &found));
        }
        // The upper half says whether a frame has its check sequence.
        let link = mark.order.u32([l0, l1, l2, l3]) as u16;
        if !link::is_known(link) {
            return Err(source.broken(20, link::KNOWN, &format!("link type {link}")));
        }
        Ok(Reader {
            source,
            mark,
            link,
            room: Vec::new(),
        })
    }

    /// How many octets of the file have been read.
    pub fn octet(&self) -> u64 {
        self.source.octet()
    }

    /// The next packet; none at the end of the file.
    pub fn packet(&mut self) -> Result<Option<Packet<'_>>, Broken> {
        let start = self.source.octet();
        let mut record = [0; RECORD];
        if !self.source.begin(&mut record, "a packet's head")? {
            return Ok(None);
        }
        let [seconds, parts, kept, _] = self.mark.order.row(&record);
        if kept > LONGEST_PACKET {
            let expected = format!("a packet of at most {LONGEST_PACKET} octets");
            let found = format!("{kept}");
            return Err(self.source.broken(start + 8, &expected, &found));
        }
        self.room.resize(kept as usize, 0);
        self.source.fill(&mut self.room, "a packet")?;
        self.source.count_packet();
        Ok(Some(Packet {
            interface: Interface::default(),
            link: self.link,
            time: self.time(seconds, parts),
            octets: &self.room,
        }))
    }

    fn time(&self, seconds: u32, parts: u32) -> Option<Moment> {
        let each_second = u64::from(self.mark.each_second);
        let units = u64::from(seconds) * each_second + u64::from(parts);
        Moment::by_units(units, each_second.into(), 0)
    }
}
