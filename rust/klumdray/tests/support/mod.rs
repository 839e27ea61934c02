//! What the comparisons share: two implementations are asked the same, and the first answer,
//! part or room in which they differ is reported.

use inputs::Generator;
use std::fmt;

/// A message code as its octet, 0 on TP1, and an error mark, in their ranges or not.
#[derive(Clone, Copy, Debug)]
pub struct Kind {
    pub code: u8,
    pub error_mark: u8,
}

/// The numbers given to a writer, in their ranges or not.
#[derive(Clone, Copy, Debug)]
pub struct Request {
    /// The message code as its octet; 0 on TP1.
    pub code: u8,
    pub error_mark: u8,
    pub extended: u8,
    pub first_sending: u8,
    pub priority: u8,
    pub source: u16,
    pub group: u8,
    pub destination: u16,
    pub count: u8,
}

impl Request {
    pub fn valid(generator: &mut Generator, kind: Kind, extended: u8) -> Request {
        Request {
            code: kind.code,
            error_mark: kind.error_mark,
            extended,
            first_sending: generator.below(2) as u8,
            priority: generator.below(4) as u8,
            source: generator.field(),
            group: generator.below(2) as u8,
            destination: generator.field(),
            count: generator.below(8) as u8,
        }
    }

    pub fn given(&self) -> reference::Given {
        reference::Given {
            extended: self.extended,
            first_sending: self.first_sending,
            priority: self.priority,
            source: self.source,
            group: self.group,
            destination: self.destination,
            count: self.count,
        }
    }

    pub fn numbers(&self) -> klumdray::raw::Numbers {
        klumdray::raw::Numbers {
            extended: self.extended.into(),
            first_sending: self.first_sending.into(),
            priority: self.priority.into(),
            source: self.source.into(),
            group: self.group.into(),
            destination: self.destination.into(),
            count: self.count.into(),
        }
    }

    /// None where the type has no such value: a flag above 1.
    pub fn meaning(&self) -> Option<klumdray::Meaning> {
        let flag = |number| (number <= 1).then_some(number == 1);
        Some(klumdray::Meaning {
            extended: flag(self.extended)?,
            first_sending: flag(self.first_sending)?,
            priority: self.priority,
            source: self.source,
            group: flag(self.group)?,
            destination: self.destination,
            count: self.count,
        })
    }

    /// A reader's answer by the bits that include/klumdray.h names.
    pub fn packed(&self, payload: &[u8]) -> u64 {
        let code = match self.code {
            0x11 => 1,
            0x2e => 2,
            0x29 => 3,
            _ => 0,
        };
        u64::from(self.extended) << 8
            | u64::from(self.first_sending) << 9
            | u64::from(self.priority) << 10
            | u64::from(self.group) << 12
            | u64::from(self.count) << 13
            | u64::from(self.source) << 16
            | u64::from(self.destination) << 32
            | (payload.len() as u64) << 48
            | code << 56
            | u64::from(self.error_mark) << 58
    }
}

impl From<reference::Meaning> for Request {
    fn from(meaning: reference::Meaning) -> Request {
        Request {
            code: 0,
            error_mark: 0,
            extended: (meaning.format == reference::Format::Extended).into(),
            first_sending: meaning.first_sending.into(),
            priority: meaning.priority,
            source: meaning.source,
            group: meaning.group.into(),
            destination: meaning.destination,
            count: meaning.count,
        }
    }
}

impl From<klumdray::Meaning> for Request {
    fn from(meaning: klumdray::Meaning) -> Request {
        Request {
            code: 0,
            error_mark: 0,
            extended: meaning.extended.into(),
            first_sending: meaning.first_sending.into(),
            priority: meaning.priority,
            source: meaning.source,
            group: meaning.group.into(),
            destination: meaning.destination,
            count: meaning.count,
        }
    }
}

/// A reader's answer and the parts of the caller's octets that it hands out.
#[derive(Clone, Copy)]
pub struct Answer<'a> {
    pub packed: u64,
    pub payload: &'a [u8],
    pub information: &'a [u8],
}

impl Answer<'_> {
    pub fn refused(number: u8) -> Answer<'static> {
        Answer {
            packed: number.into(),
            payload: &[],
            information: &[],
        }
    }

    pub fn number(&self) -> u8 {
        self.packed as u8
    }
}

/// A writer's answer by the bits that include/klumdray.h names.
pub fn packed_size(written: Result<usize, u8>) -> u64 {
    match written {
        Ok(size) => (size as u64) << 8,
        Err(number) => number.into(),
    }
}

pub type Reader = for<'a> fn(&'a [u8]) -> Answer<'a>;
pub type Writer = fn(&Request, &[u8], &mut [u8]) -> u64;

/// One way to read and write: the proved library, or a reference, right or wrong.
#[derive(Clone, Copy)]
pub struct Implementation {
    pub read: Reader,
    pub write: Writer,
}

/// Room lent, and octets behind it that were not.
const LARGEST_ROOM: usize = 300;
const NOT_LENT: usize = 16;

pub struct Comparison {
    proved: Implementation,
    reference: Implementation,
    /// How often each number was the reference's answer.
    pub reads: [u64; 256],
    pub writes: [u64; 256],
}

impl Comparison {
    pub fn new(proved: Implementation, reference: Implementation) -> Comparison {
        Comparison {
            proved,
            reference,
            reads: [0; 256],
            writes: [0; 256],
        }
    }

    /// Compares the answers, and the parts as octets and as places in the caller's slice.
    pub fn read(&mut self, octets: &[u8]) -> Result<(), String> {
        let proved = (self.proved.read)(octets);
        let expected = (self.reference.read)(octets);
        if proved.packed != expected.packed {
            let (found, wanted) = (proved.packed, expected.packed);
            return Err(format!(
                "read {octets:02x?}: {found:x}, reference {wanted:x}"
            ));
        }
        same_part(proved.payload, expected.payload)
            .map_err(|found| format!("read {octets:02x?}: payload {found}"))?;
        same_part(proved.information, expected.information)
            .map_err(|found| format!("read {octets:02x?}: information {found}"))?;
        self.reads[usize::from(expected.number())] += 1;
        Ok(())
    }

    /// Compares the answers, the whole room, and octets behind the room.
    pub fn write(&mut self, request: &Request, payload: &[u8], lent: usize) -> Result<(), String> {
        let mut room = [0; LARGEST_ROOM + NOT_LENT];
        for (place, octet) in room.iter_mut().enumerate() {
            *octet = (place as u8).wrapping_mul(29) ^ request.source as u8;
        }
        let mut expected_room = room;
        let answer = (self.proved.write)(request, payload, &mut room[..lent]);
        let expected = (self.reference.write)(request, payload, &mut expected_room[..lent]);
        let asked = || format!("write {request:?} {payload:02x?} into {lent}");
        if answer != expected {
            return Err(format!("{}: {answer:x}, reference {expected:x}", asked()));
        }
        if room != expected_room {
            return Err(format!(
                "{}: {room:02x?}, not {expected_room:02x?}",
                asked()
            ));
        }
        self.writes[usize::from(expected as u8)] += 1;
        Ok(())
    }

    /// Every payload length from 0 to 260, numbers in range and out, rooms around the size.
    pub fn writes(
        &mut self,
        generator: &mut Generator,
        kinds: &[Kind],
        size: fn(&Request, usize) -> usize,
    ) -> Result<(), String> {
        let payload = generator.octets(260);
        for length in 0..=260 {
            for request in sampled_requests(generator, kinds) {
                self.rooms(&request, &payload[..length], size(&request, length))?;
            }
        }
        for &kind in kinds {
            for request in all_fields(generator, kind) {
                let length = generator.one_of(&[1, 2, 15, 16, 17, 255]);
                self.rooms(&request, &payload[..length], size(&request, length))?;
            }
        }
        Ok(())
    }

    fn rooms(&mut self, request: &Request, payload: &[u8], size: usize) -> Result<(), String> {
        for lent in [0, LARGEST_ROOM].into_iter().chain(size - 2..=size + 3) {
            self.write(request, payload, lent)?;
        }
        Ok(())
    }

    /// Two octets of the head wrong at once, in a frame whole, cut by one and longer by one: only
    /// there does the order of the tests show.
    pub fn pairs(
        &mut self,
        generator: &mut Generator,
        valid: &[u8],
        places: &[usize],
    ) -> Result<(), String> {
        for (index, &first) in places.iter().enumerate() {
            for &second in &places[..index] {
                let mut octets = valid.to_vec();
                for place in [first, second] {
                    octets[place] = match generator.below(3) {
                        0 => 255,
                        _ => octets[place] ^ generator.damage(),
                    };
                }
                self.read(&octets)?;
                self.read(&octets[..octets.len() - 1])?;
                octets.push(generator.octet());
                self.read(&octets)?;
            }
        }
        Ok(())
    }

    pub fn inputs(&self) -> u64 {
        self.reads.iter().sum()
    }

    /// Asserts that the comparison was about something: each number many times.
    pub fn assert_covers(&self, inputs: u64, read: &[u8], written: &[u8]) {
        assert!(self.inputs() >= inputs, "only {} inputs", self.inputs());
        for &number in read {
            let times = self.reads[usize::from(number)];
            assert!(times >= 1000, "reader gave {number} only {times} times");
        }
        for &number in written {
            let times = self.writes[usize::from(number)];
            assert!(times >= 1000, "writer gave {number} only {times} times");
        }
    }
}

impl fmt::Display for Comparison {
    fn fmt(&self, f: &mut fmt::Formatter<'_>) -> fmt::Result {
        write!(f, "{} inputs read:", self.inputs())?;
        show_counts(f, &self.reads)?;
        write!(f, "; {} written:", self.writes.iter().sum::<u64>())?;
        show_counts(f, &self.writes)
    }
}

fn show_counts(f: &mut fmt::Formatter<'_>, counts: &[u64; 256]) -> fmt::Result {
    let mut given = counts.iter().enumerate().filter(|(_, &times)| times > 0);
    given.try_for_each(|(number, times)| write!(f, " {number}: {times}"))
}

/// "the very octets received, not copied": the same place, wherever there is an octet at all.
fn same_part(found: &[u8], expected: &[u8]) -> Result<(), String> {
    let elsewhere = !expected.is_empty() && found.as_ptr() != expected.as_ptr();
    if found != expected || elsewhere {
        let (here, there) = (found.as_ptr(), expected.as_ptr());
        return Err(format!(
            "{found:02x?} at {here:?}, not {expected:02x?} at {there:?}"
        ));
    }
    Ok(())
}

/// Every kind in both formats, valid otherwise, the first some times more; then, of the first
/// kind, each number out of its range.
fn sampled_requests(generator: &mut Generator, kinds: &[Kind]) -> Vec<Request> {
    let mut requests = Vec::new();
    for extended in [0, 1] {
        for &kind in kinds.iter().chain([&kinds[0]; 3]) {
            requests.push(Request::valid(generator, kind, extended));
        }
        let valid = Request::valid(generator, kinds[0], extended);
        for flag in [2, 255] {
            requests.push(Request {
                extended: flag,
                ..valid
            });
            requests.push(Request {
                first_sending: flag,
                ..valid
            });
            requests.push(Request {
                group: flag,
                ..valid
            });
        }
        requests.extend([4, 255].map(|priority| Request { priority, ..valid }));
        requests.extend([8, 255].map(|count| Request { count, ..valid }));
    }
    requests
}

/// Every combination of the fields of few values.
fn all_fields(generator: &mut Generator, kind: Kind) -> Vec<Request> {
    let combination = |bits: u8| Request {
        first_sending: bits >> 1 & 1,
        group: bits >> 2 & 1,
        priority: bits >> 3 & 3,
        count: bits >> 5,
        ..Request::valid(generator, kind, bits & 1)
    };
    (0..=255).map(combination).collect()
}
