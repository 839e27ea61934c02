//! A file's octets one after the other, with the place that was reached.

use std::io::{BufRead, ErrorKind};

/// Where a capture cannot be read on.
#[derive(Clone, Debug, PartialEq, Eq)]
pub struct Broken {
    /// The octet, from 0.
    pub octet: u64,
    /// The packet that was read or would have come next, from 1.
    pub packet: u64,
    /// What was expected there.
    pub expected: String,
    /// What was found.
    pub found: String,
}

/// A capture's octets.
pub struct Source<'a> {
    input: &'a mut dyn BufRead,
    octet: u64,
    packet: u64,
}

impl<'a> Source<'a> {
    /// Begins with the first octet.
    pub fn new(input: &'a mut dyn BufRead) -> Source<'a> {
        Source {
            input,
            octet: 0,
            packet: 1,
        }
    }

    /// How many octets have been read.
    pub fn octet(&self) -> u64 {
        self.octet
    }

    /// A packet has been read whole.
    pub fn count_packet(&mut self) {
        self.packet += 1;
    }

    /// A fault at an octet that has been read.
    pub fn broken(&self, octet: u64, expected: &str, found: &str) -> Broken {
        Broken {
            octet,
            packet: self.packet,
            expected: expected.into(),
            found: found.into(),
        }
    }

    /// Fills the room, and says whether there was anything: a file may end where a record ends.
    pub fn begin(&mut self, room: &mut [u8], what: &str) -> Result<bool, Broken> {
        let read = self.read(room, what)?;
        if read > 0 && read < room.len() {
            return Err(self.ended(room.len() as u64, read as u64, what));
        }
        Ok(read > 0)
    }

    /// Fills the room, whose octets have to be there.
    pub fn fill(&mut self, room: &mut [u8], what: &str) -> Result<(), Broken> {
        let read = self.read(room, what)?;
        if read < room.len() {
            return Err(self.ended(room.len() as u64, read as u64, what));
        }
        Ok(())
    }

    /// Goes past octets, however many a damaged file says they are, without holding them.
    pub fn skip(&mut self, length: u64, what: &str) -> Result<(), Broken> {
        let mut left = length;
        while left > 0 {
            let there = match self.input.fill_buf() {
                Ok([]) => return Err(self.ended(length, length - left, what)),
                Ok(octets) => left.min(octets.len() as u64),
                Err(error) if error.kind() == ErrorKind::Interrupted => continue,
                Err(error) => return Err(self.broken(self.octet, what, &error.to_string())),
            };
            // No more than the buffer has, so it is a size.
            self.input.consume(there as usize);
            self.octet += there;
            left -= there;
        }
        Ok(())
    }

    fn read(&mut self, room: &mut [u8], what: &str) -> Result<usize, Broken> {
        let mut read = 0;
        while read < room.len() {
            match self.input.read(&mut room[read..]) {
                Ok(0) => break,
                Ok(more) => {
                    read += more;
                    self.octet += more as u64;
                }
                Err(error) if error.kind() == ErrorKind::Interrupted => {}
                Err(error) => return Err(self.broken(self.octet, what, &error.to_string())),
            }
        }
        Ok(read)
    }

    fn ended(&self, wanted: u64, read: u64, what: &str) -> Broken {
        let expected = format!("{wanted} octets of {what}");
        let found = format!("the end of the file after {read}");
        self.broken(self.octet, &expected, &found)
    }
}
