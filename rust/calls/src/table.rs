//! The table as tests/board/table.h documents it.

use crate::answer::Answer;
use crate::call::{Argument, Call, Lent, FUNCTIONS};

pub const MARK: &[u8; 8] = b"KDCALLS1";
pub const PLACES: usize = 13;
pub const HEAD_SIZE: usize = MARK.len() + 4 + 4 * PLACES;

/// 0 and the numbers of the refusals.
const NUMBERS: usize = 25;

/// How a slice is told.
const NULL: u8 = 0;
const KEPT: u8 = 1;
const FILLED: u8 = 2;
const SENT: u8 = 3;

/// What is wrong with a table on purpose: a machine that plays it has to see it.
#[derive(Clone, Copy, Debug, PartialEq, Eq)]
pub enum Wrong {
    /// The highest octet of the last answer.
    Answer,
    /// One octet of a room.
    Room,
    /// One call more than there are.
    Count,
    /// A function that is not called.
    Function,
}

/// Calls with their answers, and what came of them.
pub struct Table {
    count: u32,
    octets: Vec<u8>,
    /// What each place holds, as the last call in it left it.
    held: [Option<Vec<u8>>; PLACES],
    /// The most octets ever lent in each place.
    most: [usize; PLACES],
    /// How often each function gave each number.
    pub numbers: [[u64; NUMBERS]; FUNCTIONS],
    /// Where the last answer ends, and the last octets of a room that were told.
    end_of_answer: usize,
    end_of_room: usize,
}

impl Default for Table {
    fn default() -> Table {
        Table {
            count: 0,
            octets: Vec::new(),
            held: [const { None }; PLACES],
            most: [0; PLACES],
            numbers: [[0; NUMBERS]; FUNCTIONS],
            end_of_answer: 0,
            end_of_room: 0,
        }
    }
}

impl Table {
    pub fn count(&self) -> usize {
        self.count as usize
    }

    /// Adds a call with the reference's answer, and returns that.
    pub fn add(&mut self, call: &Call) -> Answer {
        let answer = Answer::of(call);
        self.octets.push(call.function as u8);
        for (place, argument) in call.arguments.iter().enumerate() {
            match argument {
                Argument::Number(number) => self.octets.extend(number.to_le_bytes()),
                Argument::Signed(number) => self.octets.extend(number.to_le_bytes()),
                Argument::Octets(lent) | Argument::Room(lent) => self.lend(place, lent),
            }
        }
        self.octets.extend(answer.number.to_le_bytes());
        self.end_of_answer = self.octets.len();
        let mut after = answer.rooms.iter();
        for (place, argument) in call.arguments.iter().enumerate() {
            if let Argument::Room(lent) = argument {
                let room = after.next().expect("a room of the answer");
                self.leave(place, lent, room);
            }
        }
        self.count += 1;
        self.add_number(call, &answer);
        answer
    }

    /// A check octet is no number of a refusal.
    fn add_number(&mut self, call: &Call, answer: &Answer) {
        let number = match call.function as usize {
            0 => 0,
            _ => usize::from(answer.number as u8),
        };
        self.numbers[call.function as usize][number] += 1;
    }

    fn lend(&mut self, place: usize, lent: &Lent) {
        let length = lent.octets().len();
        self.most[place] = self.most[place].max(length);
        let is_held = |octets: &[u8]| self.held[place].as_deref() == Some(octets);
        match lent {
            Lent::Null => self.octets.push(NULL),
            Lent::Octets(octets) if is_held(octets) => self.octets.push(KEPT),
            Lent::Octets(octets) => {
                self.octets.push(SENT);
                self.octets.extend((length as u32).to_le_bytes());
                self.octets.extend_from_slice(octets);
                self.held[place] = Some(octets.to_vec());
            }
            &Lent::Filled { octet, .. } => {
                self.octets.push(FILLED);
                self.octets.extend((length as u32).to_le_bytes());
                self.octets.push(octet);
                self.held[place] = Some(vec![octet; length]);
            }
        }
    }

    /// The octets from the first changed one to the last; the others stay.
    fn leave(&mut self, place: usize, lent: &Lent, room: &[u8]) {
        let before = lent.octets();
        let is_changed = |&at: &usize| before[at] != room[at];
        let start = (0..room.len()).find(is_changed).unwrap_or(0);
        let end = (0..room.len())
            .rev()
            .find(is_changed)
            .map_or(0, |at| at + 1);
        self.octets.extend((start as u32).to_le_bytes());
        self.octets.extend(((end - start) as u32).to_le_bytes());
        self.octets.extend_from_slice(&room[start..end]);
        if start < end {
            self.end_of_room = self.octets.len();
        }
        if !matches!(lent, Lent::Null) {
            self.held[place] = Some(room.to_vec());
        }
    }

    pub fn spoil(&mut self, wrong: Wrong) {
        match wrong {
            Wrong::Answer => self.octets[self.end_of_answer - 1] ^= 1,
            Wrong::Room => self.octets[self.end_of_room - 1] ^= 1,
            Wrong::Count => self.count += 1,
            // The calls are chosen so.
            Wrong::Function => {}
        }
    }

    pub fn into_octets(self) -> Vec<u8> {
        let mut table = MARK.to_vec();
        table.extend(self.count.to_le_bytes());
        for most in self.most {
            table.extend((most as u32).to_le_bytes());
        }
        assert_eq!(table.len(), HEAD_SIZE);
        table.extend(self.octets);
        table
    }
}

#[cfg(test)]
mod tests {
    use super::*;
    use crate::call::Function;

    fn read(octets: Lent) -> Call {
        Call {
            function: Function::Tp1Read,
            arguments: vec![Argument::Octets(octets)],
        }
    }

    fn write(payload: Lent, room: Lent) -> Call {
        let mut arguments: Vec<Argument> = [0, 1, 3, 0, 1, 0x1234, 3].map(Argument::Number).into();
        arguments.push(Argument::Octets(payload));
        arguments.push(Argument::Room(room));
        Call {
            function: Function::Tp1Write,
            arguments,
        }
    }

    /// The octets of a table behind its head.
    fn body(calls: &[Call]) -> Vec<u8> {
        let mut table = Table::default();
        for call in calls {
            table.add(call);
        }
        table.into_octets().split_off(HEAD_SIZE)
    }

    #[test]
    fn a_head_tells_count_and_most() {
        let mut table = Table::default();
        for length in [2, 3, 1] {
            table.add(&read(vec![0; length].into()));
        }
        let octets = table.into_octets();
        assert_eq!(&octets[..16], b"KDCALLS1\x03\0\0\0\x03\0\0\0");
        assert!(octets[16..HEAD_SIZE].iter().all(|&octet| octet == 0));
    }

    #[test]
    fn a_null_slice_is_refused_by_1() {
        assert_eq!(body(&[read(Lent::Null)]), [1, NULL, 1, 0, 0, 0, 0, 0, 0, 0]);
    }

    #[test]
    fn a_slice_is_sent_once() {
        let call = read(vec![0xcc].into());
        let sent = [1, SENT, 1, 0, 0, 0, 0xcc, 2, 0, 0, 0, 0, 0, 0, 0];
        let kept = [1, KEPT, 2, 0, 0, 0, 0, 0, 0, 0];
        assert_eq!(body(&[call.clone(), call]), [&sent[..], &kept].concat());
    }

    #[test]
    fn a_null_slice_does_not_change_what_is_held() {
        let call = read(vec![0xcc].into());
        let all = body(&[call.clone(), read(Lent::Null), call]);
        assert_eq!(all[all.len() - 10..][..2], [1, KEPT]);
    }

    #[test]
    fn a_room_is_told_by_what_changed() {
        let room = Lent::Filled {
            length: 20,
            octet: 0x55,
        };
        let written = body(&[write(vec![0x00, 0x80, 0x56, 0x78, 0x9a].into(), room)]);
        let behind_numbers = &written[1 + 7 * 4..];
        let payload = [SENT, 5, 0, 0, 0, 0x00, 0x80, 0x56, 0x78, 0x9a];
        let lent = [FILLED, 20, 0, 0, 0, 0x55];
        let answer = [0, 12, 0, 0, 0, 0, 0, 0];
        let span = [0, 0, 0, 0, 12, 0, 0, 0];
        let frame = [
            0xbc, 0x00, 0x00, 0x12, 0x34, 0xb4, 0x00, 0x80, 0x56, 0x78, 0x9a, 0xe5,
        ];
        let expected = [&payload[..], &lent, &answer, &span, &frame].concat();
        assert_eq!(behind_numbers, expected);
    }

    #[test]
    fn a_wrong_octet_is_the_only_one() {
        let mut tables = [Table::default(), Table::default()];
        let call = write(
            vec![0].into(),
            Lent::Filled {
                length: 9,
                octet: 0,
            },
        );
        for table in &mut tables {
            table.add(&call);
        }
        let [right, mut wrong] = tables;
        wrong.spoil(Wrong::Answer);
        wrong.spoil(Wrong::Room);
        let (right, wrong) = (right.into_octets(), wrong.into_octets());
        let differs = |&at: &usize| right[at] != wrong[at];
        // The last octet of the frame, and the answer's before start, length and frame.
        let end = right.len();
        let places: Vec<usize> = (0..end).filter(differs).collect();
        assert_eq!(places, [end - 8 - 8 - 1, end - 1]);
    }

    #[test]
    fn a_room_that_stays_has_no_span() {
        let refused = body(&[write(vec![0].into(), Lent::Null)]);
        let end = [NULL, 13, 0, 0, 0, 0, 0, 0, 0, 0, 0, 0, 0, 0, 0, 0, 0];
        assert_eq!(refused[refused.len() - end.len()..], end);
    }
}
