//! Reads a table back as a machine that plays it does, for the tests.

use crate::answer::Answer;
use crate::call::{Argument, Call, Function, Lent};
use crate::table::{HEAD_SIZE, MARK, PLACES};
use Function::{CemiRead, CemiWrite, CheckOctet, RoutingRead, RoutingWrite};
use Function::{FloatRead, FloatValue, FloatWrite, Increment, Take, TotalAdd};
use Function::{Step, Tp1Read, Tp1Write, Trace, Why};
use Function::{TunnellingAckRead, TunnellingAckWrite, TunnellingConfirm};
use Function::{TunnellingReceive, TunnellingRequestRead, TunnellingRequestWrite, TunnellingSend};

/// The arguments in the order of tests/emulated/calls.h: n a number, s one with a sign, o octets to
/// read, r a room.
pub fn kinds(function: Function) -> &'static str {
    match function {
        CheckOctet | Tp1Read | CemiRead | RoutingRead => "o",
        TunnellingRequestRead | TunnellingAckRead | FloatRead | Increment => "o",
        Tp1Write => "nnnnnnnor",
        CemiWrite | RoutingWrite => "nnnnnnnnnor",
        Step => "oonror",
        Trace => "nnnnooor",
        Why => "nnnnooon",
        TunnellingRequestWrite => "nnnnnnnnnnnor",
        TunnellingAckWrite => "nnnr",
        TunnellingReceive => "ror",
        TunnellingSend => "onnnnnnnnnnor",
        TunnellingConfirm => "ro",
        FloatValue => "n",
        FloatWrite => "s",
        TotalAdd => "rn",
        Take => "rrno",
    }
}

/// A call as the table has it, with the answer as the table has it.
pub struct Row {
    pub call: Call,
    pub answer: Answer,
}

pub struct Reader<'a> {
    octets: &'a [u8],
    pub count: usize,
    pub most: [usize; PLACES],
    held: [Option<Vec<u8>>; PLACES],
}

impl<'a> Reader<'a> {
    pub fn new(octets: &'a [u8]) -> Reader<'a> {
        assert_eq!(&octets[..MARK.len()], MARK);
        let mut reader = Reader {
            octets: &octets[MARK.len()..],
            count: 0,
            most: [0; PLACES],
            held: [const { None }; PLACES],
        };
        reader.count = reader.number() as usize;
        reader.most = [0; PLACES].map(|_| reader.number() as usize);
        assert_eq!(reader.octets.len(), octets.len() - HEAD_SIZE);
        reader
    }

    fn take(&mut self, length: usize) -> &'a [u8] {
        let (taken, left) = self.octets.split_at(length);
        self.octets = left;
        taken
    }

    fn octet(&mut self) -> u8 {
        self.take(1)[0]
    }

    fn number(&mut self) -> u32 {
        u32::from_le_bytes(self.take(4).try_into().unwrap())
    }

    fn signed(&mut self) -> i64 {
        i64::from_le_bytes(self.take(8).try_into().unwrap())
    }

    fn lent(&mut self, place: usize) -> Lent {
        let held = match self.octet() {
            0 => return Lent::Null,
            1 => self.held[place].clone().expect("something kept"),
            2 => {
                let length = self.number() as usize;
                vec![self.octet(); length]
            }
            3 => {
                let length = self.number() as usize;
                self.take(length).to_vec()
            }
            how => panic!("a slice told by {how}"),
        };
        assert!(held.len() <= self.most[place]);
        self.held[place] = Some(held.clone());
        held.into()
    }

    /// A room as the call leaves it.
    fn left(&mut self, place: usize, lent: &Lent) -> Vec<u8> {
        let mut room = lent.octets().into_owned();
        let (start, length) = (self.number() as usize, self.number() as usize);
        room[start..start + length].copy_from_slice(self.take(length));
        if !matches!(lent, Lent::Null) {
            self.held[place] = Some(room.clone());
        }
        room
    }
}

impl Iterator for Reader<'_> {
    type Item = Row;

    fn next(&mut self) -> Option<Row> {
        if self.octets.is_empty() {
            return None;
        }
        let function = Function::ALL[usize::from(self.octet())];
        let mut arguments = Vec::new();
        for (place, kind) in kinds(function).chars().enumerate() {
            arguments.push(match kind {
                'n' => Argument::Number(self.number()),
                's' => Argument::Signed(self.signed()),
                'o' => Argument::Octets(self.lent(place)),
                _ => Argument::Room(self.lent(place)),
            });
        }
        let number = u64::from_le_bytes(self.take(8).try_into().unwrap());
        let mut rooms = Vec::new();
        for (place, argument) in arguments.iter().enumerate() {
            if let Argument::Room(lent) = argument {
                rooms.push(self.left(place, lent));
            }
        }
        Some(Row {
            call: Call {
                function,
                arguments,
            },
            answer: Answer { number, rooms },
        })
    }
}
