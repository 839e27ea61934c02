//! One call of the library as its caller makes it.

use std::borrow::Cow;
use std::rc::Rc;

/// The enum and all of its values in one list.
macro_rules! functions {
    ($($name:ident)*) => {
        /// The exported functions in the order of tests/emulated/calls.h.
        #[derive(Clone, Copy, Debug, PartialEq, Eq)]
        pub enum Function {
            $($name,)*
        }

        impl Function {
            pub const ALL: &[Function] = &[$(Function::$name,)*];
        }
    };
}

functions! {
    CheckOctet
    Tp1Read
    Tp1Write
    CemiRead
    CemiWrite
    RoutingRead
    RoutingWrite
    Step
    Trace
    Why
    TunnellingRequestRead
    TunnellingRequestWrite
    TunnellingAckRead
    TunnellingAckWrite
    TunnellingReceive
    TunnellingSend
    TunnellingConfirm
    FloatValue
    FloatRead
    FloatWrite
    Increment
    TotalAdd
    Take
}

pub const FUNCTIONS: usize = Function::ALL.len();

/// A slice that is lent.
#[derive(Clone, Debug)]
pub enum Lent {
    /// A null pointer with length 0.
    Null,
    Octets(Rc<[u8]>),
    Filled {
        length: usize,
        octet: u8,
    },
}

impl Lent {
    pub fn octets(&self) -> Cow<'_, [u8]> {
        match self {
            Lent::Null => Cow::Borrowed(&[]),
            Lent::Octets(octets) => Cow::Borrowed(octets),
            &Lent::Filled { length, octet } => Cow::Owned(vec![octet; length]),
        }
    }
}

impl From<Vec<u8>> for Lent {
    fn from(octets: Vec<u8>) -> Lent {
        Lent::Octets(octets.into())
    }
}

#[derive(Clone, Debug)]
pub enum Argument {
    Number(u32),
    Signed(i64),
    /// A slice to read.
    Octets(Lent),
    /// A slice to write.
    Room(Lent),
}

#[derive(Clone, Debug)]
pub struct Call {
    pub function: Function,
    pub arguments: Vec<Argument>,
}

impl Call {
    pub fn numbers(&self) -> Vec<u32> {
        let number = |argument: &Argument| match argument {
            Argument::Number(number) => Some(*number),
            _ => None,
        };
        self.arguments.iter().filter_map(number).collect()
    }

    /// One of the numbers, counted without the slices.
    pub fn number_mut(&mut self, place: usize) -> &mut u32 {
        let numbers = self.arguments.iter_mut();
        let mut numbers = numbers.filter_map(|argument| match argument {
            Argument::Number(number) => Some(number),
            _ => None,
        });
        numbers.nth(place).expect("a number in this place")
    }

    /// The number with a sign, of a call that has one.
    pub fn signed(&self) -> i64 {
        let signed = |argument: &Argument| match argument {
            Argument::Signed(number) => Some(*number),
            _ => None,
        };
        let mut found = self.arguments.iter().filter_map(signed);
        found.next().expect("a number with a sign")
    }

    pub fn slices(&self) -> Vec<Cow<'_, [u8]>> {
        let mut slices = Vec::new();
        for argument in &self.arguments {
            if let Argument::Octets(lent) = argument {
                slices.push(lent.octets());
            }
        }
        slices
    }

    /// The rooms as they are lent.
    pub fn rooms(&self) -> Vec<Vec<u8>> {
        let room = |argument: &Argument| match argument {
            Argument::Room(lent) => Some(lent.octets().into_owned()),
            _ => None,
        };
        self.arguments.iter().filter_map(room).collect()
    }
}
