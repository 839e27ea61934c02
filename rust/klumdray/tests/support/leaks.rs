//! The calls of the two-octet float and of the total, for the comparison: two implementations are
//! asked the same, and the first answer or block in which they differ is reported.

use klumdray::{leak, raw, Refusal};
use std::fmt::{self, LowerHex};

/// The octets of the block that holds a total, and those lent at most.
pub const TOTAL: usize = leak::TOTAL_SIZE;
const LARGEST_BLOCK: usize = TOTAL + 1;
/// Octets behind a block that were not lent, and what stands there.
const NOT_LENT: usize = 16;
const UNTOUCHED: u8 = 0x5a;

/// "a number given by the caller is outside its range"
const RANGE: u8 = 14;

/// What is asked, each with the answer's bits as include/klumdray.h names them.
#[derive(Clone, Copy)]
pub struct Implementation {
    pub value: fn(u32) -> u64,
    pub read: fn(&[u8]) -> u64,
    pub write: fn(i64) -> u32,
    pub increment: fn(&[u8]) -> u32,
    /// A block that holds the total, of eight octets or not, and a code.
    pub add: fn(&mut [u8], u32) -> u32,
}

pub const REFERENCE: Implementation = Implementation {
    value: |code| packed_value(of_code(code, reference::leak::value)),
    read: |octets| packed_value(reference::leak::read(octets)),
    write: |hundredths| packed_code(reference::leak::write(hundredths)),
    increment: |payload| packed_increment(reference::leak::increment(payload)),
    add: |block, code| by_total(block, code, reference::leak::add),
};

pub const LIBRARY: Implementation = Implementation {
    value: raw::float_value,
    read: raw::float_read,
    write: raw::float_write,
    increment: raw::increment,
    add: raw::total_add,
};

/// The bindings, wherever their types have what is asked.
pub const BINDINGS: Implementation = Implementation {
    value: |code| match u16::try_from(code) {
        Ok(code) => packed_value(leak::value(code).map_err(Refusal::number)),
        Err(_) => raw::float_value(code),
    },
    read: |octets| packed_value(leak::read(octets).map_err(Refusal::number)),
    write: |hundredths| packed_code(leak::write(hundredths).map_err(Refusal::number)),
    increment: |payload| packed_increment(leak::increment(payload)),
    add: bindings_add,
};

fn bindings_add(block: &mut [u8], code: u32) -> u32 {
    let (Ok(octets), Ok(code)) = (
        <&mut [u8; TOTAL]>::try_from(&mut *block),
        u16::try_from(code),
    ) else {
        return raw::total_add(block, code);
    };
    let mut total = leak::Total::from_octets(*octets);
    let hundredths = i64::from_be_bytes(*octets);
    assert_eq!(total, leak::Total::new(hundredths));
    assert_eq!(total.hundredths(), hundredths);
    let answer = total.add(code);
    *octets = *total.octets();
    assert_eq!(total.hundredths(), i64::from_be_bytes(*octets));
    answer.map_or_else(|refusal| refusal.number().into(), |()| 0)
}

/// A call of a code behind the surface, where a number may be none: 14.
pub fn of_code<T>(code: u32, call: impl Fn(u16) -> Result<T, u8>) -> Result<T, u8> {
    u16::try_from(code).map_err(|_| RANGE).and_then(call)
}

/// An addition behind the surface, which adds the block: 64 bits, the high octet first.
pub fn by_total(block: &mut [u8], code: u32, add: impl Fn(i64, u16) -> Result<i64, u8>) -> u32 {
    let Ok(octets) = <&mut [u8; TOTAL]>::try_from(block) else {
        return RANGE.into();
    };
    match of_code(code, |code| add(i64::from_be_bytes(*octets), code)) {
        Ok(total) => {
            *octets = total.to_be_bytes();
            0
        }
        Err(number) => number.into(),
    }
}

pub fn packed_value(value: Result<i32, u8>) -> u64 {
    value.map_or_else(u64::from, |hundredths| u64::from(hundredths as u32) << 32)
}

pub fn packed_code(code: Result<u16, u8>) -> u32 {
    code.map_or_else(u32::from, |code| u32::from(code) << 16)
}

pub fn packed_increment(code: Option<u16>) -> u32 {
    code.map_or(0, |code| u32::from(code) << 16 | 1 << 8)
}

/// The calls by their places in the counts.
const CALLS: [&str; 5] = ["value", "read", "write", "increment", "add"];

pub struct Comparison {
    proved: Implementation,
    reference: Implementation,
    /// How often each number came of the reference, by call.
    numbers: [[u64; 256]; CALLS.len()],
    /// How often a payload was an increment.
    increments: u64,
}

impl Comparison {
    pub fn new(proved: Implementation, reference: Implementation) -> Comparison {
        Comparison {
            proved,
            reference,
            numbers: [[0; 256]; CALLS.len()],
            increments: 0,
        }
    }

    pub fn value(&mut self, code: u32) -> Result<(), String> {
        let answers = ((self.proved.value)(code), (self.reference.value)(code));
        self.agree(0, answers, || format!("code {code:x}"))
    }

    pub fn read(&mut self, octets: &[u8]) -> Result<(), String> {
        let answers = ((self.proved.read)(octets), (self.reference.read)(octets));
        self.agree(1, answers, || format!("octets {octets:02x?}"))
    }

    pub fn write(&mut self, hundredths: i64) -> Result<(), String> {
        let answer = (self.proved.write)(hundredths);
        let expected = (self.reference.write)(hundredths);
        self.agree(2, (answer, expected), || format!("hundredths {hundredths}"))
    }

    pub fn increment(&mut self, payload: &[u8]) -> Result<(), String> {
        let answer = (self.proved.increment)(payload);
        let expected = (self.reference.increment)(payload);
        self.increments += u64::from(expected >> 8 & 1);
        self.agree(3, (answer, expected), || format!("payload {payload:02x?}"))
    }

    /// Compares the answers, the blocks, and octets behind them; leaves the reference's total, and
    /// gives its answer.
    pub fn add(&mut self, block: &mut [u8], code: u32) -> Result<u32, String> {
        let mut found = [UNTOUCHED; LARGEST_BLOCK + NOT_LENT];
        found[..block.len()].copy_from_slice(block);
        let mut expected = found;
        let answers = (
            (self.proved.add)(&mut found[..block.len()], code),
            (self.reference.add)(&mut expected[..block.len()], code),
        );
        let asked = || format!("block {block:02x?}, code {code:x}");
        self.agree(4, answers, asked)?;
        if found != expected {
            let asked = asked();
            return Err(format!("{found:02x?}, reference {expected:02x?}; {asked}"));
        }
        block.copy_from_slice(&expected[..block.len()]);
        Ok(answers.1)
    }

    fn agree<T: Copy + PartialEq + LowerHex + Into<u64>>(
        &mut self,
        call: usize,
        (answer, expected): (T, T),
        asked: impl Fn() -> String,
    ) -> Result<(), String> {
        let number = expected.into() as u8;
        self.numbers[call][usize::from(number)] += 1;
        if answer == expected {
            return Ok(());
        }
        let (name, asked) = (CALLS[call], asked());
        Err(format!(
            "{name}: {answer:x}, reference {expected:x}; {asked}"
        ))
    }

    /// Asserts that the comparison was about something.
    pub fn assert_covers(&self) {
        for (call, number, least) in [
            (0, 0, 65_535),
            (0, 14, 5),
            (0, 23, 1),
            (1, 0, 65_535),
            (1, 1, 250),
            (1, 5, 250),
            (1, 23, 1),
            (2, 0, 400_000),
            (2, 14, 15_000),
            (3, 0, 130_000),
            (4, 0, 200_000),
            (4, 14, 100),
            (4, 23, 1_000),
            (4, 24, 100_000),
        ] {
            let (name, times) = (CALLS[call], self.numbers[call][number]);
            assert!(times >= least, "{name}: {number} only {times} times");
        }
        let increments = self.increments;
        assert!(increments >= 65_536, "only {increments} increments");
    }
}

impl fmt::Display for Comparison {
    fn fmt(&self, f: &mut fmt::Formatter<'_>) -> fmt::Result {
        for (name, numbers) in CALLS.iter().zip(&self.numbers) {
            write!(f, "{name}")?;
            for (number, times) in numbers.iter().enumerate().filter(|(_, &times)| times > 0) {
                write!(f, " {number}: {times}")?;
            }
            write!(f, "; ")?;
        }
        write!(f, "increments: {}", self.increments)
    }
}
