//! The KNX two-octet float (DPT 9), the increment that a leak meter's telegram carries, and the leak
//! total.
//!
//! A code is the two octets of a float as one number, high octet first. It stands for a signed number
//! of hundredths.

use crate::{answer, raw, Refusal};

/// The octets of a total.
pub const TOTAL_SIZE: usize = 8;

/// The hundredths that a code stands for: -67,108,864 to 67,043,328. Refusal: 23 exactly for 7FFFh.
///
/// ```
/// use klumdray::{leak, Refusal};
/// assert_eq!(leak::value(0x0c1a), Ok(2_100));
/// assert_eq!(leak::value(0x87ff), Ok(-1));
/// assert_eq!(leak::value(0xf800), Ok(-67_108_864));
/// assert_eq!(leak::value(0x7fff), Err(Refusal::INVALID));
/// ```
#[inline]
pub fn value(code: u16) -> Result<i32, Refusal> {
    answer::hundredths(raw::float_value(code.into()))
}

/// The hundredths that the two octets of a float stand for. Refusals: 1 below two octets, 5 above,
/// then 23 for 7FFFh.
///
/// ```
/// use klumdray::{leak, Refusal};
/// assert_eq!(leak::read(&[0x0c, 0x1a]), Ok(2_100));
/// assert_eq!(leak::read(&[0x7f]), Err(Refusal::TOO_FEW));
/// assert_eq!(leak::read(&[0x7f, 0xff, 0x00]), Err(Refusal::OCTETS_LEFT));
/// assert_eq!(leak::read(&[0x7f, 0xff]), Err(Refusal::INVALID));
/// ```
#[inline]
pub fn read(octets: &[u8]) -> Result<i32, Refusal> {
    answer::hundredths(raw::float_read(octets))
}

/// The code for a number of hundredths, with the smallest exponent for which the nearest mantissa,
/// ties to even, fits. Refusal: 14 exactly outside -67,108,864 to 67,043,328.
///
/// ```
/// use klumdray::{leak, Refusal};
/// assert_eq!(leak::write(2_100), Ok(0x0c1a));
/// // With an exponent of 1 the tie at 2,047.5 goes to 2,048, which does not fit.
/// assert_eq!(leak::write(4_095), Ok(0x1400));
/// assert_eq!(leak::value(0x1400), Ok(4_096));
/// // With an exponent of 1 the tie at -2,048.5 goes to -2,048, which fits.
/// assert_eq!(leak::write(-4_097), Ok(0x8800));
/// assert_eq!(leak::value(0x8800), Ok(-4_096));
///
/// assert_eq!(leak::write(-67_108_864), Ok(0xf800));
/// assert_eq!(leak::write(-67_108_865), Err(Refusal::RANGE));
/// assert_eq!(leak::write(67_043_328), Ok(0x7ffe));
/// assert_eq!(leak::write(67_043_329), Err(Refusal::RANGE));
/// ```
#[inline]
pub fn write(hundredths: i64) -> Result<u16, Refusal> {
    answer::code(raw::float_write(hundredths))
}

/// The code that a payload, TPCI onward, writes to a group, if it is an increment: the four octets
/// 00h 80h and the float's two. Whether the code is valid is not asked.
///
/// ```
/// use klumdray::leak;
/// assert_eq!(leak::increment(&[0x00, 0x80, 0x0c, 0x1a]), Some(0x0c1a));
/// assert_eq!(leak::increment(&[0x00, 0x80, 0x7f, 0xff]), Some(0x7fff));
/// // An answer to who asked for it is no increment.
/// assert_eq!(leak::increment(&[0x00, 0x40, 0x0c, 0x1a]), None);
/// assert_eq!(leak::increment(&[0x00, 0x81]), None);
/// ```
#[inline]
pub fn increment(payload: &[u8]) -> Option<u16> {
    answer::increment(raw::increment(payload))
}

/// The total of a circuit, in hundredths.
#[derive(Clone, Debug, PartialEq, Eq)]
pub struct Total(pub(crate) [u8; TOTAL_SIZE]);

impl Total {
    /// A total of so many hundredths.
    ///
    /// ```
    /// use klumdray::leak::Total;
    /// assert_eq!(Total::new(-2_100).hundredths(), -2_100);
    /// ```
    #[inline]
    pub fn new(hundredths: i64) -> Total {
        Total(hundredths.to_be_bytes())
    }

    /// The total in a block of 8 octets: 64 bits in two's complement, high octet first.
    ///
    /// ```
    /// use klumdray::leak::Total;
    /// let total = Total::from_octets([0, 0, 0, 0, 0, 0, 0x08, 0x34]);
    /// assert_eq!(total, Total::new(2_100));
    /// ```
    #[inline]
    pub fn from_octets(octets: [u8; TOTAL_SIZE]) -> Total {
        Total(octets)
    }

    /// The block of 8 octets, to be kept over a restart.
    ///
    /// ```
    /// use klumdray::leak::Total;
    /// assert_eq!(Total::new(-1).octets(), &[0xff; 8]);
    /// ```
    #[inline]
    pub fn octets(&self) -> &[u8; TOTAL_SIZE] {
        &self.0
    }

    /// The total.
    ///
    /// ```
    /// use klumdray::leak::Total;
    /// assert_eq!(Total::from_octets([0xff; 8]).hundredths(), -1);
    /// ```
    #[inline]
    pub fn hundredths(&self) -> i64 {
        i64::from_be_bytes(self.0)
    }

    /// Adds what a code stands for. Refusals: 23 for 7FFFh, then 24 exactly when the sum is past 64
    /// bits; after them the total is as it was.
    ///
    /// ```
    /// use klumdray::leak::Total;
    /// use klumdray::Refusal;
    /// let mut total = Total::new(0);
    /// for code in [0x0c1a, 0x0c1b, 0x87ff] {
    ///     total.add(code)?;
    /// }
    /// assert_eq!(total.hundredths(), 2_100 + 2_102 - 1);
    /// assert_eq!(total.add(0x7fff), Err(Refusal::INVALID));
    /// assert_eq!(total.hundredths(), 4_201);
    ///
    /// let mut full = Total::new(i64::MAX);
    /// assert_eq!(full.add(0x0001), Err(Refusal::PAST_TOTAL));
    /// assert_eq!(full.hundredths(), i64::MAX);
    /// # Ok::<(), Refusal>(())
    /// ```
    #[inline]
    pub fn add(&mut self, code: u16) -> Result<(), Refusal> {
        answer::added(raw::total_add(&mut self.0, code.into()))
    }
}
