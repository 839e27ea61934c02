use core::fmt;

/// A refusal, known by its number in document 01's table, as document 02 amends it.
///
/// ```
/// use klumdray::Refusal;
/// let refusal = klumdray::tp1::read(&[0xcc]).unwrap_err();
/// assert_eq!(refusal, Refusal::ANOTHER_KIND);
/// assert_eq!(refusal.number(), 2);
/// assert_eq!(refusal.to_string(), "refused 2: TP1 control octet of another kind");
/// let error: Box<dyn std::error::Error> = refusal.into();
/// assert!(error.is::<Refusal>());
/// ```
#[derive(Clone, Copy, Debug, PartialEq, Eq, PartialOrd, Ord, Hash)]
pub struct Refusal(u8);

// The rows of document 01's table: tools/make-surface writes them and the words below.
impl Refusal {
    /// Fewer octets than the frame needs.
    pub const TOO_FEW: Refusal = Refusal(1);
    /// TP1 control octet of another kind.
    pub const ANOTHER_KIND: Refusal = Refusal(2);
    /// EFF not 0000.
    pub const EFF: Refusal = Refusal(3);
    /// LG octet 255.
    pub const ESCAPE: Refusal = Refusal(4);
    /// Octets left after the frame.
    pub const OCTETS_LEFT: Refusal = Refusal(5);
    /// Wrong check octet.
    pub const CHECK_OCTET: Refusal = Refusal(6);
    /// Message code not 11h, 2Eh, 29h; in routing, not 29h.
    pub const MESSAGE_CODE: Refusal = Refusal(7);
    /// a = 255.
    pub const INFORMATION: Refusal = Refusal(8);
    /// cEMI standard with LG above 15.
    pub const STANDARD_LG: Refusal = Refusal(9);
    /// KNXnet/IP header length not 06h or version not 10h.
    pub const HEADER: Refusal = Refusal(10);
    /// Service not the one wanted.
    pub const SERVICE: Refusal = Refusal(11);
    /// Total length differs from the datagram's.
    pub const TOTAL_LENGTH: Refusal = Refusal(12);
    /// Lent room too small.
    pub const ROOM: Refusal = Refusal(13);
    /// A number given by the caller is outside its range.
    pub const RANGE: Refusal = Refusal(14);
    /// Own line 00h, or a setting code not allowed.
    pub const SETTING: Refusal = Refusal(15);
    /// Site length not a multiple of 12, or a wrong mark.
    pub const SITE: Refusal = Refusal(16);
    /// One line twice in a site.
    pub const LINE_TWICE: Refusal = Refusal(17);
    /// Filter table missing or of wrong size.
    pub const TABLE: Refusal = Refusal(18);
    /// Connection header's first octet not 04h.
    pub const FIRST_OCTET: Refusal = Refusal(19);
    /// Channel not open.
    pub const CHANNEL: Refusal = Refusal(20);
    /// Counter not one that the channel awaits.
    pub const COUNTER: Refusal = Refusal(21);
    /// Two-octet float 7FFFh, which is invalid.
    pub const INVALID: Refusal = Refusal(23);
    /// Sum past the 64 bits of the total.
    pub const PAST_TOTAL: Refusal = Refusal(24);
}

/// What is said of a number that the table does not have, between its rows or behind them.
const NO_NUMBER: &str = "not a number of these calls";

/// The words of document 01's table, by number.
const WORDS: &[&str] = &[
    "not a refusal",
    "fewer octets than the frame needs",
    "TP1 control octet of another kind",
    "EFF not 0000",
    "LG octet 255",
    "octets left after the frame",
    "wrong check octet",
    "message code not 11h, 2Eh, 29h; in routing, not 29h",
    "a = 255",
    "cEMI standard with LG above 15",
    "KNXnet/IP header length not 06h or version not 10h",
    "service not the one wanted",
    "total length differs from the datagram's",
    "lent room too small",
    "a number given by the caller is outside its range",
    "own line 00h, or a setting code not allowed",
    "site length not a multiple of 12, or a wrong mark",
    "one line twice in a site",
    "filter table missing or of wrong size",
    "connection header's first octet not 04h",
    "channel not open",
    "counter not one that the channel awaits",
    "not a number of these calls",
    "two-octet float 7FFFh, which is invalid",
    "sum past the 64 bits of the total",
];

impl Refusal {
    /// The refusal that an answer carries; the library gives no numbers but the table's.
    #[inline]
    pub(crate) fn answered(number: u8) -> Refusal {
        Refusal(number)
    }

    /// The refusal with a number of document 01's table, which are 1 and above.
    ///
    /// ```
    /// use klumdray::Refusal;
    /// assert_eq!(Refusal::from_number(6), Some(Refusal::CHECK_OCTET));
    /// assert_eq!(Refusal::from_number(0), None);
    /// assert_eq!(Refusal::from_number(22), None);
    /// assert_eq!(Refusal::from_number(255), None);
    /// ```
    #[inline]
    pub fn from_number(number: u8) -> Option<Refusal> {
        let refusal = Refusal(number);
        (number != 0 && refusal.words() != NO_NUMBER).then_some(refusal)
    }

    /// The number in document 01's table.
    ///
    /// ```
    /// assert_eq!(klumdray::Refusal::LINE_TWICE.number(), 17);
    /// ```
    #[inline]
    pub fn number(self) -> u8 {
        self.0
    }

    /// The words of document 01's table.
    ///
    /// ```
    /// assert_eq!(klumdray::Refusal::CHECK_OCTET.words(), "wrong check octet");
    /// ```
    pub fn words(self) -> &'static str {
        WORDS.get(usize::from(self.0)).copied().unwrap_or(NO_NUMBER)
    }
}

impl fmt::Display for Refusal {
    fn fmt(&self, f: &mut fmt::Formatter<'_>) -> fmt::Result {
        write!(f, "refused {}: {}", self.number(), self.words())
    }
}

impl core::error::Error for Refusal {}
