//! The table "Refusal numbers" of document 01, and the rows that document 02 adds.

/// Fewer octets than the frame needs.
pub const TOO_FEW: u8 = 1;
/// TP1 control octet of another kind.
pub const ANOTHER_KIND: u8 = 2;
/// EFF not 0000.
pub const EFF_NOT_ZERO: u8 = 3;
/// LG octet 255.
pub const LG_ESCAPE: u8 = 4;
/// Octets left after the frame.
pub const OCTETS_LEFT: u8 = 5;
/// Wrong check octet.
pub const WRONG_CHECK: u8 = 6;
/// Message code not 11h, 2Eh, 29h; in routing, not 29h.
pub const MESSAGE_CODE: u8 = 7;
/// a = 255.
pub const INFORMATION_ESCAPE: u8 = 8;
/// cEMI standard with LG above 15.
pub const STANDARD_LG: u8 = 9;
/// KNXnet/IP header length not 06h or version not 10h.
pub const HEADER: u8 = 10;
/// Service other than the one wanted.
pub const SERVICE: u8 = 11;
/// Total length differs from the datagram's.
pub const TOTAL_LENGTH: u8 = 12;
/// Lent room too small.
pub const ROOM: u8 = 13;
/// A number given by the caller is outside its range.
pub const RANGE: u8 = 14;
/// Own line 00h, or a setting code not allowed.
pub const SETTING: u8 = 15;
/// Site length not a multiple of 12, or a wrong mark.
pub const SITE: u8 = 16;
/// One line twice in a site.
pub const LINE_TWICE: u8 = 17;
/// Filter table missing or of wrong size.
pub const TABLE: u8 = 18;
/// First octet behind the KNXnet/IP header not 04h.
pub const FIRST_OCTET: u8 = 19;
/// Channel not open, whatever its number.
pub const CHANNEL: u8 = 20;
/// Counter neither the expected one nor one behind; in an acknowledgement, not the send counter.
pub const COUNTER: u8 = 21;
/// 7FFFh, which is no number.
pub const INVALID: u8 = 23;
/// A sum past the range of the total.
pub const PAST_TOTAL: u8 = 24;
