//! The sequences of document 001, 5.2 and 6.1, between the test application and the device. The
//! channel is 1; the tunnel's individual address is 11E8h and the other device's 11FDh, as 6.1.7
//! and 5.2.2 have them.

use super::*;

fn octets_of(hex: &str) -> Vec<u8> {
    let octet = |digits| u8::from_str_radix(digits, 16).unwrap();
    hex.split_whitespace().map(octet).collect()
}

/// Both ends of a ends.
struct Ends {
    application: Table,
    device: Table,
}

impl Ends {
    fn new() -> Ends {
        Ends {
            application: Table::with_open(&[1]),
            device: Table::with_open(&[1]),
        }
    }

    /// The test application sends this datagram.
    #[track_caller]
    fn application_sends(&mut self, printed: &str) {
        exchange(&mut self.application, &mut self.device, printed);
    }

    /// The device sends this datagram.
    #[track_caller]
    fn device_sends(&mut self, printed: &str) {
        exchange(&mut self.device, &mut self.application, printed);
    }
}

/// One end sends this datagram, and the other delivers and acknowledges it.
#[track_caller]
fn exchange(from: &mut Table, to: &mut Table, printed: &str) {
    let octets = octets_of(printed);
    let frame = receive(to, &octets).unwrap().expect("delivered");
    assert_eq!(written_by(from, &frame), plain(&octets));
    let answer = acknowledgement(1, octets[8], 0x00);
    assert_eq!(confirm(from, &answer), Ok(true));
}

/// The request that a table sends with this frame on channel 1.
#[track_caller]
fn written_by(table: &Table, frame: &Frame<'_>) -> Vec<u8> {
    let meaning = frame.meaning;
    let given = Given {
        extended: u8::from(meaning.format == Format::Extended),
        first_sending: u8::from(meaning.first_sending),
        priority: meaning.priority,
        source: meaning.source,
        group: u8::from(meaning.group),
        destination: meaning.destination,
        count: meaning.count,
    };
    let code = match frame.code {
        Code::Request => 0x11,
        Code::Confirmation => 0x2e,
        Code::Indication => 0x29,
    };
    let mark = u8::from(frame.error_mark);
    written(|room| table.send(1, code, mark, &given, frame.payload, room)).unwrap()
}

/// 5.2.8 prints A0h as Ctrl1; bit 4 is not read, and one in the plain form.
fn plain(octets: &[u8]) -> Vec<u8> {
    let mut octets = octets.to_vec();
    octets[12] |= 0x10;
    octets
}

#[test]
fn standard_case_to_knx_5_2_1() {
    let mut ends = Ends::new();
    ends.application_sends(
        "06 10 04 20 00 18 04 01 00 00 11 00 bc c0 00 00 12 34 04 00 80 56 78 9a",
    );
    ends.device_sends("06 10 04 20 00 18 04 01 00 00 2e 00 bc c0 11 e8 12 34 04 00 80 56 78 9a");
}

/// The acknowledgements, here and in what follows, are those of `acknowledgement`.
#[test]
fn acknowledgements_5_2_1() {
    let printed = octets_of("06 10 04 21 00 0a 04 01 00 00");
    assert_eq!(acknowledgement(1, 0, 0x00), printed);
}

#[test]
fn standard_case_from_knx_5_2_2() {
    let mut ends = Ends::new();
    ends.device_sends("06 10 04 20 00 18 04 01 00 00 29 00 bc e0 11 fd 12 34 04 00 80 56 78 9a");
}

/// "SC is the sequence counter from 0 to 9 incremented every cycle", which 5.2.3 and 5.2.4 begin
/// with.
fn after_ten_cycles() -> Ends {
    let mut ends = Ends::new();
    for sc in 0..10 {
        let head = format!("06 10 04 20 00 19 04 01 {sc:02x} 00");
        let end = format!("12 34 05 00 80 00 00 00 {:02x}", sc + 1);
        ends.application_sends(&format!("{head} 11 00 bc c0 00 00 {end}"));
        ends.device_sends(&format!("{head} 2e 00 bc c0 11 e8 {end}"));
    }
    ends
}

/// "The last tunnelling request must be responded with a tunnelling ACK, but not transmitted on the
/// KNX installation." That request has 0Bh where the tenth had 0Ah.
#[test]
fn not_increased_sequence_counter_5_2_3() {
    let mut ends = after_ten_cycles();
    let last =
        octets_of("06 10 04 20 00 19 04 01 09 00 11 00 bc c0 00 00 12 34 05 00 80 00 00 00 0b");
    let mut room = [UNTOUCHED; 10];
    assert_eq!(ends.device.receive(&last, &mut room), Ok(None));
    assert_eq!(room[..], octets_of("06 10 04 21 00 0a 04 01 09 00"));
}

/// "The last tunnelling request must not be responded with a tunnelling ACK, and not be transmitted
/// on the KNX installation."
#[test]
fn sequence_counter_increased_by_two_5_2_4() {
    let mut ends = after_ten_cycles();
    let last =
        octets_of("06 10 04 20 00 19 04 01 0b 00 11 00 bc c0 00 00 12 34 05 00 80 00 00 00 0b");
    assert_eq!(receive(&mut ends.device, &last), Err(21));
}

/// Busmonitor (2Bh) and raw (2Dh) indications are not among the message codes read.
#[test]
fn busmonitor_and_raw_mode_5_2_5_and_5_2_6() {
    for printed in [
        "06 10 04 20 00 18 04 01 00 00 2b 00 bc e0 11 fd 12 34 04 00 80 56 78 9a",
        "06 10 04 20 00 18 04 01 00 00 2d 00 bc e0 11 fd 12 34 04 00 80 56 78 9a",
    ] {
        let mut application = Table::with_open(&[1]);
        assert_eq!(receive(&mut application, &octets_of(printed)), Err(7));
    }
}

/// "The test device should repeat the telegram once after 1 second."
#[test]
fn repeat_after_missing_ack_5_2_7() {
    let printed = "06 10 04 20 00 18 04 01 00 00 29 00 bc e0 11 fd 12 34 04 00 80 56 78 9a";
    let octets = octets_of(printed);
    let mut ends = Ends::new();
    let frame = receive(&mut ends.application, &octets);
    let frame = frame.unwrap().expect("delivered");
    for _ in 0..2 {
        assert_eq!(written_by(&ends.device, &frame), octets);
    }
    assert_eq!(receive(&mut ends.application, &octets), Ok(None));
    let answer = acknowledgement(1, 0, 0x00);
    assert_eq!(confirm(&mut ends.device, &answer), Ok(true));
    assert_eq!(confirm(&mut ends.device, &answer), Err(21));
}

#[test]
fn broadcast_to_knx_5_2_8() {
    let mut ends = Ends::new();
    ends.application_sends("06 10 04 20 00 15 04 01 00 00 11 00 a0 e0 00 00 00 00 01 01 00");
    ends.device_sends("06 10 04 20 00 15 04 01 00 00 2e 00 b0 e0 11 e8 00 00 01 01 00");
}

#[test]
fn broadcast_from_knx_5_2_9() {
    let mut ends = Ends::new();
    ends.device_sends("06 10 04 20 00 15 04 01 00 00 29 00 b0 e0 11 e8 00 00 01 01 00");
}

#[test]
fn point_to_point_and_back_5_2_10() {
    let mut ends = Ends::new();
    ends.application_sends("06 10 04 20 00 14 04 01 00 00 11 00 bc 50 00 00 11 32 00 80");
    ends.device_sends("06 10 04 20 00 14 04 01 00 00 2e 00 bc 50 11 e8 11 32 00 80");
    ends.application_sends("06 10 04 20 00 15 04 01 01 00 11 00 bc 50 00 00 11 32 01 43 00");
    ends.device_sends("06 10 04 20 00 15 04 01 01 00 2e 00 bc 50 11 e8 11 32 01 43 00");
    ends.device_sends("06 10 04 20 00 14 04 01 02 00 29 00 b0 60 11 32 11 e8 00 c2");
    ends.device_sends("06 10 04 20 00 17 04 01 03 00 29 00 bc 60 11 32 11 e8 03 43 40 00 12");
    ends.application_sends("06 10 04 20 00 14 04 01 02 00 11 00 bc 50 00 00 11 32 00 81");
    ends.device_sends("06 10 04 20 00 14 04 01 04 00 2e 00 bc 50 11 e8 11 32 00 81");
}

#[test]
fn group_address_to_knx_5_2_11() {
    let mut ends = Ends::new();
    ends.application_sends(
        "06 10 04 20 00 18 04 01 00 00 11 00 bc c0 00 00 12 34 04 00 80 56 78 9a",
    );
    ends.device_sends("06 10 04 20 00 18 04 01 00 00 2e 00 bc c0 11 e8 12 34 04 00 80 56 78 9a");
}

#[test]
fn group_address_from_knx_5_2_12() {
    let mut ends = Ends::new();
    ends.device_sends("06 10 04 20 00 18 04 01 00 00 29 00 bc c0 11 fd 12 34 04 00 80 56 78 9a");
}

/// 6.1.7 to 6.1.9 print the message alone.
#[test]
fn mixed_cases_6_1() {
    let head = "06 10 04 20 00 18 04 01 00 00";
    let mut ends = Ends::new();
    let request = "11 00 bc c0 00 00 12 34 04 00 80 56 78 9a";
    let confirmation = "2e 00 bc c0 11 e8 12 34 04 00 80 56 78 9a";
    ends.application_sends(&format!("{head} {request}"));
    ends.device_sends(&format!("{head} {confirmation}"));
    for indication in [
        "29 00 bc c0 11 fd 12 34 04 00 80 56 78 9a",
        "29 00 bc b0 00 00 12 34 04 00 80 56 78 9a",
    ] {
        Ends::new().device_sends(&format!("{head} {indication}"));
    }
}
