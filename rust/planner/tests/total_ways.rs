//! `klumdray total` where telegrams come by several ways, and through tunnels.

#[allow(dead_code)]
#[path = "support/captures.rs"]
mod captures;
#[allow(dead_code)]
#[path = "support/telegrams.rs"]
mod telegrams;
#[allow(dead_code)]
#[path = "support/totals.rs"]
mod totals;

use captures::*;
use telegrams::{connect_response, datagram, increment, request, Telegram};
use totals::total;

const ORDER: Order = Order::Low;
const NO_SUM: &str =
    "klumdray: increments came by several ways, so there is no sum: a telegram may \
                      have come by more than one; choose by --way\n";

/// A capture with a packet each second.
fn capture(packets: &[Vec<u8>]) -> Vec<u8> {
    let mut file = pcap_head(ORDER, false, 101);
    for (second, octets) in (1..).zip(packets) {
        file.extend(pcap_packet(ORDER, second, 0, octets));
    }
    file
}

fn from_router(octets: &[u8]) -> Vec<u8> {
    packet(ROUTER, MULTICAST, octets)
}

fn from_other(octets: &[u8]) -> Vec<u8> {
    packet(OTHER_ROUTER, MULTICAST, octets)
}

/// From the gateway to the laptop.
fn to_laptop(octets: &[u8]) -> Vec<u8> {
    packet(ROUTER, LAPTOP, octets)
}

#[test]
fn what_came_by_two_routers_is_not_added_up() {
    let [first, second] = [increment(0x0c1a), increment(0x0c1b)];
    let file = capture(&[
        from_router(&first.to(9).routing()),
        from_router(&first.routing()),
        from_other(&first.routing()),
        from_router(&second.routing()),
        from_other(&second.routing()),
        from_other(&second.repeated().routing()),
        from_other(&increment(0x7fff).routing()),
        from_other(&[6, 16]),
    ]);
    let ended = total(&[], &file);
    let output = "\
group 2/2/52
no sum
way 1: routing from 192.168.1.10, interface 0
  total 42.02 litres
  counted 2 telegrams, 1970-01-01 00:00:02 to 1970-01-01 00:00:04 UTC
  repetitions 0
  no increment 0
  other groups 1
way 2: routing from 192.168.1.11, interface 0
  total 42.02 litres
  counted 2 telegrams, 1970-01-01 00:00:03 to 1970-01-01 00:00:05 UTC
  repetitions 1
  no increment 0
  other groups 0
  refused 1
refused 2
   1  1  fewer octets than the frame needs
  23  1  ";
    assert!(ended.output.starts_with(output), "{}", ended.output);
    assert_eq!((ended.status, ended.errors.as_str()), (1, NO_SUM));
    let ended = total(&["--json"], &file);
    assert!(ended
        .output
        .contains("\"total\": null, \"total_hundredths\": null"));

    let ended = total(&["--way", "2"], &file);
    assert_eq!((ended.status, ended.errors.as_str()), (0, ""));
    assert_eq!(
        ended.row("way"),
        Some("2: routing from 192.168.1.11, interface 0")
    );
    assert_eq!(ended.row("total"), Some("42.02 litres"));
    assert_eq!(ended.row("repetitions"), Some("1"));
    let left = "2 of way 1: routing from 192.168.1.10, interface 0";
    assert_eq!(ended.row("not chosen"), Some(left));
    let ended = total(&["--way", "3"], &file);
    assert_eq!((ended.status, ended.row("total")), (2, None));
    assert_eq!(
        ended.errors,
        "klumdray: --way: expected ways from 1 to 2, found '3'\n"
    );
}

#[test]
fn ways_that_follow_one_another_may_be_counted_as_one() {
    let [first, second] = [increment(0x0c1a), increment(0x0c1b)];
    let packets = [
        from_router(&first.routing()),
        from_other(&second.to(9).routing()),
        from_other(&second.routing()),
        from_other(&second.repeated().routing()),
    ];
    assert_eq!(total(&[], &capture(&packets)).status, 1);
    let ended = total(&["--way", "2,1"], &capture(&packets));
    assert_eq!((ended.status, ended.errors.as_str()), (0, ""));
    assert_eq!(ended.row("total"), Some("42.02 litres"));
    assert_eq!(ended.row("repetitions"), Some("1"));
    assert_eq!(ended.row("other groups"), Some("1"));
    assert!(ended
        .output
        .contains("\nway 1: routing from 192.168.1.10, interface 0\nway 2: "));

    let mixed = [&packets[..], &packets[..1]].concat();
    let ended = total(&["--way", "1,2"], &capture(&mixed));
    assert_eq!(
        (ended.status, ended.row("total")),
        (0, Some("63.02 litres"))
    );
    let note = "klumdray: note: the chosen ways overlap; a telegram that came by two of them is \
                counted twice\n";
    assert_eq!(ended.errors, note);
}

#[test]
fn a_way_without_increments_does_not_stand_in_the_way() {
    let one = increment(0x0c1a);
    let asked = Telegram {
        payload: vec![0, 0],
        ..one.clone()
    };
    let file = capture(&[
        from_other(&asked.routing()),
        from_other(&one.to(7).routing()),
        from_router(&one.routing()),
    ]);
    let ended = total(&[], &file);
    assert_eq!(
        (ended.status, ended.row("total")),
        (0, Some("21.00 litres"))
    );
    assert_eq!(
        ended.row("way"),
        Some("2: routing from 192.168.1.10, interface 0")
    );
    assert_eq!(ended.row("no increment"), Some("1"));
    assert_eq!(ended.row("other groups"), Some("1"));
}

#[test]
fn two_interfaces_are_two_ways() {
    let frame = routed(ROUTER, &increment(0x0c1a).routing());
    let file = [
        section(ORDER),
        interface(ORDER, ETHERNET, 0, &[]),
        interface(ORDER, ETHERNET, 0, &[]),
        enhanced(ORDER, 0, 1, &frame),
        enhanced(ORDER, 1, 2, &frame),
    ]
    .concat();
    let ended = total(&[], &file);
    assert_eq!((ended.status, ended.row("total")), (1, None));
    assert!(ended
        .output
        .contains("\nway 2: routing from 192.168.1.10, interface 1\n"));
}

/// Requests of a session, and what is told: counted, sent again, gaps.
fn assert_session(requests: &[Vec<u8>], counted: &str, again: Option<&str>, gaps: Option<&str>) {
    let ended = total(&[], &capture(requests));
    let number = ended.row("counted").and_then(|row| row.split(' ').next());
    assert_eq!(number, Some(counted), "{ended:?}");
    assert_eq!(ended.row("sent again"), again, "{ended:?}");
    let gaps = gaps.map(|gaps| format!("{gaps}, an increment may be missing or twice at each"));
    assert_eq!(ended.row("gaps"), gaps.as_deref(), "{ended:?}");
    assert_eq!(ended.status, 0, "{ended:?}");
}

#[test]
fn a_request_that_is_sent_again_counts_once() {
    let one = increment(0x0c1a);
    for channel in [1, 4, 5, 200, 255] {
        let sent = |counter| to_laptop(&one.tunnelling(channel, counter));
        let again = [sent(254), sent(254), sent(255), sent(255), sent(0), sent(1)];
        assert_session(&again, "4", Some("2"), None);
    }
}

#[test]
fn a_gap_is_told_and_the_session_goes_on() {
    let one = increment(0x0c1a);
    let sent = |counter| to_laptop(&one.tunnelling(9, counter));
    assert_session(
        &[sent(0), sent(1), sent(4), sent(4), sent(5)],
        "4",
        Some("1"),
        Some("1"),
    );
    assert_session(
        &[sent(7), sent(8), sent(0), sent(1), sent(9)],
        "5",
        None,
        Some("2"),
    );
    let all: Vec<Vec<u8>> = (0..=255).chain(0..=255).map(sent).collect();
    assert_session(&all, "512", None, None);
}

#[test]
fn a_session_that_is_opened_anew_begins_at_any_counter() {
    let one = increment(0x0c1a);
    let sent = |counter| to_laptop(&one.tunnelling(9, counter));
    let opened = |channel, status| to_laptop(&connect_response(channel, status));
    assert_session(&[sent(0), opened(9, 0), sent(0)], "2", None, None);
    assert_session(
        &[sent(7), opened(9, 0), sent(0), sent(0)],
        "2",
        Some("1"),
        None,
    );
    assert_session(&[sent(0), opened(8, 0), sent(0)], "1", Some("1"), None);
    assert_session(&[sent(0), opened(9, 0x24), sent(0)], "1", Some("1"), None);
    let elsewhere = packet(OTHER_ROUTER, LAPTOP, &connect_response(9, 0));
    assert_session(&[sent(0), elsewhere, sent(0)], "1", Some("1"), None);
    // A session is opened between control ends, whose ports may be others.
    let control = packet(ROUTER, End(LAPTOP.0, 50_124), &connect_response(9, 0));
    assert_session(&[sent(0), control, sent(0)], "2", None, None);
    // The laptop's own requests begin anew, too.
    let own = |counter| packet(LAPTOP, ROUTER, &one.tunnelling(9, counter));
    assert_session(&[own(0), opened(9, 0), own(0)], "2", None, None);
}

#[test]
fn both_directions_of_a_tunnel_are_heard_apart() {
    let one = increment(0x0c1a);
    let file = capture(&[
        packet(LAPTOP, ROUTER, &request(3, 0, &one.cemi(0x11))),
        to_laptop(&datagram(0x0421, &[4, 3, 0, 0])),
        to_laptop(&request(3, 0, &one.cemi(0x2e))),
        to_laptop(&one.tunnelling(3, 1)),
        to_laptop(&one.tunnelling(3, 1)),
        to_laptop(&one.tunnelling(3, 2)),
    ]);
    let ended = total(&[], &file);
    assert_eq!(
        (ended.status, ended.row("total")),
        (0, Some("42.00 litres"))
    );
    assert_eq!(ended.row("requests and confirmations"), Some("2"));
    assert_eq!(ended.row("sent again"), Some("1"));
    assert_eq!(ended.row("gaps"), None);
    assert_eq!(ended.row("other services"), Some("1"));
    let way = "1: tunnelling from 192.168.1.10:3671 to 192.168.1.77:50123, channel 3, interface 0";
    assert_eq!(ended.row("way"), Some(way));
}

#[test]
fn a_refused_request_leaves_a_gap() {
    let one = increment(0x0c1a);
    let mut damaged = one.tunnelling(3, 1);
    damaged[6] = 5;
    let file = capture(&[
        to_laptop(&one.tunnelling(3, 0)),
        to_laptop(&damaged),
        to_laptop(&one.tunnelling(3, 2)),
    ]);
    let ended = total(&[], &file);
    assert_eq!(ended.row("counted").map(|row| &row[..1]), Some("2"));
    assert_eq!(
        ended.row("gaps"),
        Some("1, an increment may be missing or twice at each")
    );
    assert_eq!(ended.row("refused"), Some("1"));
    assert!(ended.row("  19").is_some());
}

#[test]
fn a_tunnel_beside_routing_is_another_way() {
    let one = increment(0x0c1a);
    let file = capture(&[
        from_router(&one.routing()),
        to_laptop(&one.tunnelling(1, 0)),
    ]);
    let ended = total(&[], &file);
    assert_eq!((ended.status, ended.errors.as_str()), (1, NO_SUM));
    assert_eq!(
        total(&["--way=2"], &file).row("total"),
        Some("21.00 litres")
    );
}

#[test]
fn routers_notes_of_lost_telegrams_are_told() {
    let one = increment(0x0c1a);
    let file = capture(&[
        from_router(&one.routing()),
        from_router(&datagram(0x0531, &[4, 0, 0, 5])),
    ]);
    let ended = total(&[], &file);
    assert_eq!(ended.row("other services"), Some("1"));
    let lost = Some("1, an increment may be among them");
    assert_eq!(ended.row("routers tell of lost telegrams"), lost);
}

#[test]
fn packets_that_stand_in_the_capture_twice_are_told() {
    let one = from_router(&increment(0x0c1a).routing());
    let packets = |numbers: &[u16]| -> Vec<Vec<u8>> {
        let packets = numbers.iter().map(|number| numbered(one.clone(), *number));
        packets.collect()
    };
    let ended = total(&[], &capture(&packets(&[7, 7, 8, 8, 9])));
    assert_eq!(
        (ended.status, ended.row("total")),
        (0, Some("105.00 litres"))
    );
    assert_eq!(ended.row("captured twice"), Some("2, each time counted"));
    let note = "klumdray: note: packets seem to stand in the capture twice";
    assert!(ended.errors.starts_with(note), "{}", ended.errors);
    // A sender that does not number its packets may send the same octets again.
    for numbers in [[0, 0, 0], [1, 2, 3]] {
        let ended = total(&[], &capture(&packets(&numbers)));
        assert_eq!(
            (ended.row("captured twice"), ended.errors.as_str()),
            (None, "")
        );
    }
    // Sooner than a line can carry it, it was not sent again.
    for (apart, told) in [(9_999, Some("1, each time counted")), (10_000, None)] {
        let mut file = pcap_head(ORDER, false, 101);
        for micro in [995_000, 995_000 + apart] {
            let (seconds, parts) = (1 + micro / 1_000_000, micro % 1_000_000);
            file.extend(pcap_packet(ORDER, seconds, parts, &one));
        }
        assert_eq!(total(&[], &file).row("captured twice"), told);
    }
}

#[test]
fn a_capture_on_all_interfaces_is_told_apart_where_it_can_be() {
    let one = from_router(&increment(0x0c1a).routing());
    let file = |link, heads: [&[u8]; 2]| {
        let mut file = pcap_head(ORDER, false, link);
        for (second, head) in (1..).zip(heads) {
            file.extend(pcap_packet(ORDER, second, 0, &[head, &one].concat()));
        }
        file
    };
    let cooked: &[u8] = &[0, 0, 0, 1, 0, 6, 1, 2, 3, 4, 5, 6, 0, 0, 8, 0];
    let ended = total(&[], &file(113, [cooked, cooked]));
    assert_eq!(
        (ended.status, ended.row("total")),
        (0, Some("42.00 litres"))
    );
    assert!(ended
        .errors
        .starts_with("klumdray: note: captured on all interfaces at once"));
    let of = |index| {
        [
            8, 0, 0, 0, 0, 0, 0, index, 0, 1, 0, 6, 1, 2, 3, 4, 5, 6, 0, 0,
        ]
    };
    let ended = total(&[], &file(276, [&of(2), &of(3)]));
    assert_eq!((ended.status, ended.errors.as_str()), (1, NO_SUM));
    let way = "\nway 2: routing from 192.168.1.10, interface 0 (3 of the system)\n";
    assert!(ended.output.contains(way), "{}", ended.output);
    assert_eq!(total(&[], &file(276, [&of(2), &of(2)])).status, 0);
}
