//! `klumdray total` on captures of every form and link type, made octet by octet.

#[allow(dead_code)]
#[path = "support/captures.rs"]
mod captures;
#[allow(dead_code)]
#[path = "support/telegrams.rs"]
mod telegrams;
#[allow(dead_code)]
#[path = "support/totals.rs"]
mod totals;

use captures::*;
use telegrams::{increment, Telegram};
use totals::{run_total, total, Ended};

const ORDERS: [Order; 2] = [Order::High, Order::Low];
/// 2026-11-16 15:40:35 UTC.
const SECOND: u32 = 1_794_843_635;

/// 21.00 litres, then 21.02.
fn two() -> [Telegram; 2] {
    [increment(0x0c1a), increment(0x0c1b)]
}

/// Whether it is one of the captures on all interfaces that cannot tell them apart.
const ALL_INTERFACES: &str = "cooked";

fn assert_counted(ended: &Ended, context: &str) {
    assert_eq!(
        ended.row("total"),
        Some("42.02 litres"),
        "{context}: {ended:?}"
    );
    let counted = ended.row("counted").expect(context);
    assert!(counted.starts_with("2 telegrams"), "{context}: {counted}");
    assert_eq!(ended.row("refused"), Some("0"), "{context}: {ended:?}");
    assert_eq!(ended.status, 0, "{context}");
    let is_noted = ended.errors.starts_with("klumdray: note: captured on all");
    assert_eq!(is_noted, context == ALL_INTERFACES, "{}", ended.errors);
    assert!(is_noted || ended.errors.is_empty(), "{}", ended.errors);
}

/// A pcap file with a packet each second.
fn pcap(order: Order, is_nano: bool, link: u16, packets: &[Vec<u8>]) -> Vec<u8> {
    let mut file = pcap_head(order, is_nano, link);
    for (second, octets) in (SECOND..).zip(packets) {
        file.extend(pcap_packet(order, second, 250_000, octets));
    }
    file
}

/// A pcap file with whatever a link has around two routing datagrams.
fn on_link(link: u16, around: impl Fn(Vec<u8>) -> Vec<u8>) -> Vec<u8> {
    let packets = two().map(|one| around(packet(ROUTER, MULTICAST, &one.routing())));
    pcap(Order::Low, false, link, &packets)
}

#[test]
fn reads_pcap_in_either_order_with_either_fraction() {
    for order in ORDERS {
        for is_nano in [false, true] {
            let packets = two().map(|one| routed(ROUTER, &one.routing()));
            let ended = total(&[], &pcap(order, is_nano, ETHERNET, &packets));
            assert_counted(&ended, &format!("{order:?} {is_nano}"));
            let times = "2 telegrams, 2026-11-16 15:40:35 to 2026-11-16 15:40:36 UTC";
            assert_eq!(ended.row("counted"), Some(times));
            let ended = total(&["--json"], &pcap(order, is_nano, ETHERNET, &packets));
            let part = if is_nano { ".000250" } else { ".250" };
            let first = format!("\"first\": \"2026-11-16T15:40:35{part}Z\"");
            assert!(ended.output.contains(&first), "{}", ended.output);
        }
    }
}

#[test]
fn reads_every_link_type() {
    let head = |link, head: &'static [u8]| on_link(link, |packet| [head, &packet].concat());
    let tag = [0x81, 0, 0, 7];
    let outer = [0x88, 0xa8, 0, 9];
    let addresses = [2; 12];
    let tagged = |tags: Vec<u8>| {
        on_link(ETHERNET, move |packet| {
            [&addresses[..], &tags, &[8, 0], &packet, &[0; 9]].concat()
        })
    };
    let cases = [
        ("Ethernet", on_link(ETHERNET, |packet| ethernet(&packet))),
        ("one tag", tagged(tag.to_vec())),
        ("two tags", tagged([outer, tag].concat())),
        (
            ALL_INTERFACES,
            head(113, &[0, 0, 0, 1, 0, 6, 1, 2, 3, 4, 5, 6, 0, 0, 8, 0]),
        ),
        (
            "cooked 2",
            head(
                276,
                &[8, 0, 0, 0, 0, 0, 0, 1, 0, 1, 0, 6, 1, 2, 3, 4, 5, 6, 0, 0],
            ),
        ),
        ("raw", on_link(101, |packet| packet)),
        ("raw, BSD", on_link(12, |packet| packet)),
        ("raw, OpenBSD", on_link(14, |packet| packet)),
        ("IPv4", on_link(228, |packet| packet)),
        ("null, low", head(0, &[2, 0, 0, 0])),
        ("null, high", head(0, &[0, 0, 0, 2])),
        ("loop", head(108, &[0, 0, 0, 2])),
    ];
    for (name, file) in cases {
        assert_counted(&total(&[], &file), name);
    }
}

#[test]
fn reads_internet_protocol_with_options_and_version_6() {
    let options = on_link(101, |packet| {
        let mut longer = packet.clone();
        longer.splice(20..20, [1; 4]);
        longer[0] = 0x46;
        longer[3] += 4;
        longer
    });
    assert_counted(&total(&[], &options), "options");
    let version_6 = |next, extensions: &[u8]| {
        let packets = two().map(|one| ipv6(next, extensions, 3671, 3671, &one.routing()));
        pcap(Order::Low, false, 229, &packets)
    };
    assert_counted(&total(&[], &version_6(17, &[])), "IPv6");
    let extensions = [60, 0, 0, 0, 0, 0, 0, 0, 17, 1, 0, 0, 0, 0, 0, 0];
    let longer = [&extensions[..], &[0; 8]].concat();
    assert_counted(&total(&[], &version_6(0, &longer)), "IPv6 with options");
    let ended = total(&[], &version_6(44, &[17, 0, 0, 1, 0, 0, 0, 9]));
    assert_eq!(
        ended.row("fragmented, not read"),
        Some("2, an increment may be among them")
    );
    let ended = total(&[], &version_6(44, &[17, 0, 0, 9, 0, 0, 0, 9]));
    assert_eq!(ended.row("other packets"), Some("2"));
    assert_counted(
        &total(&[], &version_6(44, &[17, 0, 0, 0, 0, 0, 0, 9])),
        "whole",
    );
}

#[test]
fn tells_what_it_does_not_read() {
    let datagram = two()[0].routing();
    let parts = udp(3671, 3671, &datagram);
    let whole = packet(ROUTER, MULTICAST, &datagram);
    let packets = [
        ipv4(ROUTER, MULTICAST, 17, 0x2000, &parts),
        ipv4(ROUTER, MULTICAST, 17, 0x0002, &parts),
        ipv4(ROUTER, MULTICAST, 6, 0, &parts),
        packet(End([10, 0, 0, 1], 1), End([10, 0, 0, 2], 53), &datagram),
        whole[..whole.len() - 1].to_vec(),
        whole[..27].to_vec(),
        whole[..19].to_vec(),
        vec![],
        whole,
    ];
    let ended = total(&[], &pcap(Order::Low, false, 101, &packets));
    assert_eq!(ended.row("total"), Some("21.00 litres"));
    assert_eq!(
        ended.row("fragmented, not read"),
        Some("1, an increment may be among them")
    );
    assert_eq!(
        ended.row("cut short, not read"),
        Some("4, an increment may be among them")
    );
    assert_eq!(ended.row("other packets"), Some("3"));
    assert_eq!(ended.row("refused"), Some("0"));
}

#[test]
fn a_datagram_is_as_long_as_both_heads_say() {
    let [first, second] = two().map(|one| packet(ROUTER, MULTICAST, &one.routing()));
    // Octets behind the datagram that the IP packet has and the datagram has not.
    let longer = |packet: &[u8]| {
        let mut longer = [packet, &[0; 3]].concat();
        longer[3] += 3;
        longer
    };
    let packets = [&first, &second].map(|packet| ethernet(&longer(packet)));
    assert_counted(
        &total(&[], &pcap(Order::Low, false, ETHERNET, &packets)),
        "longer",
    );
    // A datagram that would reach into what the link has filled up.
    let reaching = |packet: &[u8], length: u8| {
        let mut reaching = packet.to_vec();
        reaching[25] = length;
        [ethernet(&reaching), vec![0; 9]].concat()
    };
    let packets = [28, 29, 7, 0].map(|length| reaching(&first, length));
    let ended = total(&[], &pcap(Order::Low, false, ETHERNET, &packets));
    let cut = Some("4, an increment may be among them");
    assert_eq!(ended.row("cut short, not read"), cut, "{ended:?}");
    assert_eq!(ended.row("refused"), Some("0"));
}

#[test]
fn looks_at_another_port_where_it_is_told_to() {
    let other = End([192, 168, 1, 10], 3672);
    let packets = two().map(|one| ethernet(&packet(other, End(MULTICAST.0, 3672), &one.routing())));
    let file = pcap(Order::Low, false, ETHERNET, &packets);
    assert_counted(&total(&["--port", "3672"], &file), "3672");
    let ended = total(&[], &file);
    assert_eq!(ended.row("total"), Some("0.00 litres"));
    assert_eq!(ended.row("other packets"), Some("2"));
}

/// A section with an interface whose options are given, and blocks behind it.
fn pcapng(order: Order, options: &[Vec<u8>], blocks: &[Vec<u8>]) -> Vec<u8> {
    let head = [section(order), interface(order, ETHERNET, 262_144, options)];
    [head.concat(), blocks.concat()].concat()
}

#[test]
fn reads_every_packet_block_of_pcapng() {
    for order in ORDERS {
        let frames = two().map(|one| routed(ROUTER, &one.routing()));
        let micro = |frame: usize| (u64::from(SECOND) + frame as u64) * 1_000_000;
        let unknown = || block(order, 0x0bad, &[7; 13]);
        let forms: [(&str, Vec<Vec<u8>>); 3] = [
            (
                "enhanced",
                vec![
                    enhanced(order, 0, micro(0), &frames[0]),
                    unknown(),
                    enhanced(order, 0, micro(1), &frames[1]),
                ],
            ),
            (
                "obsolete",
                vec![
                    obsolete(order, 0, micro(0), &frames[0]),
                    obsolete(order, 0, micro(1), &frames[1]),
                    unknown(),
                ],
            ),
            (
                "simple",
                vec![
                    unknown(),
                    simple(order, frames[0].len() as u32, &frames[0]),
                    simple(order, frames[1].len() as u32, &frames[1]),
                ],
            ),
        ];
        for (name, blocks) in forms {
            let ended = total(&[], &pcapng(order, &[], &blocks));
            assert_counted(&ended, name);
            let times = match name {
                "simple" => "2 telegrams",
                _ => "2 telegrams, 2026-11-16 15:40:35 to 2026-11-16 15:40:36 UTC",
            };
            assert_eq!(ended.row("counted"), Some(times), "{order:?} {name}");
        }
    }
}

#[test]
fn reads_the_clock_of_each_interface() {
    let second = u64::from(SECOND);
    for order in ORDERS {
        let late = match order {
            Order::High => 3_600i64.to_be_bytes(),
            Order::Low => 3_600i64.to_le_bytes(),
        };
        let clocks: [(Vec<Vec<u8>>, u64); 6] = [
            (vec![], second * 1_000_000),
            (vec![option(order, 9, &[9])], second * 1_000_000_000),
            (vec![option(order, 9, &[0])], second),
            (vec![option(order, 9, &[0x8a])], second << 10),
            (
                vec![option(order, 2, b"eth0"), option(order, 9, &[3])],
                second * 1_000,
            ),
            (
                vec![option(order, 14, &late), option(order, 9, &[6])],
                (second - 3_600) * 1_000_000,
            ),
        ];
        for (options, units) in clocks {
            let frames = two().map(|one| routed(ROUTER, &one.routing()));
            let blocks = frames.map(|frame| enhanced(order, 0, units, &frame));
            let ended = total(&[], &pcapng(order, &options, &blocks));
            assert_counted(&ended, "a clock");
            let time = Some("2 telegrams, 2026-11-16 15:40:35 UTC");
            assert_eq!(ended.row("counted"), time, "{options:?}");
        }
    }
}

#[test]
fn a_time_that_no_calendar_has_is_none() {
    let order = Order::Low;
    let frames = two().map(|one| routed(ROUTER, &one.routing()));
    let blocks = frames.map(|frame| enhanced(order, 0, u64::MAX, &frame));
    let ended = total(
        &["--by", "month"],
        &pcapng(order, &[option(order, 9, &[0])], &blocks),
    );
    assert_counted(&ended, "far away");
    assert_eq!(ended.row("counted"), Some("2 telegrams"));
    assert_eq!(ended.row("no time"), Some("  42.02          2"));
    let ended = total(&[], &pcapng(order, &[option(order, 9, &[39])], &blocks));
    assert_eq!(ended.status, 2);
    assert!(ended.errors.contains("resolution"), "{}", ended.errors);
}

#[test]
fn reads_what_was_kept_of_a_simple_packet() {
    let order = Order::Low;
    let [first, second] = two().map(|one| routed(ROUTER, &one.routing()));
    let head = [section(order), interface(order, ETHERNET, 50, &[])].concat();
    let blocks = [
        simple(order, first.len() as u32, &first[..50]),
        simple(order, 40, &second[..40]),
    ];
    let ended = total(&[], &[head, blocks.concat()].concat());
    assert_eq!(ended.status, 0, "{ended:?}");
    assert_eq!(
        ended.row("cut short, not read"),
        Some("2, an increment may be among them")
    );
}

#[test]
fn reads_sections_in_both_orders_one_behind_the_other() {
    let [first, second] = two().map(|one| routed(ROUTER, &one.routing()));
    let file = [
        pcapng(Order::Low, &[], &[enhanced(Order::Low, 0, 1, &first)]),
        pcapng(Order::High, &[], &[enhanced(Order::High, 0, 2, &second)]),
    ]
    .concat();
    // Whether the second section's interface is the first one's, nobody knows but who has made them.
    let ended = total(&[], &file);
    assert_eq!(ended.status, 1, "{ended:?}");
    assert!(ended
        .output
        .contains("way 2: routing from 192.168.1.10, interface 0 of section 1\n"));
    assert_counted(&total(&["--way", "1,2"], &file), "as one");
}

#[test]
fn a_section_has_interfaces_of_its_own() {
    let order = Order::Low;
    let [first, second] = two().map(|one| routed(ROUTER, &one.routing()));
    let file = [
        pcapng(order, &[], &[enhanced(order, 0, 1, &first)]),
        section(order),
        enhanced(order, 0, 2, &second),
    ];
    let ended = total(&[], &file.concat());
    assert_eq!(
        (ended.status, ended.row("total")),
        (2, Some("21.00 litres"))
    );
    let place = file[0].len() + file[1].len() + 8;
    let said = format!(
        "klumdray: standard input: octet {place}, packet 2: expected an interface that was \
         described before, found number 0 of 0\n"
    );
    assert_eq!(ended.errors, said);
}

#[test]
fn tells_of_links_that_are_not_read() {
    let order = Order::Low;
    let [first, second] = two().map(|one| routed(ROUTER, &one.routing()));
    let blocks = [
        interface(order, 147, 0, &[]),
        enhanced(order, 1, 1, &first),
        enhanced(order, 0, 1, &second),
    ];
    let ended = total(&[], &pcapng(order, &[], &blocks));
    assert_eq!(ended.row("total"), Some("21.02 litres"));
    assert_eq!(ended.row("other link types, not read"), Some("1"));
    let ended = total(&[], &pcap(order, false, 147, &[first]));
    assert_eq!(ended.status, 2);
    let said =
        "klumdray: standard input: octet 20, packet 1: expected Ethernet, Linux cooked, raw IP \
                or loopback, found link type 147\n";
    assert_eq!(ended.errors, said);
}

#[test]
fn says_plainly_that_a_file_is_compressed() {
    let cases: [(&[u8], &str); 4] = [
        (&[0x1f, 0x8b, 8, 0, 0, 0, 0, 0], "gzip"),
        (&[0x28, 0xb5, 0x2f, 0xfd, 0, 0], "zstd"),
        (&[0x04, 0x22, 0x4d, 0x18, 0, 0], "lz4"),
        (b"PK\x03\x04 .. and so on", "zip"),
    ];
    for (file, by) in cases {
        let ended = total(&[], file);
        assert_eq!((ended.status, ended.output.as_str()), (2, ""));
        let said = format!(
            "klumdray: standard input: expected a capture (pcap or pcapng) or a text of frames, found a \
             file that {by} has compressed\n"
        );
        assert_eq!(ended.errors, said);
    }
}

#[test]
fn asks_of_a_capture_what_a_capture_has() {
    let file = pcap(Order::Low, false, ETHERNET, &[]);
    let ended = total(&["--cemi"], &file);
    assert_eq!(
        ended.errors,
        "klumdray: --cemi: expected a text of frames, found a capture of packets\n"
    );
    assert_eq!(ended.status, 2);
    let ended = run_total(&["nowhere.pcap", "--group", "2/2/52"], &[]);
    assert!(ended
        .errors
        .starts_with("klumdray: nowhere.pcap: expected a capture"));
    assert_eq!(ended.status, 2);
}

#[test]
fn says_what_a_file_of_another_kind_begins_with() {
    for (file, begun) in [
        (&b"snoop\0\0\0"[..], "73 6E 6F 6F 70 00 00 00"),
        (&[0x34, 0xcd, 0xb2, 0xa1, 2, 0], "34 CD B2 A1 02 00"),
        (&[0xd4, 0xc3], "D4 C3"),
        (&[0xff, 0xfe, b'B', 0], "FF FE 42 00"),
    ] {
        let ended = total(&[], file);
        assert_eq!((ended.status, ended.output.as_str()), (2, ""));
        let said = format!("found a file that begins with {begun}\n");
        assert!(ended.errors.ends_with(&said), "{}", ended.errors);
    }
}
