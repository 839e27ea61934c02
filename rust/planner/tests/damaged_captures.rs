//! `klumdray total` on damaged captures: no octet makes it fail, and it says where a file breaks.

#[allow(dead_code)]
#[path = "support/captures.rs"]
mod captures;
#[path = "support/emulated.rs"]
mod emulated;
#[allow(dead_code)]
#[path = "support/telegrams.rs"]
mod telegrams;
#[allow(dead_code)]
#[path = "support/totals.rs"]
mod totals;

use captures::*;
use emulated::number_of_inputs;
use inputs::{seed, Generator};
use telegrams::{increment, line};
use totals::{total, Ended};

/// A part of a file, and whether an increment of 21.00 litres stands in it.
type Part = (Vec<u8>, bool);

fn parts_of_pcap(order: Order) -> Vec<Part> {
    let frame = routed(ROUTER, &increment(0x0c1a).routing());
    let mut parts = vec![(pcap_head(order, false, ETHERNET), false)];
    for second in 1..=3 {
        parts.push((pcap_packet(order, second, 0, &frame), true));
    }
    parts
}

fn parts_of_pcapng(order: Order) -> Vec<Part> {
    let frame = routed(ROUTER, &increment(0x0c1a).routing());
    let options = [option(order, 9, &[6]), option(order, 14, &[0; 8])];
    vec![
        (section(order), false),
        (interface(order, ETHERNET, 262_144, &options), false),
        (enhanced(order, 0, 1, &frame), true),
        (block(order, 0x0bad, &[7; 5]), false),
        (obsolete(order, 0, 2, &frame), true),
        (simple(order, frame.len() as u32, &frame), true),
    ]
}

fn files() -> Vec<Vec<Part>> {
    let orders = [Order::High, Order::Low];
    let pcap = orders.map(parts_of_pcap);
    let pcapng = orders.map(parts_of_pcapng);
    pcap.into_iter().chain(pcapng).collect()
}

fn joined(parts: &[Part]) -> Vec<u8> {
    parts
        .iter()
        .flat_map(|(octets, _)| octets.clone())
        .collect()
}

/// A run that ends sensibly: an answer, or an answer up to a place that is told. A capture of all
/// interfaces, or with packets twice, which damage may make of it, draws a note.
fn assert_sensible(ended: &Ended, context: &str) {
    let mut told: Vec<&str> = ended.errors.lines().collect();
    told.retain(|row| !row.starts_with("klumdray: note: "));
    let no_sum = |row: &str| row.contains("there is no sum") && row.ends_with("by --way");
    let place = |row: &str| row.contains(": expected ") && row.contains(", found ");
    let is_told = match (ended.status, &told[..]) {
        (0, []) => true,
        (1, [row]) => no_sum(row),
        (2, [row]) => place(row),
        (2, [row, other]) => no_sum(row) && place(other),
        _ => false,
    };
    assert!(is_told, "{context}: {ended:?}");
}

#[test]
fn a_file_cut_off_anywhere_is_told_up_to_there() {
    for parts in files() {
        let file = joined(&parts);
        let mut whole = vec![(0, 0)];
        for (octets, has_increment) in &parts {
            let (end, increments) = whole[whole.len() - 1];
            whole.push((end + octets.len(), increments + u64::from(*has_increment)));
        }
        for end in 4..=file.len() {
            let ended = total(&[], &file[..end]);
            let &(begun, increments) = whole.iter().rfind(|(at, _)| *at <= end).unwrap();
            let litres = format!("{}.00 litres", 21 * increments);
            assert_eq!(
                ended.row("total"),
                Some(litres.as_str()),
                "{end}: {ended:?}"
            );
            assert_sensible(&ended, &format!("cut off at {end}"));
            // Between two packets or blocks nothing shows that others followed.
            let is_whole = begun == end && begun > 0;
            assert_eq!(
                ended.status,
                if is_whole { 0 } else { 2 },
                "{end}: {ended:?}"
            );
            if !is_whole {
                let place = format!("octet {end}, packet {}", increments + 1);
                assert!(ended.errors.contains(&place), "{place}: {}", ended.errors);
                let row = format!("the file cannot be read on from {place}");
                assert_eq!(ended.row("incomplete:"), Some(row.as_str()));
            }
        }
        // With fewer than four octets it is no capture: what begins pcapng is blank, too.
        for end in 0..4 {
            let ended = total(&[], &file[..end]);
            assert_sensible(&ended, &format!("cut off at {end}"));
            let is_blank = end > 0 && file[0] == b'\n';
            assert_eq!(
                ended.status,
                if is_blank { 0 } else { 2 },
                "{end}: {ended:?}"
            );
        }
    }
}

#[test]
fn no_damaged_octet_makes_it_fail() {
    for parts in files() {
        let file = joined(&parts);
        for place in 0..file.len() {
            let old = file[place];
            for new in [
                0x00,
                0x7f,
                0x80,
                0xff,
                old ^ 1,
                old ^ 0x10,
                old.wrapping_add(1),
            ] {
                let mut damaged = file.clone();
                damaged[place] = new;
                let ended = total(&["--by", "month"], &damaged);
                assert_sensible(&ended, &format!("{new:02X}h at {place}"));
            }
        }
    }
}

/// Octets changed, lost, put in or doubled, in one place or several.
fn damaged(generator: &mut Generator, file: &[u8]) -> Vec<u8> {
    let mut file = file.to_vec();
    for _ in 0..1 + generator.below(4) {
        let place = generator.below(file.len());
        let end = (place + 1 + generator.below(24)).min(file.len());
        match generator.below(6) {
            0 => file.truncate(place + 1),
            1 => {
                file.drain(place..end);
            }
            2 => {
                let more = generator.below(24);
                let octets = generator.octets(more);
                file.splice(place..place, octets);
            }
            3 => {
                let part = file[place..end].to_vec();
                file.splice(place..place, part);
            }
            _ => file[place] ^= generator.damage(),
        }
        if file.is_empty() {
            file.push(0);
        }
    }
    file
}

#[test]
fn no_damage_makes_it_fail() {
    let mut generator = Generator::new(seed());
    let files: Vec<Vec<u8>> = files().iter().map(|parts| joined(parts)).collect();
    for _ in 0..number_of_inputs(50_000, 5_000) {
        let file = &files[generator.below(files.len())];
        let file = damaged(&mut generator, file);
        let ended = total(&["--json"], &file);
        assert_sensible(&ended, &format!("{file:02X?}"));
    }
}

#[test]
fn says_what_was_expected_and_found() {
    let order = Order::Low;
    let parts = parts_of_pcapng(order);
    let starts: Vec<usize> = parts
        .iter()
        .scan(0, |at, (octets, _)| {
            Some(std::mem::replace(at, *at + octets.len()))
        })
        .collect();
    let file = joined(&parts);
    let damaged = |place: usize, octets: &[u8]| {
        let mut file = file.clone();
        file[place..place + octets.len()].copy_from_slice(octets);
        total(&[], &file).errors
    };
    let said = |octet: usize, packet: u64, words: &str| {
        format!("klumdray: standard input: octet {octet}, packet {packet}: {words}\n")
    };
    let words = "expected 1A2B3C4Dh in either byte order, found 00000000h";
    assert_eq!(damaged(8, &[0; 4]), said(8, 1, words));
    let words = "expected version 1 of pcapng, found 2";
    assert_eq!(damaged(12, &[2]), said(12, 1, words));
    let [interface, enhanced, unknown] = [starts[1], starts[2], starts[3]];
    let words = "expected a block's length, a multiple of 4 from 12 on, found 11";
    assert_eq!(damaged(unknown + 4, &[11, 0]), said(unknown + 4, 2, words));
    let words = "expected an interface that was described before, found number 9 of 1";
    assert_eq!(damaged(enhanced + 8, &[9]), said(enhanced + 8, 1, words));
    let words = "expected an option of at most 20 octets, found 255";
    assert_eq!(
        damaged(interface + 18, &[255]),
        said(interface + 18, 1, words)
    );
    let end = starts[4] - 4;
    let words = "expected the block's length 20 once more, found 21";
    assert_eq!(damaged(end, &[21]), said(end, 2, words));
    let words = "expected a packet of at most 76 octets, found 4294967295";
    assert_eq!(
        damaged(enhanced + 20, &[0xff; 4]),
        said(enhanced + 20, 1, words)
    );
}

/// The most memory that this process has had, in octets; none where the machine does not say.
fn peak() -> Option<u64> {
    let status = std::fs::read_to_string("/proc/self/status").ok()?;
    let row = status.lines().find_map(|row| row.strip_prefix("VmHWM:"))?;
    let kilo: u64 = row.trim().strip_suffix(" kB")?.parse().ok()?;
    Some(kilo * 1024)
}

#[test]
fn a_length_in_a_damaged_file_takes_no_memory() {
    let order = Order::Low;
    let before = peak();
    let huge = 0xffff_fff0u32;
    let mut pcap = pcap_head(order, false, ETHERNET);
    pcap.extend(order.fours(&[1, 1, huge, huge]));
    let blocks = |kind: u32, inside: &[u32]| {
        let head = [section(order), interface(order, ETHERNET, 0, &[])].concat();
        [head, order.fours(&[kind, huge]), order.fours(inside)].concat()
    };
    let files = [
        pcap,
        blocks(6, &[0, 0, 0, huge - 64, huge - 64]),
        blocks(3, &[huge - 64]),
        blocks(2, &[0, 0, 0, huge - 64, huge - 64]),
        blocks(1, &[1, 0, huge]),
        blocks(0x0bad, &[1, 2, 3]),
        vec![b'0'; 3_000_000],
    ];
    for file in files {
        let ended = total(&[], &file);
        assert_eq!(ended.status, 2, "{ended:?}");
        assert_sensible(&ended, "a huge length");
    }
    if let (Some(before), Some(after)) = (before, peak()) {
        assert!(after - before < 64 << 20, "{} octets more", after - before);
    }
}

#[test]
fn a_capture_of_too_many_ways_is_told() {
    let order = Order::Low;
    let mut file = pcap_head(order, false, 101);
    for number in 0..4_097u16 {
        let [high, low] = number.to_be_bytes();
        let sender = End([10, 0, high, low], 3671);
        let octets = packet(sender, MULTICAST, &increment(0x0c1a).to(1).routing());
        file.extend(pcap_packet(order, 1, 0, &octets));
    }
    let ended = total(&[], &file);
    assert_eq!(ended.status, 2);
    assert!(
        ended
            .errors
            .contains("packet 4097: expected at most 4096 ways"),
        "{}",
        ended.errors
    );
}

#[test]
fn no_damaged_character_of_a_text_makes_it_fail() {
    let text = format!(
        "# a comment\n\n2026-11-16T15:40:35.123Z {}\n2026-11-16 15:41:35+01:00 {}\n1794843635.25 {}\n",
        line(&increment(0x0c1a).tp1()),
        line(&increment(0x0c1b).cemi(0x29)),
        line(&increment(0x0c1a).routing()),
    );
    assert_eq!(
        total(&[], text.as_bytes()).row("total"),
        Some("63.02 litres")
    );
    for place in 0..text.len() {
        for new in [
            b'\0', b' ', b'#', b'0', b'F', b'T', b'.', b'-', b':', b'\n', b'\r', 0xff,
        ] {
            let mut damaged = text.clone().into_bytes();
            damaged[place] = new;
            assert_sensible(&total(&[], &damaged), &format!("{new:02X}h at {place}"));
        }
        assert_sensible(&total(&[], &text.as_bytes()[..place]), "cut off");
    }
}
