//! A year of telegrams, one a minute, with repeats, damaged ones and others among them: the total is
//! exact to the hundredth, in seconds, and the file is not held in memory.

#[allow(dead_code)]
#[path = "support/captures.rs"]
mod captures;
#[allow(dead_code)]
#[path = "support/telegrams.rs"]
mod telegrams;
#[allow(dead_code)]
#[path = "support/totals.rs"]
mod totals;

use captures::*;
use inputs::Generator;
use std::collections::BTreeMap;
use std::fs::File;
use std::io::{BufWriter, Write};
use std::time::Instant;
use telegrams::{datagram, hundredths, increment, Telegram, GROUP};
use totals::{run_total, Ended};

/// Of a year.
const MINUTES: u64 = 525_600;
/// 2025-01-01 00:00:00 UTC.
const NEW_YEAR: u64 = 1_735_689_600;
const ORDER: Order = Order::Low;
const DAYS: [u64; 12] = [31, 28, 31, 30, 31, 30, 31, 31, 30, 31, 30, 31];

/// What the test keeps of what it writes.
#[derive(Default)]
struct Kept {
    /// Hundredths of each month.
    months: [i64; 12],
    counted: u64,
    repetitions: u64,
    no_increment: u64,
    other_groups: u64,
    other_services: u64,
    other_packets: u64,
    refused: BTreeMap<u8, u64>,
    /// Frames of the group that a reader of cEMI sees, whatever became of them.
    of_group: u64,
}

struct Year {
    file: BufWriter<File>,
    chance: Generator,
    second: u64,
    kept: Kept,
}

impl Year {
    fn put(&mut self, octets: &[u8]) {
        let block = enhanced(ORDER, 0, self.second * 1_000_000, octets);
        self.file.write_all(&block).expect("the file takes it");
        self.second += 1;
    }

    fn route(&mut self, octets: &[u8]) {
        self.put(&routed(ROUTER, octets));
    }

    /// One increment: its first sending may be damaged on the way, or its repeat is heard too.
    fn minute(&mut self, telegram: &Telegram, month: usize, code: u16, is_same: bool) {
        self.kept.counted += 1;
        self.kept.months[month] += hundredths(code);
        self.kept.of_group += 1;
        match self.chance.below(400) {
            // A repeat alone is told from one of the telegram before by its octets.
            0 if !is_same => {
                self.damaged(&telegram.routing());
                self.route(&telegram.repeated().routing());
            }
            1 => {
                self.route(&telegram.routing());
                self.route(&telegram.repeated().routing());
                self.kept.repetitions += 1;
                self.kept.of_group += 1;
            }
            _ => self.route(&telegram.routing()),
        }
    }

    /// A datagram that is refused, by a number that the test knows.
    fn damaged(&mut self, whole: &[u8]) {
        let mut octets = whole.to_vec();
        let number = match self.chance.below(6) {
            0 => {
                octets.truncate(5);
                1
            }
            1 => {
                octets[1] = 0x11;
                10
            }
            2 => {
                octets[5] += 1;
                12
            }
            3 => {
                octets[6] = 0x2b;
                7
            }
            4 => {
                octets[9] |= 0x04;
                3
            }
            _ => {
                octets[14] += 1;
                1
            }
        };
        *self.kept.refused.entry(number).or_default() += 1;
        self.route(&octets);
    }

    /// What else is heard between two increments.
    fn between(&mut self) {
        match self.chance.below(100) {
            0..=5 => {
                let group = [GROUP - 1, GROUP + 1, 0x0801][self.chance.below(3)];
                self.route(&increment(0x0c1a).to(group).routing());
                self.kept.other_groups += 1;
            }
            6 => {
                let asked = Telegram {
                    payload: vec![0x00, 0x00],
                    ..increment(0)
                };
                self.route(&asked.routing());
                self.kept.no_increment += 1;
                self.kept.of_group += 1;
            }
            7 => {
                self.route(&increment(0x7fff).routing());
                *self.kept.refused.entry(23).or_default() += 1;
                self.kept.of_group += 1;
            }
            8 => {
                self.route(&datagram(0x0201, &[8, 1, 192, 168, 1, 77, 0x0e, 0x57]));
                self.kept.other_services += 1;
            }
            9 => {
                self.put(&ethernet(&ipv4(ROUTER, LAPTOP, 6, 0, &[0; 20])));
                self.kept.other_packets += 1;
            }
            _ => {}
        }
    }
}

/// Codes as a meter has them, and any others that are valid.
fn code(chance: &mut Generator) -> u16 {
    match chance.below(4) {
        0 => 0x0c1a,
        1 => 0x0c1b,
        2 => chance.below(2_048) as u16,
        _ => match chance.field() {
            0x7fff => 0,
            code => code,
        },
    }
}

fn month_of(minute: u64) -> usize {
    let mut day = minute / 1_440;
    for (month, days) in DAYS.into_iter().enumerate() {
        if day < days {
            return month;
        }
        day -= days;
    }
    panic!("the year has ended");
}

/// Writes a year's capture with an increment every so many minutes.
fn write_year(name: &str, every: usize) -> Kept {
    let file = File::create(name).expect("a file");
    let mut year = Year {
        file: BufWriter::new(file),
        chance: Generator::new(4),
        second: NEW_YEAR,
        kept: Kept::default(),
    };
    let head = [section(ORDER), interface(ORDER, ETHERNET, 262_144, &[])].concat();
    year.file.write_all(&head).expect("the file takes it");
    let mut before = 0;
    for minute in (0..MINUTES).step_by(every) {
        year.second = NEW_YEAR + minute * 60;
        let code = code(&mut year.chance);
        year.minute(&increment(code), month_of(minute), code, code == before);
        before = code;
        year.between();
    }
    year.file.flush().expect("the file takes it");
    year.kept
}

fn with_commas(number: u64) -> String {
    let digits = number.to_string();
    let first = (digits.len() - 1) % 3 + 1;
    let mut shown = digits[..first].to_string();
    for part in digits.as_bytes()[first..].chunks(3) {
        shown += ",";
        shown += std::str::from_utf8(part).expect("digits");
    }
    shown
}

fn litres(hundredths: i64) -> String {
    let sign = if hundredths < 0 { "-" } else { "" };
    let size = hundredths.unsigned_abs();
    format!("{sign}{}.{:02}", with_commas(size / 100), size % 100)
}

/// The most memory that this process has had, in octets; none where the machine does not say.
fn peak() -> Option<u64> {
    let status = std::fs::read_to_string("/proc/self/status").ok()?;
    let row = status.lines().find_map(|row| row.strip_prefix("VmHWM:"))?;
    let kilo: u64 = row.trim().strip_suffix(" kB")?.parse().ok()?;
    Some(kilo * 1024)
}

/// Everything that is told is what the test has kept.
fn assert_told(ended: &Ended, kept: &Kept, last: &str) {
    assert_eq!((ended.status, ended.errors.as_str()), (0, ""));
    let sum: i64 = kept.months.iter().sum();
    let refused: u64 = kept.refused.values().sum();
    let counted = with_commas(kept.counted);
    let expected = [
        ("total", format!("{} litres", litres(sum))),
        (
            "counted",
            format!("{counted} telegrams, 2025-01-01 00:00:00 to 2025-12-31 {last} UTC"),
        ),
        ("repetitions", with_commas(kept.repetitions)),
        ("no increment", with_commas(kept.no_increment)),
        ("other groups", with_commas(kept.other_groups)),
        ("refused", with_commas(refused)),
        ("other services", with_commas(kept.other_services)),
        ("other packets", with_commas(kept.other_packets)),
    ];
    for (name, value) in expected {
        assert_eq!(ended.row(name), Some(value.as_str()), "{name}");
    }
    for (number, count) in &kept.refused {
        let row = ended.row(&format!("{number:>4}")).expect("its row");
        let told = row.split_whitespace().next();
        assert_eq!(told, Some(with_commas(*count).as_str()), "{number}");
    }
}

fn assert_months_told(ended: &Ended, kept: &Kept, every: u64) {
    for (month, sum) in kept.months.iter().enumerate() {
        let row = ended.row(&format!("2025-{:02}", month + 1));
        let cells: Vec<&str> = row.expect("its row").split_whitespace().collect();
        let telegrams = with_commas(DAYS[month] * 1_440 / every);
        assert_eq!(cells, [litres(*sum).as_str(), telegrams.as_str()]);
    }
}

/// Where each call goes to an emulated process, the months are left to the hourly year below.
#[test]
fn the_total_of_a_year_is_exact() {
    let name = format!("{}/year.pcapng", env!("CARGO_TARGET_TMPDIR"));
    let kept = write_year(&name, 1);
    assert_eq!(kept.counted, MINUTES);
    let (size, before) = (std::fs::metadata(&name).expect("the file").len(), peak());
    let is_emulated = klumdray::LINKED == "emulated";
    let months: &[&str] = if is_emulated { &[] } else { &["--by", "month"] };
    let begun = Instant::now();
    let ended = run_total(
        &[&[name.as_str(), "--group", "2/2/52"], months].concat(),
        &[],
    );
    let (took, after) = (begun.elapsed(), peak());

    assert_told(&ended, &kept, "23:59:00");
    if !is_emulated {
        assert_months_told(&ended, &kept, 1);
    }
    println!(
        "{name}: {size} octets, {} frames of the group",
        kept.of_group
    );
    println!("{took:?} with the library of {}", klumdray::LINKED);
    if let (Some(before), Some(after)) = (before, after) {
        println!("{} octets of memory more at most", after - before);
        assert!(after - before < 8 << 20, "the file is held in memory");
    }
    // tests/peers compares it with what tshark sees.
    if std::env::var_os("KLUMDRAY_KEEP_YEAR").is_none() {
        std::fs::remove_file(&name).expect("the file is removed");
    }
}

#[test]
fn the_months_of_a_year_are_exact() {
    let name = format!("{}/hourly.pcapng", env!("CARGO_TARGET_TMPDIR"));
    let kept = write_year(&name, 60);
    let ended = run_total(&[&name, "--group", "2/2/52", "--by", "month"], &[]);
    assert_told(&ended, &kept, "23:00:00");
    assert_months_told(&ended, &kept, 60);
    std::fs::remove_file(&name).expect("the file is removed");
}
