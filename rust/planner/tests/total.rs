//! `klumdray total` as whoever types it meets it: texts, times, months, and what is counted.

#[allow(dead_code)]
#[path = "support/json_reader.rs"]
mod json_reader;
#[allow(dead_code)]
#[path = "support/telegrams.rs"]
mod telegrams;
#[allow(dead_code)]
#[path = "support/tool.rs"]
mod tool;
#[allow(dead_code)]
#[path = "support/totals.rs"]
mod totals;

use json_reader::Value;
use telegrams::{connect_response, datagram, increment, line, request, Telegram};
use tool::klumdray;
use totals::{run_total, total};

const EXAMPLE: &str = "\
group 2/2/52
total 84.02 litres
counted 4 telegrams, 2026-11-16 15:40:35 to 2026-12-01 00:10:00 UTC
repetitions 1
no increment 0
other groups 1
refused 1
   6  1  wrong check octet
";

fn text(frames: &[Vec<u8>]) -> Vec<u8> {
    let lines: Vec<String> = frames.iter().map(|octets| line(octets) + "\n").collect();
    lines.concat().into_bytes()
}

fn object(words: &[&str], file: &[u8]) -> Value {
    let ended = total(&[&["--json"], words].concat(), file);
    let output = &ended.output;
    json_reader::read(output).unwrap_or_else(|| panic!("not JSON: {output}"))
}

#[test]
fn the_example_adds_up() {
    let words = ["total", "examples/meter.txt", "--group", "2/2/52"];
    let ended = klumdray(&words);
    assert_eq!((ended.status, ended.text()), (Some(0), EXAMPLE));
    assert_eq!(ended.errors, "");
    let ended = klumdray(&[&words[..], &["--by", "month", "--offset=-01:00"]].concat());
    let months = "\
month    litres  telegrams
2026-11   84.02          4
total     84.02          4
";
    assert!(ended.text().ends_with(months), "{}", ended.text());
}

#[test]
fn every_kind_of_line_is_counted_by_one_rule() {
    let [first, second] = [increment(0x0c1a), increment(0x0c1b)];
    let frames = [
        first.tp1(),
        first.repeated().cemi(0x29),
        first.repeated().routing(),
        second.routing(),
        second.repeated().tp1(),
        second.tunnelling(7, 3),
        second.tunnelling(7, 3),
        first.to(0x1235).cemi(0x29),
        first.cemi(0x11),
        first.cemi(0x2e),
        Telegram {
            payload: vec![0x00, 0x81],
            ..first.clone()
        }
        .tp1(),
        increment(0x7fff).routing(),
        datagram(0x0421, &[4, 7, 3, 0]),
        datagram(0x0531, &[4, 0, 0, 9]),
        first.tp1()[..7].to_vec(),
        vec![0xcc],
    ];
    let object = object(&[], &text(&frames));
    let expected = [
        ("lines", 16),
        ("total_hundredths", 2_100 + 2 * 2_102),
        ("counted", 3),
        ("without_time", 3),
        ("repetitions", 3),
        ("no_increment", 1),
        ("other_groups", 1),
        ("requests_and_confirmations", 2),
        ("sent_again", 1),
        ("gaps", 0),
        ("refused", 2),
        ("no_kind", 1),
        ("other_services", 2),
        ("lost_messages", 1),
    ];
    for (name, number) in expected {
        assert_eq!(object.number(name), number, "{name}");
    }
    let refusals = r#"[{"number": 1, "count": 1, "words": "fewer octets than the frame needs"},
        {"number": 23, "count": 1, "words": WORDS}]"#;
    let words = klumdray::Refusal::INVALID.words();
    let refusals = refusals.replace("WORDS", &format!("{words:?}"));
    assert_eq!(
        object.get("refusals"),
        json_reader::read(&refusals).as_ref()
    );
    assert_eq!(object.get("broken"), Some(&Value::Null));
}

#[test]
fn lines_are_read_as_the_kind_that_is_given() {
    let file = text(&[increment(0x0c1a).cemi(0x29), increment(0x0c1a).tp1()]);
    assert_eq!(total(&["--cemi"], &file).row("total"), Some("21.00 litres"));
    assert_eq!(object(&["--cemi"], &file).number("refused"), 1);
    assert_eq!(object(&["--routing"], &file).number("refused"), 2);
    assert_eq!(object(&["--tp1"], &file).number("counted"), 1);
    assert_eq!(object(&[], &file).number("counted"), 2);
}

#[test]
fn a_repetition_is_the_frame_directly_before_sent_again() {
    let [first, second] = [increment(0x0c1a), increment(0x0c1b)];
    let cases: [(&[Telegram], u64, u64); 6] = [
        (&[first.clone(), first.repeated(), first.repeated()], 1, 2),
        (&[first.clone(), first.clone()], 2, 0),
        (&[first.clone(), second.repeated()], 2, 0),
        (&[first.clone(), second.clone(), first.repeated()], 3, 0),
        (&[first.clone(), first.to(1), first.repeated()], 2, 0),
        (&[first.repeated()], 1, 0),
    ];
    for (telegrams, counted, repetitions) in cases {
        for form in [Telegram::tp1, Telegram::routing] {
            let frames: Vec<Vec<u8>> = telegrams.iter().map(form).collect();
            let object = object(&[], &text(&frames));
            let told = (object.number("counted"), object.number("repetitions"));
            assert_eq!(told, (counted, repetitions), "{telegrams:?}");
        }
    }
}

#[test]
fn times_are_read_in_every_form() {
    let frame = line(&increment(0x0c1a).tp1());
    let first = |words: &[&str], time: &str| {
        let file = format!("{time} {frame}\n");
        let object = object(words, file.as_bytes());
        object.text("first").to_string()
    };
    let noon = "2026-11-16T15:40:35Z";
    for time in [
        "2026-11-16T15:40:35Z",
        "2026-11-16 15:40:35",
        "2026-11-16 15:40:35Z",
        "2026-11-16T16:40:35+01:00",
        "2026-11-16 12:10:35-03:30",
        "1794843635.0",
        "\u{feff}2026-11-16T15:40:35Z",
    ] {
        assert_eq!(first(&[], time), noon, "{time}");
    }
    let part = "2026-11-16T15:40:35.123456789Z";
    assert_eq!(first(&[], part), part);
    assert_eq!(first(&[], "1794843635.1234567891"), part);
    assert_eq!(first(&[], "1794843635.5"), "2026-11-16T15:40:35.500Z");
    let offset = ["--offset", "+01:00"];
    assert_eq!(
        first(&offset, "2026-11-16 15:40:35"),
        "2026-11-16T15:40:35+01:00"
    );
    assert_eq!(
        first(&offset, "2026-11-16 15:40:35Z"),
        "2026-11-16T16:40:35+01:00"
    );
}

#[test]
fn a_line_that_is_no_frame_ends_the_reading_and_is_named() {
    let frame = line(&increment(0x0c1a).tp1());
    let hex = "two hex digits for each octet of a frame, and nothing or a time before them";
    let time = "a time such as 2026-11-16T15:40:35Z or 1731771635.250";
    let cases = [
        ("hello".to_string(), hex, "'hello'"),
        (format!("0000: {frame}"), hex, "'0000:'"),
        ("BC 4".into(), hex, "'4'"),
        (
            format!("2026-02-30T00:00:00Z {frame}"),
            time,
            "'2026-02-30T00:00:00Z'",
        ),
        (format!("2026-01-01 25:00:00 {frame}"), time, "'2026-01-01'"),
        (format!("1.2.3 {frame}"), time, "'1.2.3'"),
        (
            "2026-01-01 05:00:00".into(),
            "a frame in hex behind the time",
            "the end of the line",
        ),
    ];
    for (faulty, expected, found) in cases {
        let file = format!("# frames\n{frame}\n\n{frame}\n{faulty}\n{frame}\n");
        let ended = total(&[], file.as_bytes());
        assert_eq!(ended.status, 2);
        assert_eq!(ended.row("total"), Some("42.00 litres"));
        assert_eq!(
            ended.row("incomplete:"),
            Some("the file cannot be read on from line 5")
        );
        let said = format!("klumdray: standard input:5: expected {expected}, found {found}\n");
        assert_eq!(ended.errors, said);
        let object = object(&[], file.as_bytes());
        let broken = object.get("broken").expect("where it broke");
        assert_eq!(broken.number("line"), 5);
        assert_eq!(object.number("lines"), 4);
    }
    let ended = total(&[], b"");
    assert_eq!((ended.status, ended.output.as_str()), (2, ""));
    assert!(ended.errors.ends_with("found an empty file\n"));
    let ended = total(&[], b"# nothing was heard\n");
    assert_eq!((ended.status, ended.row("total")), (0, Some("0.00 litres")));
}

#[test]
fn months_add_up_to_the_total() {
    let times = [
        ("2026-10-31T22:30:00Z", 0x0c1a),
        ("2026-10-31T23:30:00Z", 0x0c1b),
        ("2026-11-30T23:00:00Z", 0x87ff),
        ("2027-01-01T00:00:00Z", 0x0001),
        ("", 0x0002),
    ];
    let lines = times.map(|(time, code)| format!("{time} {}\n", line(&increment(code).tp1())));
    let file = lines.concat();
    let ended = total(&["--by", "month", "--start", "-100.5"], file.as_bytes());
    let months = "\
month     litres  telegrams
start    -100.50
2026-10    42.02          2
2026-11    -0.01          1
2027-01     0.01          1
no time     0.02          1
total     -58.46          5
";
    assert!(ended.output.ends_with(months), "{}", ended.output);
    assert_eq!(ended.row("start"), Some("-100.50 litres"));
    assert_eq!(ended.row("total"), Some("-58.46 litres"));
    let ended = total(&["--by=month", "--offset", "+01:00"], file.as_bytes());
    let months = "\
month    litres  telegrams
2026-10   21.00          1
2026-11   21.02          1
2026-12   -0.01          1
2027-01    0.01          1
no time    0.02          1
total     42.04          5
";
    assert!(ended.output.ends_with(months), "{}", ended.output);
    let counted =
        "5 telegrams, 2026-10-31 23:30:00 to 2027-01-01 01:00:00 +01:00, 1 without a time";
    assert_eq!(ended.row("counted"), Some(counted));
    let object = object(&["--by", "month"], file.as_bytes());
    let Some(Value::List(months)) = object.get("months") else {
        panic!("no months");
    };
    let sum: i64 = months
        .iter()
        .map(|month| signed(month, "total_hundredths"))
        .sum();
    assert_eq!(sum, signed(&object, "total_hundredths"));
    assert_eq!(months.len(), 4);
}

fn signed(object: &Value, name: &str) -> i64 {
    match object.get(name) {
        Some(Value::Signed(number)) => *number,
        _ => object.number(name) as i64,
    }
}

#[test]
fn a_sum_past_the_range_is_refused_and_the_total_stays() {
    let file = text(&[
        increment(0x0001).tp1(),
        increment(0x0002).tp1(),
        increment(0x87ff).tp1(),
    ]);
    let ended = total(&["--start", "92233720368547758.06"], &file);
    assert_eq!(ended.row("total"), Some("92,233,720,368,547,758.06 litres"));
    assert_eq!(ended.row("counted"), Some("2 telegrams"));
    assert_eq!(ended.row("refused"), Some("1"));
    assert!(ended.row("  24").is_some_and(|row| row.starts_with(" 1")));
    assert_eq!(ended.status, 0);
    let ended = total(
        &["--start=-92233720368547758.08"],
        &text(&[increment(0xf800).tp1()]),
    );
    assert_eq!(
        ended.row("total"),
        Some("-92,233,720,368,547,758.08 litres")
    );
}

#[test]
fn sessions_in_a_text_are_told_apart_by_channel() {
    let one = increment(0x0c1a);
    let frames = [
        one.tunnelling(1, 255),
        one.tunnelling(1, 0),
        one.tunnelling(1, 0),
        one.tunnelling(2, 9),
        one.tunnelling(1, 5),
        connect_response(2, 0),
        one.tunnelling(2, 9),
        request(2, 10, &one.cemi(0x2e)),
        one.tunnelling(2, 11),
    ];
    let object = object(&[], &text(&frames));
    assert_eq!(object.number("counted"), 6);
    assert_eq!(object.number("sent_again"), 1);
    assert_eq!(object.number("gaps"), 1);
    assert_eq!(object.number("requests_and_confirmations"), 1);
}

#[test]
fn faults_in_the_words_are_told() {
    let group = "--group";
    let cases: [(&[&str], &str); 13] = [
        (
            &[],
            "total: expected a capture or a text of frames, found none",
        ),
        (
            &["a"],
            "total: expected --group and a group, found no --group",
        ),
        (
            &["a", "b", group, "1"],
            "total: expected one file, found 'b'",
        ),
        (
            &["a", group, "2/9/1"],
            "--group: expected a group address such as 2/2/52, 2/564, 4660 or 1234h, found '2/9/1'",
        ),
        (
            &["a", group, "1", "--start", "1.234"],
            "--start: expected litres such as 8760.00, with at most two decimals, found '1.234'",
        ),
        (
            &["a", group, "1", "--by", "week"],
            "--by: expected month, found 'week'",
        ),
        (
            &["a", group, "1", "--offset", "CET"],
            "--offset: expected an offset such as +01:00, found 'CET'",
        ),
        (
            &["a", group, "1", "--way", "0"],
            "--way: expected a way's number, or several as 1,2, found '0'",
        ),
        (
            &["a", group, "1", "--way", "1,1"],
            "--way: expected a way's number, or several as 1,2, found '1,1'",
        ),
        (
            &["a", group, "1", "--port", "0"],
            "--port: expected a UDP port from 1 to 65535, found '0'",
        ),
        (
            &["a", group, "1", "--tp1", "--cemi"],
            "--cemi: expected one kind, found a second",
        ),
        (
            &["-", group, "1", "--port", "1"],
            "--port: expected a capture of packets, found a text",
        ),
        (
            &["-", group, "1", "--way", "1"],
            "--way: expected no way, for none has brought a telegram of the group, found '1'",
        ),
    ];
    for (words, said) in cases {
        let ended = run_total(words, b"# nothing\n");
        assert_eq!(
            (ended.status, ended.errors),
            (2, format!("klumdray: {said}\n"))
        );
    }
    let ended = run_total(&["--help"], &[]);
    assert_eq!((ended.status, ended.errors.as_str()), (0, ""));
    assert!(ended
        .output
        .starts_with("klumdray total FILE --group GROUP"));
}
