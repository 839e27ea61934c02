//! `klumdray trace`, as whoever types it meets it.

#[allow(dead_code)]
#[path = "support/json_reader.rs"]
mod json_reader;
#[path = "support/program.rs"]
mod program;
#[allow(dead_code)]
#[path = "support/tool.rs"]
mod tool;

use json_reader::Value;
use program::program;
use std::fs;
use tool::{klumdray, scratch, Ended};

const PLANT: &str = "examples/plant.site";

/// Runs the command with words that are parted by blanks.
fn trace(words: &str) -> Ended {
    let words: Vec<&str> = ["trace"].into_iter().chain(words.split(' ')).collect();
    klumdray(&words)
}

/// A site's text in a file for one test.
fn site(name: &str, text: &str) -> String {
    let file = scratch(name);
    fs::write(&file, text).expect("a scratch file");
    file
}

fn answered(ended: &Ended) -> &str {
    assert_eq!(ended.errors, "");
    assert_eq!(ended.status, Some(0));
    ended.text()
}

fn object(ended: &Ended) -> Value {
    let text = ended.text();
    assert_eq!(text.lines().count(), 1);
    json_reader::read(text).unwrap_or_else(|| panic!("not JSON: {text}"))
}

/// Looked at line by line: each count, each coupler crossed and each stop is what the plant's text
/// gives by document 01.
#[test]
fn tells_the_plant() {
    for (words, golden) in [
        (
            "--from 4.7 --group 2/2/52 --count 6",
            include_str!("golden/trace-group.txt"),
        ),
        (
            "--from 4.7 --group 2/2/52 --count 3",
            include_str!("golden/trace-count-3.txt"),
        ),
        (
            "--from 2.1 --individual 4.7.0",
            include_str!("golden/trace-own-address.txt"),
        ),
    ] {
        let ended = trace(&format!("{PLANT} {words}"));
        assert_eq!(answered(&ended), golden, "{words}");
        assert!(golden.is_ascii() && golden.lines().all(|row| row.len() <= 100));
    }
}

#[test]
fn takes_six_as_the_count_and_any_form_of_a_group() {
    let golden = include_str!("golden/trace-group.txt");
    for group in ["2/2/52", "2/564", "4660", "1234h"] {
        let ended = trace(&format!("--group={group} {PLANT} --from=4.7"));
        assert_eq!(answered(&ended), golden, "{group}");
    }
}

/// The last line of the first table, the lines between the tables, and the last of all.
fn sums(words: &str) -> Vec<String> {
    let ended = trace(words);
    let is_sum = |row: &&str| row.contains("reached") || row.contains("itself");
    let rows = answered(&ended).lines().filter(is_sum);
    rows.map(String::from).collect()
}

const ARRIVALS: [(&str, &str); 7] = [
    (
        "--from 2.1 --individual 4.7.12",
        "4.7.12 lies on line 4.7, which is reached",
    ),
    (
        "--from 2.1 --individual 4.7.12 --count 3",
        "4.7.12 lies on line 4.7, which is not reached",
    ),
    (
        "--from 2.1 --individual 5.1.12",
        "5.1.12 lies on line 5.1, which is not reached",
    ),
    (
        "--from 2.1 --individual 4.7.0 --count 3",
        "4.7.0 is coupler 4.7 itself: the telegram comes to it",
    ),
    (
        "--from 2.1 --individual 4.7.0 --count 2",
        "4.7.0 lies on line 4.7, which is not reached",
    ),
    (
        "--from 4.7 --individual 4.7.0 --count 0",
        "4.7.0 is coupler 4.7 itself: the telegram comes to it",
    ),
    (
        "--from 4.8 --individual 4.8.0",
        "4.8.0 lies on line 4.8, which is reached",
    ),
];

#[test]
fn says_whether_an_individual_address_is_reached() {
    for (words, expected) in ARRIVALS {
        let sums = sums(&format!("{PLANT} {words}"));
        assert_eq!(sums[1], expected, "{words}");
    }
}

#[test]
fn counts_one_and_many() {
    let empty = site("trace-empty.site", "# No coupler.\n");
    let expected = [
        "1 line reached, 0 forwardings",
        "Every line of the site is reached",
    ];
    assert_eq!(sums(&format!("{empty} --from 0.0 --group 0")), expected);
    let expected = [
        "1 line reached, 0 forwardings",
        "1 line not reached, stopped at 1 place",
    ];
    assert_eq!(sums(&format!("{empty} --from 1.0 --group 0")), expected);
    let one = site("trace-one.site", "coupler 1.0\n both all open\n");
    let expected = [
        "2 lines reached, 1 forwarding",
        "Every line of the site is reached",
    ];
    assert_eq!(sums(&format!("{one} --from 1.0 --group 0")), expected);
}

/// A label out of the columns' width is not cut, and the others keep their columns.
#[test]
fn keeps_the_columns_beside_a_long_label() {
    let long = "the plant room below the stairs of the old building, behind the door";
    let text =
        format!("coupler 1.0 \"{long}\"\n both all open\ncoupler 2.0 \"Süd\"\n both all open\n");
    let file = site("trace-long.site", &text);
    let ended = trace(&format!("{file} --from 1.0 --group 1"));
    let expected = [
        "Line   Label     Count  Crossed".to_string(),
        "0.0    backbone      5        1".into(),
        format!("1.0    {long}      6        0  start"),
        "2.0    Süd           4        2".into(),
        "3 lines reached, 2 forwardings".into(),
    ];
    let rows: Vec<&str> = answered(&ended).lines().skip(3).take(5).collect();
    assert_eq!(rows, expected);
}

const QUERY: &str = r#"{"from": "4.7", "kind": "group", "destination": "2/2/52",
    "destination_number": 4660, "count": 3}"#;

/// A list of the object, a place in it, and what stands there.
const MEMBERS: [(&str, usize, &str); 4] = [
    (
        "lines",
        0,
        r#"{"line": "0.0", "label": "backbone", "count": 1, "crossed": 2}"#,
    ),
    (
        "not_reached",
        0,
        r#"{"line": "2.1", "label": "head station", "coupler": "2.1", "direction": "down",
            "reason": "count_used_up", "words": "count used up"}"#,
    ),
    (
        "not_reached",
        3,
        r#"{"line": "3.1", "label": "pumps", "coupler": "3.0", "direction": "down",
            "reason": "not_in_table", "words": "group 2/2/52 not in its table"}"#,
    ),
    (
        "not_reached",
        5,
        r#"{"line": "5.0", "label": null, "coupler": "5.0", "direction": "down",
            "reason": "not_fitted", "words": "no coupler fitted"}"#,
    ),
];

#[test]
fn answers_scripts() {
    let ended = trace(&format!(
        "{PLANT} --from 4.7 --group 2/2/52 --count 3 --json"
    ));
    answered(&ended);
    let object = object(&ended);
    assert_eq!(object.text("file"), PLANT);
    assert_eq!(object.text("title"), "Heating plant");
    assert_eq!(object.get("query"), json_reader::read(QUERY).as_ref());
    assert_eq!(object.number("forwardings"), 4);
    for (list, place, expected) in MEMBERS {
        assert_eq!(
            rows(&object, list).get(place),
            json_reader::read(expected).as_ref()
        );
    }
}

fn rows<'a>(object: &'a Value, name: &str) -> &'a [Value] {
    match object.get(name) {
        Some(Value::List(rows)) => rows,
        other => panic!("{name} is no list but {other:?}"),
    }
}

const REASONS: [(&str, &str, &str); 7] = [
    ("--from 2.1 --individual 4.7.0", "4.7", "own_address"),
    ("--from 2.1 --individual 4.7.0", "2.2", "not_below"),
    ("--from 4.7 --individual 4.9.1", "0.0", "not_above"),
    ("--from 4.7 --group 2/2/52", "2.2", "closed"),
    ("--from 4.7 --group 2/2/52", "4.1", "not_in_table"),
    ("--from 4.7 --group 2/2/52", "5.1", "not_fitted"),
    (
        "--from 4.7 --group 2/2/52 --count 0",
        "4.0",
        "count_used_up",
    ),
];

#[test]
fn names_each_reason_for_scripts() {
    for (words, line, reason) in REASONS {
        let object = object(&trace(&format!("{PLANT} --json {words}")));
        let mut stops = rows(&object, "not_reached").iter();
        let stop = stops.find(|stop| stop.text("line") == line);
        assert_eq!(stop.expect("a stop").text("reason"), reason, "{words}");
    }
}

#[test]
fn escapes_what_scripts_read() {
    let file = site(
        "trace-words.site",
        "site \"a\\b \u{e9}\"\ncoupler 1.0 \"\\\"\n both all open\n",
    );
    let object = object(&trace(&format!(
        "{file} --from 1.0 --individual 1.0.1 --json"
    )));
    assert_eq!(object.text("title"), "a\\b \u{e9}");
    let untitled = site("trace-untitled.site", "");
    let object =
        json_reader::read(trace(&format!("{untitled} --from 1.0 --group 0 --json")).text());
    assert_eq!(object.expect("JSON").get("title"), Some(&Value::Null));
}

const TWICE: &str = "\
coupler 4.0
    both all open

coupler 4.7
    both all open
coupler 4.7
    both all open
";

#[test]
fn tells_a_refused_site() {
    let file = site("trace-twice.site", TWICE);
    let ended = trace(&format!("{file} --from 4.7 --group 2/2/52"));
    let because = "a second coupler 4.7; the first stands at line 4 of the file";
    let message = format!("klumdray: {file}:6: refused 17: one line twice in a site: {because}\n");
    assert_eq!((ended.status, ended.text()), (Some(1), ""));
    assert_eq!(ended.errors, message);

    let ended = trace(&format!("{file} --from 4.7 --group 2/2/52 --json"));
    assert_eq!((ended.status, ended.errors.as_str()), (Some(1), ""));
    let members = [
        ("refused", Value::Number(17)),
        ("words", Value::Text("one line twice in a site".into())),
        ("file", Value::Text(file)),
        ("line", Value::Number(6)),
        ("because", Value::Text(because.into())),
    ];
    let members = members.map(|(name, value)| (name.into(), value));
    assert_eq!(object(&ended), Value::Object(members.into()));
}

#[test]
fn draws_nothing_of_a_refused_site() {
    let file = site("trace-zero.site", "coupler 0.0\n both all open\n");
    let picture = scratch("trace-zero.svg");
    let ended = trace(&format!("{file} --from 4.7 --group 1 --picture {picture}"));
    assert_eq!((ended.status, ended.text()), (Some(1), ""));
    assert!(
        ended.errors.contains(":1: refused 15: "),
        "{}",
        ended.errors
    );
    assert!(fs::metadata(picture).is_err());
}

/// Words of the command, and what is said of them.
const WORDS: [(&str, &str); 14] = [
    ("--from 4.7 --group 1", "trace: expected a site's file, found none"),
    ("a b --from 4.7 --group 1", "trace: expected one site's file, found 'b'"),
    ("a --group 1", "trace: expected --from and a line, found no --from"),
    ("a --from 4.7", "trace: expected --group or --individual, found neither"),
    (
        "a --from 4.7 --group 1 --individual 1.1.1",
        "trace: expected either --group or --individual, found both",
    ),
    (
        "a --from 4.16 --group 1",
        "--from: expected a line such as 4.7, area and line from 0 to 15, found '4.16'",
    ),
    (
        "a --group 1 --from",
        "--from: expected a line such as 4.7, area and line from 0 to 15, found the end of the command",
    ),
    (
        "a --from 4.7 --group 2/8/1",
        "--group: expected a group address such as 2/2/52, 2/564, 4660 or 1234h, found '2/8/1'",
    ),
    (
        "a --from 4.7 --individual 4.7",
        "--individual: expected an individual address such as 4.7.12, found '4.7'",
    ),
    (
        "a --from 4.7 --group 1 --count 8",
        "--count: expected a count from 0 to 7, found '8'",
    ),
    (
        "a --from 4.7 --group 1 --count +6",
        "--count: expected a count from 0 to 7, found '+6'",
    ),
    (
        "a --from 4.7 --group 1 --octets --json",
        "--octets: expected nothing but the octets asked for, found --json",
    ),
    (
        "a --from 4.7 --group 1 --octets --picture b.svg",
        "--octets: expected nothing but the octets asked for, found --picture",
    ),
    (
        "a --from 4.7 --group 1 --picture",
        "--picture: expected a file to write the picture to, found the end of the command",
    ),
];

fn assert_faulty(words: &str, message: &str) {
    let ended = trace(words);
    assert_eq!((ended.status, ended.text()), (Some(2), ""), "{words}");
    assert_eq!(ended.errors, format!("klumdray: {message}\n"), "{words}");
}

#[test]
fn says_what_was_expected_of_its_words() {
    for (words, message) in WORDS {
        assert_faulty(words, message);
    }
}

#[test]
fn says_what_was_expected_of_its_files() {
    let asked = "--from 4.7 --group 1";
    let found = "No such file or directory (os error 2)";
    let missing = scratch("trace-missing.site");
    let message = format!("{missing}: expected a site's file, found {found}");
    for form in ["", " --json", " --octets"] {
        assert_faulty(&format!("{missing} {asked}{form}"), &message);
    }
    let nowhere = scratch("trace-nowhere/out.svg");
    let expected = "expected a file to write the picture to";
    let message = format!("{nowhere}: {expected}, found {found}");
    assert_faulty(&format!("{PLANT} {asked} --picture {nowhere}"), &message);
    let own = site("trace-own.site", "# Not a picture.\n");
    let message = format!("{own}: {expected}, found the site's own file");
    assert_faulty(&format!("{own} {asked} --picture {own}"), &message);
    assert_eq!(fs::read(own).expect("the site"), b"# Not a picture.\n");
    let broken = site("trace-broken.site", "coupler 4.7\n both all opne\n");
    let message = format!("{broken}:2: expected 'closed', 'filter' or 'open', found 'opne'");
    for form in ["", " --json", " --octets"] {
        assert_faulty(&format!("{broken} {asked}{form}"), &message);
    }
}

#[test]
fn draws_beside_the_table() {
    let picture = scratch("trace-plant.svg");
    let ended = trace(&format!(
        "{PLANT} --from 4.7 --group 2/2/52 --picture {picture}"
    ));
    assert_eq!(answered(&ended), include_str!("golden/trace-group.txt"));
    let svg = fs::read_to_string(picture).expect("the picture");
    assert!(svg.starts_with("<svg ") && svg.trim_end().ends_with("</svg>"));
}

#[test]
fn helps() {
    for words in ["--help", "-h", "a --from 4.7 --help"] {
        let ended = trace(words);
        let help = answered(&ended);
        for option in [
            "SITE",
            "--from",
            "--group",
            "--individual",
            "--count",
            "--picture",
            "--json",
            "--octets",
        ] {
            assert!(help.contains(option), "{option}");
        }
        assert!(help.lines().all(|row| row.len() <= 100));
    }
}

/// Where the program cannot answer as the tool does, the tool says so.
#[test]
fn notes_what_the_program_refuses() {
    let ended = trace(&format!("{PLANT} --from 4.7 --group 2/2/52 --octets"));
    let note =
        "coupler 2.0 names a filter table; the program 'trace' has none and refuses that by 18";
    assert_eq!(
        (ended.status, ended.errors),
        (Some(0), format!("klumdray: note: {note}\n"))
    );
    assert_eq!(ended.output[..6], [0x47, 0x01, 0x12, 0x34, 0x06, 0x43]);
    assert_eq!(program(&ended.output).text(), "refused 18\n");

    let couplers =
        (1..=256).map(|n| format!("coupler {}.{}\n both all open\n", n / 16 % 16, n % 16));
    let file = site("trace-256.site", &couplers.collect::<String>());
    let ended = trace(&format!("{file} --from 4.7 --group 2/2/52 --octets"));
    let note = "klumdray: note: 256 couplers; the program 'trace' refuses more than 255 by 5";
    let refusal = format!("klumdray: {file}:511: refused 15: ");
    let (first, second) = ended.errors.split_once('\n').expect("two lines");
    assert_eq!((ended.status, first), (Some(1), note));
    assert!(second.starts_with(&refusal), "{second}");
    assert_eq!(program(&ended.output).text(), "refused 5\n");
}
