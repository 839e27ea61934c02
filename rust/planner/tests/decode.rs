//! `klumdray decode`, as whoever types it meets it.

#[path = "support/frames.rs"]
mod frames;
#[path = "support/json_reader.rs"]
mod json_reader;
#[allow(dead_code)]
#[path = "../../klumdray/tests/support/rows.rs"]
mod rows;

use inputs::{seed, Generator};
use json_reader::Value;
use planner::commands::{run, Streams};
use planner::frame::Kind;
use planner::hex;
use rows::{spaced, Question, SOURCES};
use std::fs;
use std::io::Write;
use std::path::PathBuf;
use std::process::{Command, Stdio};

/// How a command ended and what it wrote.
#[derive(Debug, PartialEq)]
struct Ended {
    status: u8,
    output: String,
    errors: String,
}

fn ended(status: u8, output: &[u8], errors: &[u8]) -> Ended {
    let text = |octets: &[u8]| String::from_utf8(octets.to_vec()).expect("texts are UTF-8");
    Ended {
        status,
        output: text(output),
        errors: text(errors),
    }
}

/// The command, without a process of its own.
fn decode(words: &[&str], mut input: &[u8]) -> Ended {
    let words = ["decode"].iter().chain(words).map(|word| word.to_string());
    let words: Vec<String> = words.collect();
    let (mut output, mut errors) = (Vec::new(), Vec::new());
    let mut streams = Streams {
        input: &mut input,
        output: &mut output,
        errors: &mut errors,
    };
    let status = run(&words, &mut streams).expect("a room that grows takes all");
    ended(status as u8, &output, &errors)
}

/// The program itself.
fn program(words: &[&str], input: &[u8]) -> Ended {
    let mut process = Command::new(env!("CARGO_BIN_EXE_planner"))
        .arg("decode")
        .args(words)
        .stdin(Stdio::piped())
        .stdout(Stdio::piped())
        .stderr(Stdio::piped())
        .spawn()
        .expect("the program starts");
    let mut stdin = process.stdin.take().expect("its standard input");
    let input = input.to_vec();
    let writer = std::thread::spawn(move || {
        // A program that was given HEX does not read, and may have ended.
        let _ = stdin.write_all(&input);
    });
    let done = process.wait_with_output().expect("the program ends");
    writer.join().expect("the input is written");
    let status = done.status.code().expect("the program is not killed");
    ended(status as u8, &done.stdout, &done.stderr)
}

/// A file for one test, which is removed at its end.
struct Scratch(PathBuf);

impl Scratch {
    fn new(name: &str, octets: &[u8]) -> Scratch {
        let path = PathBuf::from(env!("CARGO_TARGET_TMPDIR")).join(name);
        fs::write(&path, octets).expect("a file is written");
        Scratch(path)
    }

    fn name(&self) -> &str {
        self.0.to_str().expect("the target's directory is UTF-8")
    }
}

impl Drop for Scratch {
    fn drop(&mut self) {
        let _ = fs::remove_file(&self.0);
    }
}

fn objects(text: &str) -> Vec<Value> {
    let read = |line| json_reader::read(line).unwrap_or_else(|| panic!("not JSON: {line}"));
    text.lines().map(read).collect()
}

const P1: &str = "BC 00 00 12 34 B4 00 80 56 78 9A E5";
const P2: &str = "BC 00 00 12 34 B4 00 80 56 78 9A E4";
const P7: &str = "06 10 05 30 00 14 29 00 BC C0 00 00 12 34 04 00 80 56 78 9A";
/// Document 001, 5.2.2 and 5.2.3.
const REQUEST: &str = "06 10 04 20 00 18 04 01 00 00 29 00 BC E0 11 FD 12 34 04 00 80 56 78 9A";
const ACKNOWLEDGEMENT: &str = "06 10 04 21 00 0A 04 01 09 00";

/// What the command writes of document 01's telegrams, and of 001's in a tunnel: words, status, text.
const GOLDEN: [(&[&str], u8, &str); 12] = [
    (
        &[P1],
        0,
        "\
TP1 frame, 12 octets
  octets        BC 00 00 12 34 B4 00 80 56 78 9A E5
  format        standard
  repeat flag   1, first sending
  priority      11, low
  source        0.0.0, 0000h
  AT            1, group address
  destination   2/2/52, 1234h
  hop count     3
  LG            4
  payload       00 80 56 78 9A
  check octet   E5h
",
    ),
    (
        &[P2],
        1,
        "\
read as TP1, refused 6: wrong check octet
   0  BC 00 00 12 34 B4 00 80 56 78 9A E4
                                       ^^
  octet 11: E4h, expected E5h
",
    ),
    (
        &["--tp1", ""],
        1,
        "\
read as TP1, refused 1: fewer octets than the frame needs
   0
      ^^
  0 octets, expected at least 8 octets
",
    ),
    (
        &["--tp1", "CC"],
        1,
        "\
read as TP1, refused 2: TP1 control octet of another kind
   0  CC
      ^^
  octet 0: CCh (11001100, acknowledgement), expected the bits x0x1xx00
",
    ),
    (
        &["34 E1 AF FE 00 00 00"],
        1,
        "\
read as TP1, refused 3: EFF not 0000
   0  34 E1 AF FE 00 00 00
         ^^
  octet 1: E1h, expected E0h
",
    ),
    (
        &["34 60 AF FE FF 00 FF"],
        1,
        "\
read as TP1, refused 4: LG octet 255
   0  34 60 AF FE FF 00 FF
                        ^^
  octet 6: FFh, expected 00h to FEh
",
    ),
    (
        &[P7],
        0,
        "\
routing datagram, 20 octets
  octets        06 10 05 30 00 14 29 00 BC C0 00 00 12 34 04 00
                80 56 78 9A
  service       0530h, ROUTING_INDICATION
  total length  20
  message code  29h, L_Data indication
  error mark    0, read in a confirmation only
  information   none, a is 0
  format        standard
  repeat flag   1, first sending
  priority      11, low
  source        0.0.0, 0000h
  AT            1, group address
  destination   2/2/52, 1234h
  hop count     4
  LG            4
  payload       00 80 56 78 9A
",
    ),
    (
        &[REQUEST],
        0,
        "\
tunnelling request, 24 octets
  octets        06 10 04 20 00 18 04 01 00 00 29 00 BC E0 11 FD
                12 34 04 00 80 56 78 9A
  service       0420h, TUNNELLING_REQUEST
  total length  24
  channel       1
  counter       0
  message code  29h, L_Data indication
  error mark    0, read in a confirmation only
  information   none, a is 0
  format        standard
  repeat flag   1, first sending
  priority      11, low
  source        1.1.253, 11FDh
  AT            1, group address
  destination   2/2/52, 1234h
  hop count     6
  LG            4
  payload       00 80 56 78 9A
",
    ),
    (
        &[ACKNOWLEDGEMENT],
        0,
        "\
tunnelling acknowledgement, 10 octets
  octets        06 10 04 21 00 0A 04 01 09 00
  service       0421h, TUNNELLING_ACK
  total length  10
  channel       1
  counter       9
  status        00h, no error
",
    ),
    (
        &["06 10 04 20 00 0B 06 01 00 00 29"],
        1,
        "\
read as tunnelling request, refused 19: connection header's first octet not 04h
   0  06 10 04 20 00 0B 06 01 00 00 29
                        ^^
  octet 6: 06h, expected 04h
",
    ),
    (
        &["CC"],
        1,
        "\
neither TP1 nor cEMI nor routing nor tunnelling
   0  CC
  read as TP1, refused 2: TP1 control octet of another kind
    octet 0: CCh (11001100, acknowledgement), expected the bits x0x1xx00
  read as cEMI, refused 7: message code not 11h, 2Eh, 29h; in routing, not 29h
    octet 0: CCh, expected 11h, 2Eh or 29h
  read as routing, refused 1: fewer octets than the frame needs
    1 octet, expected at least 16 octets
  read as tunnelling request, refused 1: fewer octets than the frame needs
    1 octet, expected at least 20 octets
  read as tunnelling acknowledgement, refused 1: fewer octets than the frame needs
    1 octet, expected 10 octets
",
    ),
    (
        &["2E 02 03 00 9D 60 11 01 47 00 01 00 81"],
        0,
        "\
cEMI message, 13 octets
  octets        2E 02 03 00 9D 60 11 01 47 00 01 00 81
  message code  2Eh, L_Data confirmation
  error mark    1, error
  information   03 00
  format        standard
  repeat flag   0, repeated
  priority      11, low
  source        1.1.1, 1101h
  AT            0, individual address
  destination   4.7.0, 4700h
  hop count     6
  LG            1
  payload       00 81
",
    ),
];

#[test]
fn golden_paragraphs() {
    for (words, status, output) in GOLDEN {
        let expected = ended(status, output.as_bytes(), b"");
        assert_eq!(decode(words, b""), expected);
        assert_eq!(program(words, b""), expected);
    }
}

/// Fields that the golden paragraphs have in one state alone.
#[test]
fn fields_in_words() {
    let cases: [(&str, &[&str]); 6] = [
        (
            "B0 AF FE 00 00 E1 01 00 FE",
            &[
                "priority      00, system",
                "source        10.15.254, AFFEh",
                "destination   0/0/0, broadcast, 0000h",
            ],
        ),
        (
            "11 00 34 E0 11 01 FF FF 00 00",
            &[
                "message code  11h, L_Data request",
                "error mark    0, read in a confirmation only",
                "format        extended",
                "repeat flag   1, asks for repetitions",
                "priority      01, normal",
                "destination   31/7/255, FFFFh",
            ],
        ),
        (
            "11 00 99 70 11 01 00 00 00 00",
            &[
                "error mark    0, read in a confirmation only",
                "repeat flag   0, asks for no repetitions",
                "priority      10, urgent",
                "destination   0.0.0, 0000h",
                "hop count     7",
                "LG            0",
            ],
        ),
        (
            "2E 00 B0 80 11 01 08 00 00 00",
            &[
                "error mark    0, no error",
                "repeat flag   1, first sending",
                "destination   1/0/0, 0800h",
                "hop count     0",
            ],
        ),
        ("29 00 90 80 11 01 08 00 00 00", &["repeat flag   0, repeated"]),
        (
            "29 12 00 01 02 03 04 05 06 07 08 09 0A 0B 0C 0D 0E 0F 10 11 BC E0 00 00 12 34 00 00",
            &["information   00 01 02 03 04 05 06 07 08 09 0A 0B 0C 0D 0E 0F\n                10 11\n"],
        ),
    ];
    for (octets, fields) in cases {
        let ended = decode(&[octets], b"");
        assert_eq!(ended.status, 0);
        for field in fields {
            let line = format!("\n  {}\n", field.trim_end());
            assert!(ended.output.contains(&line), "{field}: {}", ended.output);
        }
    }
}

/// Each refusal's place, as its last line says it.
#[test]
fn places_in_words() {
    let long = format!("29 00 3C E0 00 00 12 34 40 {}", "AA ".repeat(80));
    let cases: [(&str, &str); 17] = [
        ("BC 00 00 12 34 B4 00", "  7 octets, expected 12 octets"),
        (
            "B0 AF FE 00 00 E1 01 00 FE 00",
            "  octet 9: 1 octet left, expected the end of the frame",
        ),
        (
            &long,
            "  octets 74 to 88: 15 octets left, expected the end of the frame",
        ),
        ("29 FF", "  octet 1: FFh, expected 00h to FEh"),
        (
            "29 00 BC E0 00 00 12 34 10 00",
            "  octet 8: 10h, expected 00h to 0Fh",
        ),
        ("06 10 05 30 00 07 11", "  octet 6: 11h, expected 29h"),
        (
            "06 10 02 01 00 06",
            "    octets 2 to 3: 02h 01h, expected 04h 21h",
        ),
        (
            "06 10 05 30 00 07",
            "  octets 4 to 5: 00h 07h, expected 00h 06h, the datagram's 6 octets",
        ),
        (
            "06 10 05 30 00 06",
            "  6 octets, expected at least 16 octets",
        ),
        ("06 10 05", "  3 octets, expected at least 16 octets"),
        ("06 10 04", "    3 octets, expected 10 octets"),
        ("06 10 04 20", "  4 octets, expected at least 20 octets"),
        (
            "06 10 04 20 00 0B 04 01 00 00 2B",
            "  octet 10: 2Bh, expected 11h, 2Eh or 29h",
        ),
        (
            "06 10 04 20 00 0C 04 01 00 00 29 FF",
            "  octet 11: FFh, expected 00h to FEh",
        ),
        (
            "06 10 04 21 00 09 04 01 00",
            "  9 octets, expected 10 octets",
        ),
        (
            "06 10 04 21 00 0A 05 01 00 00",
            "  octet 6: 05h, expected 04h",
        ),
        (
            "06 10 04 21 00 0C 04 01 00 00 00 00",
            "  octets 10 to 11: 2 octets left, expected the end of the frame",
        ),
    ];
    for (octets, last) in cases {
        let ended = decode(&[octets], b"");
        assert_eq!((ended.status, ended.output.lines().last()), (1, Some(last)));
    }
}

/// Which statuses have a name, in words and for scripts.
#[test]
fn statuses_of_acknowledgements() {
    let named = [
        (0x00, "no error"),
        (0x21, "connection id"),
        (0x22, "connection type"),
        (0x23, "connection option"),
        (0x24, "no more connections"),
        (0x25, "no more unique connections"),
        (0x27, "KNX connection"),
        (0x29, "tunnelling layer"),
    ];
    for status in 0..=255 {
        let octets = format!("06 10 04 21 00 0A 04 FF 80 {status:02X}");
        let name = named.iter().find(|(octet, _)| *octet == status);
        let words = name.map_or(String::new(), |(_, words)| format!(", {words}"));
        let text = decode(&[&octets], b"").output;
        let last = text.lines().last().map(String::from);
        assert_eq!(last, Some(format!("  status        {status:02X}h{words}")));
        let words = name.map_or("null".into(), |(_, words)| format!("\"{words}\""));
        let end = format!(
            r#""channel": 255, "counter": 128, "status": {status}, "status_words": {words}}}"#
        );
        let record = decode(&["--json", &octets], b"").output;
        assert!(record.trim_end().ends_with(&end), "{record}");
    }
}

/// The mark stands under the octets that the place names, in rows of 16.
#[test]
fn marks_in_the_second_row_and_behind() {
    let surplus = format!("BC 00 00 12 34 B4 00 80 56 78 9A E5 {}", "11 ".repeat(8));
    assert_eq!(
        decode(&[&surplus], b"").output,
        "\
read as TP1, refused 5: octets left after the frame
   0  BC 00 00 12 34 B4 00 80 56 78 9A E5 11 11 11 11 ..
                                          ^^ ^^ ^^ ^^
  octets 12 to 19: 8 octets left, expected the end of the frame
"
    );
    let check = format!("3C E0 00 00 12 34 28 {} 00", "00 ".repeat(41));
    assert_eq!(
        decode(&[&check], b"").output,
        "\
read as TP1, refused 6: wrong check octet
   0  3C E0 00 00 12 34 28 00 00 00 00 00 00 00 00 00
      ..
  48  00
      ^^
  octet 48: 00h, expected 2Dh
"
    );
    let missing = format!("BC 00 00 12 34 BF {}", "00 ".repeat(10));
    assert_eq!(
        decode(&[&missing], b"").output,
        "\
read as TP1, refused 1: fewer octets than the frame needs
   0  BC 00 00 12 34 BF 00 00 00 00 00 00 00 00 00 00
  16
      ^^
  16 octets, expected 23 octets
"
    );
}

/// A row of tests/telegrams as an accepted frame of JSON says it.
fn row_text(object: &Value) -> String {
    let tunnel = match object.get("channel") {
        None => String::new(),
        Some(_) => format!(
            "channel {} counter {} ",
            object.number("channel"),
            object.number("counter")
        ),
    };
    if object.get("status").is_some() {
        return format!("{tunnel}status {:02X}", object.number("status"));
    }
    let message = match object.get("message") {
        None => String::new(),
        Some(_) => match (object.text("message"), object.flag("error_mark")) {
            ("confirmation", mark) => format!("confirmation error {} ", u8::from(mark)),
            (message, mark) => {
                assert!(!mark);
                format!("{message} ")
            }
        },
    };
    let word = |name, yes, no| if object.flag(name) { yes } else { no };
    let payload = hex::read(object.text("payload")).expect("hex digits");
    format!(
        "{tunnel}{message}{} {} priority {} source {:04X} {} {:04X} count {} payload {}",
        object.text("format"),
        word("first_sending", "first", "repeated"),
        object.number("priority"),
        object.number("source_number"),
        word("group", "group", "individual"),
        object.number("destination_number"),
        object.number("count"),
        spaced(&payload)
    )
}

fn flag(kind: Kind) -> String {
    format!("--{}", kind.token().replace('_', "-"))
}

fn told_text(object: &Value) -> String {
    match object.number("refusal") {
        0 => row_text(object),
        number => format!("refused {number}"),
    }
}

/// The sources' examples, a file of frames for each kind, say what the rows say.
#[test]
fn sources_examples() {
    let rows: Vec<rows::Row> = SOURCES.into_iter().flat_map(rows::rows).collect();
    let mut compared = 0;
    for kind in Kind::ALL {
        let of_kind = rows.iter().filter_map(|row| match (kind, &row.question) {
            (Kind::Tp1, Question::Tp1(octets)) => Some((row, octets)),
            (Kind::Cemi, Question::Cemi(octets)) => Some((row, octets)),
            (Kind::Routing, Question::Routing(octets)) => Some((row, octets)),
            (Kind::Request, Question::Request(octets)) => Some((row, octets)),
            (Kind::Acknowledgement, Question::Acknowledgement(octets)) => Some((row, octets)),
            _ => None,
        });
        let of_kind: Vec<_> = of_kind.collect();
        let lines: Vec<String> = of_kind.iter().map(|(_, octets)| spaced(octets)).collect();
        let input = lines.join("\n");
        assert!(!of_kind.is_empty(), "{}", kind.name());
        let forced = decode(&["--json", &flag(kind)], input.as_bytes());
        let alone = decode(&["--json", "-"], input.as_bytes());
        let answers = objects(&forced.output)
            .into_iter()
            .zip(objects(&alone.output));
        assert_eq!(answers.len(), of_kind.len());
        for (place, ((row, octets), (forced, alone))) in of_kind.iter().zip(answers).enumerate() {
            assert_eq!(told_text(&forced), row.text, "{}", row.name);
            assert_eq!(forced.number("line"), place as u64 + 1);
            assert_eq!(forced.text("octets"), hex::joined(octets));
            if row.number() == 0 {
                assert_eq!(alone, forced, "{}", row.name);
            }
            compared += 1;
        }
    }
    assert!(compared > 400, "{compared} rows");
}

/// The very lines that scripts read.
#[test]
fn golden_objects() {
    let cases: [(&[&str], &str); 6] = [
        (
            &["BC 11 01 12 34 E1 00 81 15"],
            r#"{"octets": "bc11011234e1008115", "kind": "tp1", "refusal": 0, "format": "standard", "first_sending": true, "priority": 3, "source": "1.1.1", "source_number": 4353, "group": true, "destination": "2/2/52", "destination_number": 4660, "count": 6, "payload": "0081"}"#,
        ),
        (
            &["2E 02 03 00 1D 60 11 01 47 00 01 00 81"],
            r#"{"octets": "2e0203001d6011014700010081", "kind": "cemi", "refusal": 0, "format": "extended", "first_sending": false, "priority": 3, "source": "1.1.1", "source_number": 4353, "group": false, "destination": "4.7.0", "destination_number": 18176, "count": 6, "payload": "0081", "message": "confirmation", "error_mark": true, "information": "0300"}"#,
        ),
        (
            &[P2],
            r#"{"octets": "bc00001234b4008056789ae4", "kind": "tp1", "refusal": 6, "words": "wrong check octet", "place": 11, "expected": "E5h"}"#,
        ),
        (
            &["cc"],
            r#"{"octets": "cc", "kind": null, "refusal": null, "words": "neither TP1 nor cEMI nor routing nor tunnelling", "place": null, "expected": null, "refusals": {"tp1": 2, "cemi": 7, "routing": 1, "tunnelling_request": 1, "tunnelling_ack": 1}}"#,
        ),
        (
            &[REQUEST],
            r#"{"octets": "061004200018040100002900bce011fd123404008056789a", "kind": "tunnelling_request", "refusal": 0, "channel": 1, "counter": 0, "format": "standard", "first_sending": true, "priority": 3, "source": "1.1.253", "source_number": 4605, "group": true, "destination": "2/2/52", "destination_number": 4660, "count": 6, "payload": "008056789a", "message": "indication", "error_mark": false, "information": ""}"#,
        ),
        (
            &[ACKNOWLEDGEMENT],
            r#"{"octets": "06100421000a04010900", "kind": "tunnelling_ack", "refusal": 0, "channel": 1, "counter": 9, "status": 0, "status_words": "no error"}"#,
        ),
    ];
    for (words, line) in cases {
        let ended = decode(&[words, &["--json"]].concat(), b"");
        assert_eq!(ended.output, format!("{line}\n"));
    }
}

const FRAMES: &str = "\
# frames of a morning

BC 00 00 12 34 B4 00 80 56 78 9A E5   # P1
0xB0 0xAF 0xFE 0x00 0x00 0xE1 0x01 0x00 0xFE
BC AFE
b0:af-fe 0000 e1 0100 ff\r
what?
";

const FAULTS: &str = "\
klumdray: NAME:5: expected two hex digits for each octet, found 'AFE'
klumdray: NAME:7: expected two hex digits for each octet, found 'what?'
";

#[test]
fn files_and_standard_input() {
    let file = Scratch::new("frames of a morning", FRAMES.as_bytes());
    let answers = decode(&[file.name()], b"");
    assert_eq!(answers.errors, FAULTS.replace("NAME", file.name()));
    assert_eq!(answers.status, 2);
    let headings: Vec<&str> = answers
        .output
        .split("\n\n")
        .map(|paragraph| paragraph.lines().next().unwrap_or(""))
        .collect();
    let expected = [
        "line 3: TP1 frame, 12 octets",
        "line 4: TP1 frame, 9 octets",
        "line 6: read as TP1, refused 6: wrong check octet",
    ];
    assert_eq!(headings, expected);
    for words in [&["-"][..], &[]] {
        let typed = decode(words, FRAMES.as_bytes());
        assert_eq!(typed.output, answers.output);
        assert_eq!(typed.errors, FAULTS.replace("NAME", "standard input"));
        assert_eq!(typed, program(words, FRAMES.as_bytes()));
    }
    for words in [&["--file", file.name()][..], &["--", file.name()]] {
        assert_eq!(decode(words, b""), answers);
        assert_eq!(program(words, b""), answers);
    }
    let lines: Vec<u64> = objects(&decode(&["--json", file.name()], b"").output)
        .iter()
        .map(|object| object.number("line"))
        .collect();
    assert_eq!(lines, [3, 4, 6]);
}

/// A file whose name reads as HEX is read by `--file` alone.
#[test]
fn a_file_with_a_hex_name() {
    let file = Scratch::new("cafe", b"CC");
    let inside = |words: &[&str]| {
        let directory = file.0.parent().expect("the file lies in a directory");
        let done = Command::new(env!("CARGO_BIN_EXE_planner"))
            .current_dir(directory)
            .args(["decode", "--json"])
            .args(words)
            .output()
            .expect("the program runs");
        let output = String::from_utf8(done.stdout).expect("texts are UTF-8");
        objects(&output)[0].text("octets").to_string()
    };
    assert_eq!(inside(&["cafe"]), "cafe");
    assert_eq!(inside(&["--file", "cafe"]), "cc");
}

#[test]
fn hex_in_any_form() {
    let expected = decode(&[P1], b"");
    let forms: [&[&str]; 7] = [
        &[
            "BC", "00", "00", "12", "34", "B4", "00", "80", "56", "78", "9A", "E5",
        ],
        &["bc00001234b4008056789ae5"],
        &["0xbc00001234b4008056789ae5"],
        &["BC:00:00:12:34:B4:00:80:56:78:9A:E5"],
        &["bc-00-00-12-34-b4-00-80-56-78-9a-e5"],
        &["0xBC", "0X00", "0x00", "1234", "B4", "00-80:56", "789AE5"],
        &["BC 0000 1234", "B4", "0080 56789A", "E5"],
    ];
    for words in forms {
        assert_eq!(decode(words, b""), expected, "{words:?}");
    }
}

/// What cannot be read: words, what standard error says.
#[test]
fn faults() {
    let cases: [(&[&str], &str); 14] = [
        (
            &["BC0"],
            "HEX: expected two hex digits for each octet, found 'BC0'",
        ),
        (
            &["BC", "0"],
            "HEX: expected two hex digits for each octet, found '0'",
        ),
        (
            &["BC", "0G"],
            "HEX: expected two hex digits for each octet, found '0G'",
        ),
        (
            &["BC::00"],
            "HEX: expected two hex digits for each octet, found 'BC::00'",
        ),
        (
            &["0x"],
            "HEX: expected two hex digits for each octet, found '0x'",
        ),
        (
            &["a.txt", "b.txt"],
            "HEX: expected two hex digits for each octet, found 'a.txt'",
        ),
        (
            &["no/such/file"],
            "no/such/file: expected hex digits or a file of frames, found ",
        ),
        (
            &["--file", "no/such/file"],
            "no/such/file: expected a file of frames, found ",
        ),
        (
            &["--file"],
            "--file: expected a file's name, found the end of the command",
        ),
        (
            &["--file", "frames", "BC"],
            "--file: expected nothing beside it, found 'BC'",
        ),
        (
            &["--tp1", "--cemi", "BC"],
            "--cemi: expected one kind, found a second",
        ),
        (
            &["--json=1", "BC"],
            "--json: expected nothing behind it, found '1'",
        ),
        (
            &["--tp2", "BC"],
            "--tp2: expected --tp1, --cemi, --routing, --tunnelling-request, --tunnelling-ack, --file or --json, found another option",
        ),
        (
            &["--json", "--json"],
            "--json: expected it once, found it twice",
        ),
    ];
    for (words, said) in cases {
        let ended = decode(words, b"");
        assert_eq!((ended.status, ended.output.as_str()), (2, ""), "{words:?}");
        assert!(
            ended.errors.starts_with(&format!("klumdray: {said}")),
            "{}",
            ended.errors
        );
        assert_eq!(ended.errors.lines().count(), 1);
    }
    let directory = env!("CARGO_TARGET_TMPDIR");
    assert_eq!(decode(&[directory], b"").status, 2);
    let long = decode(&[], "x".repeat(1000).as_bytes()).errors;
    assert_eq!(
        long,
        format!(
            "klumdray: standard input:1: expected two hex digits for each octet, found '{}..'\n",
            "x".repeat(24)
        )
    );
}

#[test]
fn exit_statuses() {
    let statuses = [
        (P1, 0),
        ("", 0),
        ("# nothing", 0),
        (P2, 1),
        ("CC", 1),
        ("xyz", 2),
        ("BC0\nCC", 2),
        ("CC\nBC0", 2),
    ];
    for (input, status) in statuses {
        for words in [&[][..], &["--json"]] {
            assert_eq!(program(words, input.as_bytes()).status, status, "{input}");
        }
    }
    assert_eq!(program(&[P1], b"").status, 0);
    assert_eq!(program(&["--cemi", P1], b"").status, 1);
    assert_eq!(program(&["--json", "BC0"], b"").status, 2);
}

/// The examples that `--help` gives.
#[test]
fn help() {
    let help = program(&["--help"], b"");
    assert_eq!((help.status, help.errors.as_str()), (0, ""));
    for word in [
        "HEX",
        "FILE",
        "--tp1",
        "--cemi",
        "--routing",
        "--tunnelling-request",
        "--tunnelling-ack",
        "--file",
        "--json",
        "Exit status",
    ] {
        assert!(help.output.contains(word), "{word}");
    }
    assert!(help.output.contains(&format!("klumdray decode {P1}\n")));
    assert!(help.output.lines().all(|line| line.len() <= 100));
}

/// A text that is sometimes hex, sometimes nearly, and sometimes octets by chance.
fn some_input(generator: &mut Generator) -> Vec<u8> {
    let kind = Kind::ALL[generator.below(Kind::ALL.len())];
    let mut text = match generator.below(4) {
        0 => {
            let length = generator.below(60);
            return generator.octets(length);
        }
        1 => spaced(&frames::broken(generator, kind)),
        2 => hex::joined(&frames::broken(generator, kind)),
        _ => spaced(&frames::whole(generator, kind)),
    }
    .into_bytes();
    for _ in 0..generator.below(3) {
        let likely = b"0x:- #\n\r\tG\xff\x00";
        let place = generator.below(text.len() + 1);
        text.insert(place, likely[generator.below(likely.len())]);
    }
    text
}

/// Whatever is given: an answer for each frame, JSON where it is asked for, and no panic.
#[test]
fn any_input_is_answered() {
    let mut generator = Generator::new(seed());
    let flags = Kind::ALL.map(flag);
    let mut statuses = [0; 3];
    for _ in 0..100_000 {
        let input = some_input(&mut generator);
        let json = generator.below(2) == 0;
        let mut words = vec![];
        let flag = flags.get(generator.below(4 * flags.len()));
        words.extend(flag.map(String::as_str));
        words.extend(json.then_some("--json"));
        let text = String::from_utf8_lossy(&input).into_owned();
        let ended = match generator.below(3) {
            0 if hex::is_meant(&text) => decode(&[&words[..], &[&text]].concat(), b""),
            _ => decode(&words, &input),
        };
        if json {
            objects(&ended.output);
        }
        assert_eq!(ended.status == 2, !ended.errors.is_empty());
        statuses[usize::from(ended.status)] += 1;
    }
    assert!(statuses.iter().all(|times| *times > 10_000), "{statuses:?}");
}

#[test]
fn files_that_are_no_texts() {
    let mut generator = Generator::new(seed());
    let octets = Scratch::new("octets by chance", &generator.octets(100_000));
    assert_eq!(program(&[octets.name()], b"").status, 2);
    let empty = Scratch::new("an empty file", b"");
    assert_eq!(program(&[empty.name()], b""), ended(0, b"", b""));
    let huge = Scratch::new("a huge line", &b"BC".repeat(4_000_000));
    let long = program(&[huge.name()], b"");
    let last = "  octets 20 to 3999999: 3999980 octets left, expected the end of the frame";
    assert_eq!((long.status, long.output.lines().last()), (1, Some(last)));
    let objects = objects(&program(&["--json", huge.name()], b"").output);
    assert_eq!(objects[0].text("octets").len(), 8_000_000);
}
