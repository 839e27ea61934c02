//! `klumdray trace`.

mod object;
mod table;

use super::Streams;
use crate::address::{number, Group, Individual, Line};
use crate::arguments::{fault, quoted, Arguments, Known};
use crate::fault::{Fault, Status};
use crate::json::Json;
use crate::loading::{judge, load, translated, Failure, Site};
use crate::picture::draw;
use crate::tracing::{trace, Destination, Telegram};
use std::fs;
use std::io::{self, IsTerminal};

/// What `klumdray trace --help` says.
pub const HELP: &str = "\
klumdray trace SITE --from LINE (--group GROUP | --individual ADDRESS) [OPTION]...

Lists the lines that a telegram reaches, with its count on arrival and the couplers that it has
crossed; then, for every other line of the site, the coupler that stops it, the direction and why.

  SITE                  the site's text, a file
  --from LINE           the line that the telegram starts on, as 4.7
  --group GROUP         a group address, as 2/2/52, 2/564, 4660 or 1234h; 0/0/0 is broadcast
  --individual ADDRESS  an individual address, as 4.7.12
  --count COUNT         the count on the starting line, 0 to 7; 7 is never lowered. Without it: 6
  --picture FILE        draws the tree of lines as well, and writes it to FILE as SVG
  --json                the answer as one JSON object
  --octets              instead of the answer, telegram and site as the program 'trace' reads them,
                        for a file or a pipe; that program has no filter tables

'4.0 down' is the coupler of line 4.0, asked to hand on from its main side (0.0) to line 4.0;
'4.0 up' is the same coupler the other way.

Exit status: 0 answered; 1 the site is refused; 2 a file or an argument cannot be read, or the
picture cannot be written; 3 the tool itself is at fault.

  klumdray trace examples/plant.site --from 4.7 --group 2/2/52 --picture leak.svg
  klumdray trace examples/plant.site --from 2.1 --individual 4.7.0 --count 5 --json
";

const KNOWN: [Known; 7] = [
    Known {
        name: "--from",
        value: Some(LINE),
    },
    Known {
        name: "--group",
        value: Some(GROUP),
    },
    Known {
        name: "--individual",
        value: Some(INDIVIDUAL),
    },
    Known {
        name: "--count",
        value: Some(COUNT),
    },
    Known {
        name: "--picture",
        value: Some(PICTURE),
    },
    Known {
        name: "--json",
        value: None,
    },
    Known {
        name: "--octets",
        value: None,
    },
];

const LINE: &str = "a line such as 4.7, area and line from 0 to 15";
const GROUP: &str = "a group address such as 2/2/52, 2/564, 4660 or 1234h";
const INDIVIDUAL: &str = "an individual address such as 4.7.12";
const COUNT: &str = "a count from 0 to 7";
const PICTURE: &str = "a file to write the picture to";
const USUAL_COUNT: u8 = 6;
/// "A site is 0 to 255 records"
const MOST_COUPLERS: usize = 255;

/// Runs the command.
pub fn run(words: &[String], streams: &mut Streams<'_>) -> io::Result<Status> {
    match Asked::read(words) {
        Err(fault) => streams.faulty(&[fault]),
        Ok(asked) if asked.form == Form::Octets => write_octets(&asked, streams),
        Ok(asked) => answer(&asked, streams),
    }
}

/// What stands on standard output.
#[derive(Clone, Copy, PartialEq, Eq)]
enum Form {
    Table,
    Object,
    Octets,
}

/// What the command's words ask.
struct Asked {
    file: String,
    telegram: Telegram,
    form: Form,
    picture: Option<String>,
}

impl Asked {
    fn read(words: &[String]) -> Result<Asked, Fault> {
        let arguments = Arguments::read(words, &KNOWN)?;
        let file = match &arguments.plain[..] {
            [file] => file.clone(),
            [] => return Err(fault("trace", "a site's file", "none")),
            [_, other, ..] => return Err(fault("trace", "one site's file", &quoted(other))),
        };
        let from = arguments.read_value("--from", LINE, Line::read)?;
        let count = arguments.read_value("--count", COUNT, count)?;
        Ok(Asked {
            file,
            telegram: Telegram {
                from: from.ok_or_else(|| fault("trace", "--from and a line", "no --from"))?,
                to: destination(&arguments)?,
                count: count.unwrap_or(USUAL_COUNT),
            },
            form: form(&arguments)?,
            picture: arguments.value("--picture").map(String::from),
        })
    }
}

fn count(text: &str) -> Option<u8> {
    number(text, 7)?.try_into().ok()
}

fn destination(arguments: &Arguments) -> Result<Destination, Fault> {
    let group = arguments.read_value("--group", GROUP, Group::read)?;
    let individual = arguments.read_value("--individual", INDIVIDUAL, Individual::read)?;
    match (group, individual) {
        (Some(group), None) => Ok(Destination::Group(group)),
        (None, Some(address)) => Ok(Destination::Individual(address)),
        (None, None) => Err(fault("trace", "--group or --individual", "neither")),
        (Some(_), Some(_)) => Err(fault("trace", "either --group or --individual", "both")),
    }
}

fn form(arguments: &Arguments) -> Result<Form, Fault> {
    if !arguments.has("--octets") {
        let json = arguments.has("--json");
        return Ok(if json { Form::Object } else { Form::Table });
    }
    let beside = ["--json", "--picture"];
    if let Some(other) = beside.into_iter().find(|other| arguments.has(other)) {
        return Err(fault("--octets", "nothing but the octets asked for", other));
    }
    if io::stdout().is_terminal() {
        let expected = "a file or a pipe as standard output";
        return Err(fault("--octets", expected, "a terminal"));
    }
    Ok(Form::Octets)
}

fn answer(asked: &Asked, streams: &mut Streams<'_>) -> io::Result<Status> {
    let telegram = &asked.telegram;
    let site = match load(&asked.file) {
        Ok(site) => site,
        Err(Failure::Refused(refused)) if asked.form == Form::Object => {
            writeln!(streams.output, "{}", Json::Object(refused.members()))?;
            return Ok(Status::Refused);
        }
        Err(failure) => return streams.failed(&failure),
    };
    let traced = match trace(&site, telegram) {
        Ok(traced) => traced,
        Err(refusal) => return streams.broken(&format!("the site is accepted, then {refusal}")),
    };
    if let Some(file) = &asked.picture {
        if let Err(fault) = write_picture(file, &site, &draw(&site, telegram, &traced)) {
            return streams.faulty(&[fault]);
        }
    }
    let told = match asked.form {
        Form::Object => format!("{}\n", object::traced(&site, telegram, &traced)),
        _ => table::told(&site, telegram, &traced),
    };
    streams.output.write_all(told.as_bytes())?;
    Ok(Status::Answered)
}

/// Writes the picture, but never over the site's text.
fn write_picture(file: &str, site: &Site, picture: &str) -> Result<(), Fault> {
    let is_site = match (fs::canonicalize(file), fs::canonicalize(&site.file)) {
        (Ok(picture), Ok(site)) => picture == site,
        _ => false,
    };
    if is_site {
        return Err(fault(file, PICTURE, "the site's own file"));
    }
    fs::write(file, picture).map_err(|error| fault(file, PICTURE, &error.to_string()))
}

/// Writes what the program reads. It judges for itself, so a site that the library refuses is
/// written too, and the refusal is told besides.
fn write_octets(asked: &Asked, streams: &mut Streams<'_>) -> io::Result<Status> {
    let site = match translated(&asked.file) {
        Ok(site) => site,
        Err(failure) => return streams.failed(&failure),
    };
    streams
        .output
        .write_all(&program_input(&asked.telegram, &site))?;
    for note in program_refuses(&site) {
        writeln!(streams.errors, "klumdray: note: {note}")?;
    }
    match judge(&site) {
        Some(refused) => streams.refused(&refused),
        None => Ok(Status::Answered),
    }
}

/// "The program reads line, kind, destination (2), count, then records to the end".
fn program_input(telegram: &Telegram, site: &Site) -> Vec<u8> {
    let query = telegram.query();
    let [high, low] = query.destination.to_be_bytes();
    let head = [query.start, query.group.into(), high, low, query.count];
    [&head[..], &site.octets.records].concat()
}

/// Where the program's answer is not the library's: it reads "with empty stores", and "more than
/// 3,065" octets "are refused".
fn program_refuses(site: &Site) -> Vec<String> {
    let couplers = &site.text.plan.couplers;
    let mut notes = Vec::new();
    if couplers.len() > MOST_COUPLERS {
        notes.push(format!(
            "{} couplers; the program 'trace' refuses more than {MOST_COUPLERS} by 5",
            couplers.len()
        ));
    }
    if let Some(coupler) = couplers.iter().find(|coupler| coupler.table.is_some()) {
        notes.push(format!(
            "coupler {} names a filter table; the program 'trace' has none and refuses that by 18",
            coupler.line
        ));
    }
    notes
}
