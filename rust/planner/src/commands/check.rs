//! `klumdray check`.

use super::Streams;
use crate::arguments::{fault, quoted, Arguments, Known};
use crate::fault::{Fault, Status};
use crate::findings::{findings, Finding};
use crate::json::Json;
use crate::loading::{load, Failure, RefusedSite, Site};
use crate::words::counted;
use std::io;

/// What `klumdray check --help` says.
pub const HELP: &str = "\
klumdray check SITE [--json]

Says whether a site is well-formed. A refused one is told with the refusal's number, its words and
the line of SITE that draws it. Before a well-formed one come notes, each with its line, on what is
allowed but probably not meant:

  table_not_asked       no coupler names a table, or none that does filters groups
  table_empty           a coupler filters groups by a table that has none
  nothing_filtered      a coupler names a table that others ask, and filters no groups itself
  groups_not_asked      a table has groups 0-13, or 14-31, and no coupler filters those by it
  broadcast_in_table    a table has 0/0/0, which is broadcast and has a setting of its own
  entry_twice           an entry of a table lies in another entry of it
  main_line_not_fitted  as 4.7 without 4.0: the line is cut off from the backbone
  one_way               open one way and closed the other; for individual addresses, filter counts
                        as open

  SITE    the site's text, a file
  --json  the answer as one JSON object; the names above are the notes' kinds

Exit status: 0 well-formed, with or without notes; 1 the site is refused; 2 a file or an argument
cannot be read.

  klumdray check examples/plant.site
";

const KNOWN: [Known; 1] = [Known {
    name: "--json",
    value: None,
}];

/// Runs the command.
pub fn run(words: &[String], streams: &mut Streams<'_>) -> io::Result<Status> {
    let (file, json) = match arguments(words) {
        Ok(arguments) => arguments,
        Err(fault) => return streams.faulty(&[fault]),
    };
    let site = match load(&file) {
        Ok(site) => site,
        Err(Failure::Refused(refused)) => {
            writeln!(streams.output, "{}", refused_words(&refused, json))?;
            return Ok(Status::Refused);
        }
        Err(failure) => return streams.failed(&failure),
    };
    let findings = match findings(&site) {
        Ok(findings) => findings,
        Err(refusal) => return streams.broken(&format!("the site is accepted, then {refusal}")),
    };
    let answer = if json {
        format!("{}\n", object(&site, &findings))
    } else {
        told(&site, &findings)
    };
    streams.output.write_all(answer.as_bytes())?;
    Ok(Status::Answered)
}

/// The site's file, and whether JSON is wanted.
fn arguments(words: &[String]) -> Result<(String, bool), Fault> {
    let arguments = Arguments::read(words, &KNOWN)?;
    match &arguments.plain[..] {
        [file] => Ok((file.clone(), arguments.has("--json"))),
        [] => Err(fault("check", "a site's file", "none")),
        [_, other, ..] => Err(fault("check", "one site's file", &quoted(other))),
    }
}

fn told(site: &Site, findings: &[Finding]) -> String {
    let (file, plan) = (&site.file, &site.text.plan);
    let mut answer = String::new();
    for Finding { line, words, .. } in findings {
        answer += &format!("{file}:{line}: note: {words}\n");
    }
    let couplers = counted(plan.couplers.len(), "coupler");
    let tables = counted(plan.project.len() + plan.own.len(), "filter table");
    let project = plan.project.len();
    answer
        + &format!("{file}: well-formed: {couplers}, {tables} ({project} in the project store)\n")
}

fn object(site: &Site, findings: &[Finding]) -> Json {
    let plan = &site.text.plan;
    let notes = findings.iter().map(|finding| {
        Json::Object(vec![
            ("line", finding.line.into()),
            ("kind", finding.kind.name().into()),
            ("words", finding.words.as_str().into()),
        ])
    });
    Json::Object(vec![
        ("file", site.file.as_str().into()),
        ("well_formed", true.into()),
        ("couplers", plan.couplers.len().into()),
        ("tables", (plan.project.len() + plan.own.len()).into()),
        ("notes", Json::List(notes.collect())),
    ])
}

fn refused_words(refused: &RefusedSite, json: bool) -> String {
    if !json {
        return refused.to_string();
    }
    let mut members = vec![("well_formed", false.into())];
    members.extend(refused.members());
    Json::Object(members).to_string()
}
