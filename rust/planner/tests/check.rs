//! `klumdray check`: what it says of sites that cannot be read, of refused and of well-formed ones,
//! of the examples, and of random sites beside the reference.

mod support;
#[allow(dead_code)]
#[path = "support/tool.rs"]
mod tool;

use inputs::{seed, Generator};
use planner::address::{Group, Line};
use planner::findings::{findings, Kind};
use planner::loading::{load, load_text, translate};
use planner::plan::{Class, Coupler, Direction, Setting, Store, TableAt};
use planner::text::{read, write, SiteText};
use planner::tracing::{trace, Destination, Telegram};
use std::fs;
use support::emulated::number_of_inputs;
use support::sites::{some_site, well_formed_site};
use tool::{klumdray, root, scratch, Ended};

/// Checks a text in a file that no other test has, which is called SITE in the answer.
fn check(name: &str, text: &str, options: &[&str]) -> Ended {
    let file = scratch(&format!("check-{name}.site"));
    fs::write(&file, text).expect("a file that can be written");
    let ended = klumdray(&[&["check", &file], options].concat());
    Ended {
        output: ended.text().replace(&file, "SITE").into_bytes(),
        errors: ended.errors.replace(&file, "SITE"),
        ..ended
    }
}

/// "Errors .. on standard error, exit status 2; a refused site .. is exit status 1".
const WELL_FORMED: i32 = 0;
const REFUSED: i32 = 1;
const FAULTY: i32 = 2;

#[track_caller]
fn says(ended: &Ended, status: i32, output: &str, errors: &str) {
    assert_eq!(ended.text(), output);
    assert_eq!(ended.errors, errors);
    assert_eq!(ended.status, Some(status));
}

#[test]
fn the_plant() {
    let output = "\
examples/plant.site:57: note: main line 5.0 has no coupler, which cuts line 5.1 off from the backbone
examples/plant.site: well-formed: 10 couplers, 3 filter tables (0 in the project store)
";
    says(
        &klumdray(&["check", "examples/plant.site"]),
        WELL_FORMED,
        output,
        "",
    );
}

#[test]
fn the_campus() {
    let output = "\
examples/campus.site: well-formed: 144 couplers, 15 filter tables (3 in the project store)
";
    says(
        &klumdray(&["check", "examples/campus.site"]),
        WELL_FORMED,
        output,
        "",
    );
}

/// What the campus says of itself: the litres of each building come to the head station and into no
/// other building, but for the residences and the heating plant's own lines; stairwell lights stay in
/// the building; residents send nothing out.
#[test]
fn the_ways_of_the_campus() {
    let site =
        load(&format!("{}/examples/campus.site", root().display())).expect("a well-formed site");
    let heating = "0.0 0.1 4.0 4.1 4.2 4.3 4.4 4.5 4.6 4.7 4.8 4.9";
    let residences = "0.0 0.1 9.0 9.11 10.0 10.11";
    for (from, first, last, reached) in [
        ("1.12", "2/2/16", "2/2/31", "0.0 0.1 1.0 1.12"),
        ("4.7", "2/2/64", "2/2/79", heating),
        ("5.10", "2/2/80", "2/2/95", "0.0 0.1 5.0 5.10"),
        ("8.9", "2/2/128", "2/2/143", "0.0 0.1 8.0 8.9"),
        ("9.11", "2/2/144", "2/2/159", residences),
        ("10.11", "2/2/160", "2/2/175", residences),
        ("12.9", "2/2/192", "2/2/207", "0.0 0.1 12.0 12.9"),
        ("3.1", "1/7/0", "1/7/255", "3.0 3.1"),
        ("9.3", "0/0/0", "0/7/255", "9.3"),
    ] {
        let [first, last] = [first, last].map(|group| Group::read(group).expect(group));
        for group in first.0..=last.0 {
            let telegram = Telegram {
                from: Line::read(from).expect(from),
                to: Destination::Group(Group(group)),
                count: 6,
            };
            let lines = trace(&site, &telegram)
                .expect("a trace")
                .reached
                .into_iter();
            let lines: Vec<String> = lines.map(|listed| Line(listed.line).to_string()).collect();
            assert_eq!(lines.join(" "), reached, "{} from {from}", Group(group));
        }
    }
}

#[test]
fn what_cannot_be_read() {
    let ended = check("unreadable", "coupler 4.7\n  both all opne\ncouplr\n", &[]);
    let errors = "\
klumdray: SITE:2: expected 'closed', 'filter' or 'open', found 'opne'
klumdray: SITE:3: expected 'site', 'table', 'project table' or 'coupler', found 'couplr'
";
    says(&ended, FAULTY, "", errors);
    let json = check("unreadable-json", "couplr\n", &["--json"]);
    assert_eq!((json.status, json.text()), (Some(FAULTY), ""));
}

#[test]
fn what_cannot_be_asked() {
    for (words, errors) in [
        (
            &["check"][..],
            "klumdray: check: expected a site's file, found none\n",
        ),
        (
            &["check", "a", "b"],
            "klumdray: check: expected one site's file, found 'b'\n",
        ),
        (
            &["check", "a", "--jsn"],
            "klumdray: --jsn: expected --json, found another option\n",
        ),
    ] {
        says(&klumdray(words), FAULTY, "", errors);
    }
    let ended = klumdray(&["check", "examples/none.site"]);
    assert_eq!(ended.status, Some(FAULTY));
    let start = "klumdray: examples/none.site: expected a site's file, found ";
    assert!(ended.errors.starts_with(start), "{}", ended.errors);
}

#[test]
fn help() {
    let ended = klumdray(&["check", "--help"]);
    says(&ended, WELL_FORMED, planner::commands::check::HELP, "");
    assert!(ended.text().starts_with("klumdray check SITE"));
}

#[test]
fn line_twice() {
    let text = "\n# two\ncoupler 4.0\n  both all open\ncoupler 4.7\n  both all open\n\
                coupler 4.7 \"again\"\n  both all closed\n";
    let output = "SITE:7: refused 17: one line twice in a site: \
                  a second coupler 4.7; the first stands at line 5 of the file\n";
    says(&check("twice", text, &[]), REFUSED, output, "");
    let output =
        "{\"well_formed\": false, \"refused\": 17, \"words\": \"one line twice in a site\", \
                  \"file\": \"SITE\", \"line\": 7, \
                  \"because\": \"a second coupler 4.7; the first stands at line 5 of the file\"}\n";
    says(&check("twice-json", text, &["--json"]), REFUSED, output, "");
}

#[test]
fn settings_that_are_not_allowed() {
    let words = "refused 15: own line 00h, or a setting code not allowed";
    let backbone = "coupler 4.0\n  both all open\n\ncoupler 0.0\n  both all open\n";
    let output = format!("SITE:4: {words}: line 0.0 has no coupler\n");
    says(&check("backbone", backbone, &[]), REFUSED, &output, "");
    let text =
        "coupler 4.0\n  down all open\n  up groups open, individual open, broadcast filter\n";
    let output =
        format!("SITE:3: {words}: broadcast filter up, but broadcast is either closed or open\n");
    says(&check("broadcast", text, &[]), REFUSED, &output, "");
}

#[test]
fn tables_that_are_missing() {
    let text = "coupler 4.0\n  up all open\n  \
                down individual open, broadcast open, groups 0-13 open, groups 14-31 filter\n";
    let words = "groups 14-31 filter down, but the coupler names no table";
    let output = format!("SITE:3: refused 18: filter table missing or of wrong size: {words}\n");
    says(&check("missing", text, &[]), REFUSED, &output, "");
}

#[test]
fn counts_of_one() {
    let text = "project table a\n  1/1/1\ncoupler 4.0\n  \
                both individual open, broadcast open, groups 0-13 filter, groups 14-31 open\n  \
                table a\n";
    let output = "SITE: well-formed: 1 coupler, 1 filter table (1 in the project store)\n";
    says(&check("one", text, &[]), WELL_FORMED, output, "");
    let output = "SITE: well-formed: 0 couplers, 0 filter tables (0 in the project store)\n";
    says(&check("none", "", &[]), WELL_FORMED, output, "");
}

#[test]
fn notes_for_scripts() {
    let text = "table a\n  1/1/1\nproject table b\ncoupler 4.7\n  both all open\n";
    let output = "{\"file\": \"SITE\", \"well_formed\": true, \"couplers\": 1, \"tables\": 2, \
        \"notes\": [\
        {\"line\": 1, \"kind\": \"table_not_asked\", \
        \"words\": \"table a is never asked: no coupler names it\"}, \
        {\"line\": 3, \"kind\": \"table_not_asked\", \
        \"words\": \"table b is never asked: no coupler names it\"}, \
        {\"line\": 4, \"kind\": \"main_line_not_fitted\", \
        \"words\": \"main line 4.0 has no coupler, which cuts line 4.7 off from the backbone\"}]}\n";
    says(&check("script", text, &["--json"]), WELL_FORMED, output, "");
}

/// A random site is well-formed exactly if the reference says so, else refused by the same number,
/// at a line of the coupler whose record draws it.
#[test]
fn refusals_are_the_reference_s() {
    let generator = &mut Generator::new(seed());
    let mut refused = [0; 19];
    for _ in 0..number_of_inputs(400, 100) {
        let text = write(&SiteText::of(some_site(generator)));
        let ended = check("random", &text, &[]);
        let text = read("a.site", text.as_bytes()).expect("a text that can be read");
        let octets = translate(&text.plan).expect("octets");
        let judge = |couplers: usize| {
            let site = reference::site::Site {
                records: &octets.records[..12 * couplers],
                project: &octets.project,
                own: &octets.own,
            };
            site.couplers().err()
        };
        let all = text.plan.couplers.len();
        assert_eq!(ended.errors, "");
        let Some(number) = judge(all) else {
            assert_eq!(ended.status, Some(WELL_FORMED));
            let sum = ended.text().lines().last().unwrap_or_default();
            assert!(
                sum.starts_with(&format!("SITE: well-formed: {all} coupler")),
                "{sum}"
            );
            continue;
        };
        assert_eq!(ended.status, Some(REFUSED));
        let place = (0..all).find(|place| judge(place + 1).is_some());
        let at = &text.couplers[place.expect("a coupler that draws it")];
        let starts = |line: &usize| {
            ended
                .text()
                .starts_with(&format!("SITE:{line}: refused {number}: "))
        };
        assert!(
            [at.at, at.rows[0], at.rows[1]].iter().any(starts),
            "{}",
            ended.text()
        );
        assert_eq!(ended.text().lines().count(), 1);
        refused[usize::from(number)] += 1;
    }
    assert!(
        [15, 17, 18].iter().all(|number| refused[*number] > 0),
        "{refused:?}"
    );
}

/// What the notes on a site must be, told slowly from the plan alone. Of a text that the tool wrote
/// no entry lies in another.
fn expected_notes(text: &SiteText) -> Vec<(usize, Kind)> {
    let mut notes = Vec::new();
    for store in [Store::Project, Store::Own] {
        for place in 0..text.tables(store).len() {
            table_notes(text, TableAt { store, place }, &mut notes);
        }
    }
    let couplers = &text.plan.couplers;
    let mut told = Vec::new();
    for (coupler, at) in couplers.iter().zip(&text.couplers) {
        let main = coupler.line.main();
        let fitted = main.0 == 0 || couplers.iter().any(|other| other.line == main);
        if !fitted && !told.contains(&main) {
            told.push(main);
            notes.push((at.at, Kind::MainLineNotFitted));
        }
        for closed in Direction::ALL {
            if Class::ALL
                .iter()
                .any(|class| is_one_way(text, coupler, closed, *class))
            {
                notes.push((at.rows[closed as usize], Kind::OneWay));
            }
        }
    }
    notes.sort();
    notes
}

const GROUP_CLASSES: [Class; 2] = [Class::LowerGroups, Class::UpperGroups];

fn class_of(group: u16) -> Option<Class> {
    match group {
        0 => None,
        0x0001..=0x6fff => Some(Class::LowerGroups),
        0x7000..=0xffff => Some(Class::UpperGroups),
    }
}

fn is_filtered(coupler: &Coupler, class: Class) -> bool {
    Direction::ALL
        .iter()
        .any(|direction| coupler.setting(*direction, class) == Setting::Filter)
}

fn table_notes(text: &SiteText, table: TableAt, notes: &mut Vec<(usize, Kind)>) {
    let written = &text.tables(table.store)[table.place];
    let naming: Vec<(&Coupler, usize)> = text
        .plan
        .couplers
        .iter()
        .zip(&text.couplers)
        .filter(|(coupler, _)| coupler.table == Some(table))
        .map(|(coupler, at)| (coupler, at.table.expect("a line that names the table")))
        .collect();
    let asks = |coupler: &Coupler| {
        GROUP_CLASSES
            .iter()
            .any(|class| is_filtered(coupler, *class))
    };
    if !naming.iter().any(|(coupler, _)| asks(coupler)) {
        notes.push((written.at, Kind::TableNotAsked));
        return;
    }
    if written.entries.is_empty() {
        notes.push((written.at, Kind::TableEmpty));
    }
    let idle = naming.iter().filter(|(coupler, _)| !asks(coupler));
    notes.extend(idle.map(|(_, line)| (*line, Kind::NothingFiltered)));
    for class in GROUP_CLASSES {
        let has = |first: Group, last: Group| {
            (first.0..=last.0).any(|group| class_of(group) == Some(class))
        };
        let line = written
            .entries
            .iter()
            .find(|(_, first, last)| has(*first, *last));
        if !naming
            .iter()
            .any(|(coupler, _)| is_filtered(coupler, class))
        {
            notes.extend(line.map(|(line, ..)| (*line, Kind::GroupsNotAsked)));
        }
    }
    let zero = written
        .entries
        .iter()
        .find(|(_, _, last)| *last == Group(0));
    notes.extend(zero.map(|(line, ..)| (*line, Kind::BroadcastInTable)));
}

fn is_one_way(text: &SiteText, coupler: &Coupler, closed: Direction, class: Class) -> bool {
    let open = Direction::ALL[1 - closed as usize];
    let all_pass = match coupler.setting(open, class) {
        Setting::Closed => false,
        Setting::Open => true,
        Setting::Filter if class == Class::Individual => true,
        Setting::Filter => {
            let table = coupler.table.expect("a table");
            let ranges = text.plan.tables(table.store)[table.place].ranges();
            let listed = |group: u16| {
                ranges
                    .iter()
                    .any(|(first, last)| (first.0..=last.0).contains(&group))
            };
            (0..=u16::MAX).all(|group| class_of(group) != Some(class) || listed(group))
        }
    };
    all_pass && coupler.setting(closed, class) == Setting::Closed
}

#[test]
fn notes_on_random_sites() {
    let generator = &mut Generator::new(seed());
    let mut drawn = Vec::new();
    for _ in 0..number_of_inputs(500, 20) {
        let text = write(&SiteText::of(well_formed_site(generator)));
        let site = load_text("a.site", text.as_bytes()).expect("a well-formed site");
        let notes = findings(&site).expect("an answer").into_iter();
        let notes: Vec<(usize, Kind)> = notes.map(|note| (note.line, note.kind)).collect();
        assert_eq!(notes, expected_notes(&site.text), "{}", write(&site.text));
        drawn.extend(notes.into_iter().map(|(_, kind)| kind));
    }
    let is_drawn = |kind: &Kind| *kind == Kind::EntryTwice || drawn.contains(kind);
    assert!(Kind::ALL.iter().all(is_drawn));
}
