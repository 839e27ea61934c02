//! Sites that the library refuses: the number is the library's, and the line of the text is the one
//! that draws it.

mod support;

use inputs::{seed, Generator};
use klumdray::Refusal;
use planner::loading::{load, load_text, Failure, RefusedSite};
use planner::octets::octets_of;
use std::fs;
use std::path::Path;
use support::layouts::some_layout;
use support::refusal;
use support::sites::{refused_site, well_formed_site};

fn refused(text: &str) -> Option<RefusedSite> {
    match load_text("some.site", text.as_bytes()) {
        Ok(_) => None,
        Err(Failure::Refused(site)) => Some(site),
        Err(other) => panic!("{other:?} of {text}"),
    }
}

const OPEN: &str = "individual open, broadcast open, groups open";

/// Below a coupler, before which a table and a good coupler stand: so its own line is 7.
#[rustfmt::skip]
const REFUSED: [(&str, Refusal, usize, &str); 17] = [
    ("coupler 0.0\n both all open", Refusal::SETTING, 7, "line 0.0 has no coupler"),
    ("coupler 0.0\n both all filter", Refusal::SETTING, 7, "line 0.0"),
    ("coupler 4.7\n down OPEN\n up all filter", Refusal::SETTING, 9, "broadcast filter up, but broadcast is either closed or open"),
    ("coupler 4.7\n both all filter\n table t", Refusal::SETTING, 8, "broadcast filter down"),
    ("coupler 4.7\n up all filter\n down all filter", Refusal::SETTING, 9, "broadcast filter down"),
    ("coupler 4.7\n\n down individual open, broadcast filter, groups open\n up OPEN", Refusal::SETTING, 9, "broadcast filter down"),
    ("coupler 4.7\n down OPEN\n # up\n up individual open, broadcast filter, groups open", Refusal::SETTING, 10, "broadcast filter up"),
    ("coupler 4.0\n both OPEN", Refusal::LINE_TWICE, 7, "a second coupler 4.0; the first stands at line 4 of the file"),
    ("coupler 4.7\n both OPEN\ncoupler 4.7 \"again\"\n both OPEN", Refusal::LINE_TWICE, 9, "the first stands at line 7"),
    ("coupler 4.7\n both individual open, broadcast open, groups filter", Refusal::TABLE, 8, "groups 0-13 filter down, but the coupler names no table"),
    ("coupler 4.7\n down OPEN\n up individual open, broadcast open, groups filter", Refusal::TABLE, 9, "groups 0-13 filter up"),
    ("coupler 4.7\n up OPEN\n down individual open, broadcast open, groups 0-13 filter, groups 14-31 open", Refusal::TABLE, 9, "groups 0-13 filter down"),
    ("coupler 4.7\n down OPEN\n up individual open, broadcast open, groups 0-13 closed, groups 14-31 filter", Refusal::TABLE, 9, "groups 14-31 filter up"),
    ("coupler 4.7\n up OPEN\n down individual open, broadcast open, groups 0-13 closed, groups 14-31 filter", Refusal::TABLE, 9, "groups 14-31 filter down"),
    // In a record, 15 comes before 18, and 18 before 17.
    ("coupler 4.7\n down individual open, broadcast open, groups filter\n up all filter", Refusal::SETTING, 9, "broadcast filter up"),
    ("coupler 4.0\n both individual open, broadcast open, groups filter", Refusal::TABLE, 8, "groups 0-13 filter down"),
    // All of a record comes before the next.
    ("coupler 4.0\n both OPEN\ncoupler 0.0\n both OPEN", Refusal::LINE_TWICE, 7, "a second coupler 4.0"),
];

#[test]
fn a_refusal_names_its_line() {
    for (text, refusal, line, because) in REFUSED {
        let text = format!("table t\n 1/1/1\n\ncoupler 4.0\n both all open\n table t\n{text}\n");
        let site = refused(&text.replace("OPEN", OPEN)).expect(&text);
        assert_eq!((site.refusal, site.line), (refusal, line), "{text}");
        assert!(site.because.contains(because), "{} of {text}", site.because);
        assert_eq!(site.file, "some.site");
    }
}

/// The line lies in the block of the first coupler up to which the library refuses the site.
#[test]
fn a_refused_site_names_the_first_coupler_to_blame() {
    let generator = &mut Generator::new(seed());
    let mut numbers = [0; 256];
    for _ in 0..2000 {
        let plan = refused_site(generator);
        let octets = octets_of(&plan).expect("octets");
        let (text, layout) = some_layout(generator, plan);
        let site = refused(&text).expect("a refused site");
        assert_eq!(Some(site.refusal), refusal(&octets.site()));
        numbers[usize::from(site.refusal.number())] += 1;

        let mut couplers = (0..octets.couplers()).rev();
        let before = couplers.find(|number| refusal(&octets.first(*number)).is_none());
        let block = &layout.couplers[before.expect("no coupler, no refusal")];
        let lines = [block.at, block.rows[0], block.rows[1]];
        assert!(
            lines.contains(&site.line),
            "{} not in {lines:?}: {text}",
            site.line
        );
    }
    let numbers = [15, 17, 18].map(|number| numbers[number]);
    assert!(numbers.iter().all(|times| *times > 200), "{numbers:?}");
}

#[test]
fn a_well_formed_site_is_not_refused() {
    let generator = &mut Generator::new(seed());
    for _ in 0..500 {
        let plan = well_formed_site(generator);
        let expected = octets_of(&plan).expect("octets");
        let (text, layout) = some_layout(generator, plan);
        let site = load_text("some.site", text.as_bytes()).expect("a site");
        assert_eq!((site.text, site.octets), (layout, expected));
    }
}

#[test]
fn a_text_without_anything_is_a_site_without_couplers() {
    for text in ["", "\n\n", "# nothing yet", "\u{feff}", " \r\n\t"] {
        let site = load_text("some.site", text.as_bytes()).expect("a site");
        assert_eq!(site.octets, Default::default());
    }
}

#[test]
fn a_file_is_read() {
    let file = Path::new(env!("CARGO_TARGET_TMPDIR")).join("loading.site");
    let name = file.to_str().expect("a name in UTF-8");
    fs::write(&file, "coupler 4.7\n  both all open\n").expect("a file");
    let site = load(name).expect("a site");
    assert_eq!((site.file.as_str(), site.octets.couplers()), (name, 1));
    fs::write(&file, "coupler 4.7\n  both all filter\n").expect("a file");
    let Err(Failure::Refused(site)) = load(name) else {
        panic!("not refused");
    };
    assert_eq!((site.file.as_str(), site.line), (name, 2));
    fs::remove_file(&file).expect("the file");
    let Err(Failure::Faulty(faults)) = load(name) else {
        panic!("no fault");
    };
    assert!(faults[0]
        .to_string()
        .starts_with(&format!("{name}: expected a site's file, found ")));
}
