//! Each kind of note: sites that draw it, and near misses that draw none.

use planner::findings::{findings, Kind};
use planner::loading::load_text;
use planner::plan::{Class, Setting};

/// Each note of a site's text as "LINE KIND: WORDS".
fn notes(text: &str) -> Vec<String> {
    let site = load_text("a.site", text.as_bytes()).expect("a well-formed site");
    let notes = findings(&site).expect("an answer").into_iter();
    notes
        .map(|note| format!("{} {}: {}", note.line, note.kind.name(), note.words))
        .collect()
}

#[track_caller]
fn draws(text: &str, expected: &[&str]) {
    assert_eq!(notes(text), expected, "{text}");
}

/// A coupler whose broadcast is open and whose groups are set as said, both ways.
fn coupler(line: &str, groups: &str, table: &str) -> String {
    let row = format!("both individual filter, broadcast open, {groups}");
    let table = if table.is_empty() {
        String::new()
    } else {
        format!("  table {table}\n")
    };
    format!("coupler {line}\n  {row}\n{table}")
}

#[test]
fn a_table_that_no_coupler_names() {
    let table = "table a\n  1/1/1\n";
    draws(
        table,
        &["1 table_not_asked: table a is never asked: no coupler names it"],
    );
    let project = format!("project {table}");
    draws(
        &project,
        &["1 table_not_asked: table a is never asked: no coupler names it"],
    );
    draws(
        &format!("{table}{}", coupler("4.0", "groups filter", "a")),
        &[],
    );
    // One of the other store with the same place is named.
    let both = format!(
        "{table}project table b\n  1/1/1\n{}",
        coupler("4.0", "groups filter", "b")
    );
    draws(
        &both,
        &["1 table_not_asked: table a is never asked: no coupler names it"],
    );
}

#[test]
fn a_table_whose_couplers_filter_no_groups() {
    let table = "table a\n  1/1/1, 14/0/0\n";
    let one = format!("{table}{}", coupler("4.0", "groups open", "a"));
    let words = "named by coupler 4.0, where no groups are filtered";
    draws(
        &one,
        &[&format!(
            "1 table_not_asked: table a is never asked: {words}"
        )],
    );
    let two = format!("{one}{}", coupler("4.1", "groups closed", "a"));
    let words = "named by couplers 4.0 and 4.1, where no groups are filtered";
    draws(
        &two,
        &[&format!(
            "1 table_not_asked: table a is never asked: {words}"
        )],
    );
    let more: String = (2..7)
        .map(|line| coupler(&format!("4.{line}"), "groups closed", "a"))
        .collect();
    let words = "named by couplers 4.0, 4.1, 4.2 and 4 more, where no groups are filtered";
    draws(
        &format!("{two}{more}"),
        &[&format!(
            "1 table_not_asked: table a is never asked: {words}"
        )],
    );
}

#[test]
fn one_direction_and_one_class_ask_a_table() {
    for (class, other, group) in [("0-13", "14-31", "1/1/1"), ("14-31", "0-13", "14/1/1")] {
        for (direction, opposite) in [("down", "up"), ("up", "down")] {
            let rest = "individual filter, broadcast open";
            let site = format!(
                "table a\n  {group}\ncoupler 4.0\n  \
                 {direction} {rest}, groups {class} filter, groups {other} open\n  \
                 {opposite} {rest}, groups open\n  table a\n"
            );
            draws(&site, &[]);
        }
    }
}

#[test]
fn a_coupler_that_names_a_table_and_filters_nothing() {
    let site = format!(
        "table a\n  1/1/1\n{}{}",
        coupler("4.0", "groups filter", "a"),
        coupler("4.1", "groups open", "a"),
    );
    let words = "coupler 4.1 names table a but filters no groups";
    draws(&site, &[&format!("8 nothing_filtered: {words}")]);
    draws(
        &site.replace("groups open", "groups 0-13 filter, groups 14-31 open"),
        &[],
    );
}

#[test]
fn an_empty_table() {
    let site =
        |entries: &str| format!("table a\n{entries}{}", coupler("4.0", "groups filter", "a"));
    draws(
        &site(""),
        &["1 table_empty: table a is empty, but asked by coupler 4.0"],
    );
    draws(&site("  1/1/1\n"), &[]);
    let two = format!("{}{}", site(""), coupler("4.1", "groups filter", "a"));
    draws(
        &two,
        &["1 table_empty: table a is empty, but asked by couplers 4.0 and 4.1"],
    );
    // Nobody asks: that is said, and no more.
    draws(
        "table a\n",
        &["1 table_not_asked: table a is never asked: no coupler names it"],
    );
}

#[test]
fn groups_of_a_class_that_no_coupler_filters() {
    let site =
        |entries: &str, groups: &str| format!("table a\n{entries}{}", coupler("4.0", groups, "a"));
    let lower = "groups 0-13 filter, groups 14-31 closed";
    let upper = "groups 0-13 open, groups 14-31 filter";
    let since = |class| format!("since no coupler that names it filters groups {class}");
    let entries = "  1/1/1\n  13/7/255\n  14/0/0\n  20/1/0 - 20/1/9\n";
    let words = format!(
        "table a: 11 of its groups are never asked, {}",
        since("14-31")
    );
    draws(
        &site(entries, lower),
        &[&format!("4 groups_not_asked: {words}")],
    );
    let words = format!(
        "table a: 2 of its groups are never asked, {}",
        since("0-13")
    );
    draws(
        &site(entries, upper),
        &[&format!("2 groups_not_asked: {words}")],
    );
    draws(&site(entries, "groups filter"), &[]);
    draws(&site("  0/0/1 - 13/7/255\n", lower), &[]);
    draws(&site("  14/0/0 - 31/7/255\n", upper), &[]);
    // Another coupler asks.
    let other = coupler("4.1", upper, "a");
    draws(&format!("{}{other}", site(entries, lower)), &[]);
}

#[test]
fn ranges_across_the_classes() {
    let site =
        |entry: &str, groups: &str| format!("table a\n  {entry}\n{}", coupler("4.0", groups, "a"));
    let words =
        "2 groups_not_asked: table a: 1 of its groups is never asked, since no coupler that \
                 names it filters groups";
    let lower = "groups 0-13 filter, groups 14-31 open";
    draws(
        &site("13/7/255 - 14/0/0", lower),
        &[&format!("{words} 14-31")],
    );
    let upper = "groups 0-13 closed, groups 14-31 filter";
    draws(
        &site("13/7/255 - 31/7/255", upper),
        &[&format!("{words} 0-13")],
    );
    // Broadcast is in neither class.
    draws(
        &site("0/0/0 - 0/0/1, 31/7/255", upper),
        &[&format!("{words} 0-13")],
    );
}

#[test]
fn broadcast_in_a_table() {
    let site = |entries: &str| {
        format!(
            "table a\n  1/1/1\n  {entries}\n{}",
            coupler("4.0", "groups filter", "a")
        )
    };
    let words = "table a has 0/0/0, which is broadcast: no table is asked for it";
    for zero in ["0/0/0", "0", "0000h", "0/0/0 - 0/0/0"] {
        draws(&site(zero), &[&format!("3 broadcast_in_table: {words}")]);
    }
    draws(&site("0/0/0 - 0/0/255"), &[]);
    draws(&site("0/0/1"), &[]);
}

#[test]
fn an_entry_in_another() {
    let site =
        |entries: &str| format!("table a\n{entries}{}", coupler("4.0", "groups filter", "a"));
    let twice = |line: usize, entry: &str, other: usize, wide: &str| {
        format!("{line} entry_twice: {entry} is in table a twice: line {other} has {wide}")
    };
    let equal = twice(3, "1/1/1", 2, "1/1/1");
    draws(&site("  1/1/1\n  1/1/2\n"), &[]);
    draws(&site("  1/1/1\n  1/1/1\n"), &[&equal]);
    draws(&site("  1/1/1, 1/1/1\n"), &[&twice(2, "1/1/1", 2, "1/1/1")]);
    let range = "1/1/0 - 1/1/9";
    draws(
        &site("  1/1/0 - 1/1/9\n  1/1/9\n"),
        &[&twice(3, "1/1/9", 2, range)],
    );
    draws(
        &site("  1/1/9\n  1/1/0 - 1/1/9\n"),
        &[&twice(2, "1/1/9", 3, range)],
    );
    draws(
        &site("  1/1/0\n  1/1/0 - 1/1/9\n"),
        &[&twice(2, "1/1/0", 3, range)],
    );
    let within = "1/1/2 - 1/1/5";
    let three = site("  1/1/2 - 1/1/5\n  1/1/0 - 1/1/9\n  1/1/4\n");
    draws(
        &three,
        &[&twice(2, within, 3, range), &twice(4, "1/1/4", 3, range)],
    );
    // Ranges that touch, or overlap in part.
    draws(&site("  1/1/0 - 1/1/4\n  1/1/5 - 1/1/9\n"), &[]);
    draws(&site("  1/1/0 - 1/1/5\n  1/1/5 - 1/1/9\n"), &[]);
    // The same group in another table.
    let other = site("  1/1/1\n")
        .replace("table a", "table b")
        .replace("4.0", "4.1");
    draws(&format!("{}{other}", site("  1/1/1\n")), &[]);
}

#[test]
fn a_main_line_without_a_coupler() {
    let open = |line: &str| format!("coupler {line}\n  both all open\n");
    let cut = |line: usize, main: &str, lines: &str| {
        format!(
            "{line} main_line_not_fitted: main line {main} has no coupler, which cuts {lines} off \
             from the backbone"
        )
    };
    draws(&open("4.7"), &[&cut(1, "4.0", "line 4.7")]);
    let site = ["4.7", "5.0", "5.1", "4.15"].map(open).concat();
    draws(&site, &[&cut(1, "4.0", "lines 4.7 and 4.15")]);
    let site = ["5.1", "4.7", "5.2"].map(open).concat();
    draws(
        &site,
        &[
            &cut(1, "5.0", "lines 5.1 and 5.2"),
            &cut(3, "4.0", "line 4.7"),
        ],
    );
    let site = ["4.1", "4.2", "4.3", "4.4", "4.5"].map(open).concat();
    draws(&site, &[&cut(1, "4.0", "lines 4.1, 4.2, 4.3 and 2 more")]);
    draws(
        &["4.1", "4.2", "4.3", "4.4"].map(open).concat(),
        &[&cut(1, "4.0", "lines 4.1, 4.2, 4.3 and 4.4")],
    );
    draws(&["4.7", "4.0"].map(open).concat(), &[]);
    // Lines of area 0, and area couplers, hang on the backbone itself.
    draws(&["0.7", "4.0"].map(open).concat(), &[]);
    // It lets nothing pass, but it is fitted.
    draws(
        &format!("{}coupler 4.0\n  both all closed\n", open("4.7")),
        &[],
    );
}

/// A coupler with one class set as said and the others open, and the class in words.
fn with_class(class: Class, down: Setting, up: Setting) -> String {
    let row = |setting: Setting| {
        let part = |other: &Class| {
            let setting = if *other == class {
                setting
            } else {
                Setting::Open
            };
            format!("{other} {setting}")
        };
        Class::ALL.iter().map(part).collect::<Vec<_>>().join(", ")
    };
    let group = if class == Class::UpperGroups {
        "14/0/0"
    } else {
        "0/0/1"
    };
    let table = match (class, [down, up].contains(&Setting::Filter)) {
        (Class::LowerGroups | Class::UpperGroups, true) => {
            ("  table a\n", format!("table a\n  {group}\n"))
        }
        _ => ("", String::new()),
    };
    format!(
        "coupler 4.0\n  down {}\n  up {}\n{}{}",
        row(down),
        row(up),
        table.0,
        table.1
    )
}

#[test]
fn every_pair_of_settings() {
    use Setting::{Closed, Filter, Open};
    let names = [
        "individual telegrams",
        "broadcasts",
        "groups 0-13",
        "groups 14-31",
    ];
    for (class, name) in Class::ALL.into_iter().zip(names) {
        for (down, up) in Setting::ALL
            .into_iter()
            .flat_map(|down| Setting::ALL.map(|up| (down, up)))
        {
            if class == Class::Broadcast && [down, up].contains(&Filter) {
                continue;
            }
            let passes =
                |setting| setting == Open || setting == Filter && class == Class::Individual;
            let leave =
                format!("2 one_way: {name} leave line 4.0 but none come in: no answer gets there");
            let come_in = format!(
                "3 one_way: {name} come into line 4.0 but none leave: nothing there can answer"
            );
            let expected = match (down, up) {
                (Closed, up) if passes(up) => vec![leave.as_str()],
                (down, Closed) if passes(down) => vec![come_in.as_str()],
                _ => vec![],
            };
            draws(&with_class(class, down, up), &expected);
        }
    }
}

#[test]
fn classes_that_are_closed_one_way_are_told_together() {
    let site = |down: &str, up: &str| format!("coupler 0.9\n  down {down}\n  up {up}\n");
    let all = "individual telegrams, broadcasts, groups 0-13 and groups 14-31";
    let leave = "leave line 0.9 but none come in: no answer gets there";
    draws(
        &site("all closed", "all open"),
        &[&format!("2 one_way: {all} {leave}")],
    );
    let mixed = site(
        "individual filter, broadcast closed, groups open",
        "individual closed, broadcast open, groups 0-13 closed, groups 14-31 open",
    );
    let come_in = "come into line 0.9 but none leave: nothing there can answer";
    draws(
        &mixed,
        &[
            &format!("2 one_way: broadcasts {leave}"),
            &format!("3 one_way: individual telegrams and groups 0-13 {come_in}"),
        ],
    );
}

/// A table with all groups of a class is as good as open, and one that lacks a single one is not.
#[test]
fn a_full_table_is_open() {
    let site = |entry: &str, class: &str, other: &str| {
        format!(
            "table a\n  {entry}\ncoupler 15.15\n  \
             down individual open, broadcast open, groups closed\n  \
             up individual open, broadcast open, groups {class} filter, groups {other} closed\n  \
             table a\ncoupler 15.0\n  both all open\n"
        )
    };
    let leave = "leave line 15.15 but none come in: no answer gets there";
    for (class, other, full, lacking) in [
        (
            "0-13",
            "14-31",
            "0/0/1 - 13/7/255",
            ["0/0/2 - 13/7/255", "0/0/1 - 13/7/254"],
        ),
        (
            "14-31",
            "0-13",
            "14/0/0 - 31/7/255",
            ["14/0/1 - 31/7/255", "14/0/0 - 31/7/254"],
        ),
    ] {
        let note = format!("4 one_way: groups {class} {leave}");
        draws(&site(full, class, other), &[&note]);
        for entry in lacking {
            draws(&site(entry, class, other), &[]);
        }
    }
}

#[test]
fn notes_come_by_the_line_of_the_text() {
    let site = format!(
        "coupler 5.1\n  up all open\n  down all closed\ntable b\n  1/1/1, 1/1/1, 0/0/0\n{}table a\n",
        coupler("4.0", "groups filter", "b"),
    );
    let kinds: Vec<String> = notes(&site)
        .iter()
        .map(|note| note.split(':').next().unwrap_or_default().into())
        .collect();
    let expected = [
        "1 main_line_not_fitted",
        "3 one_way",
        "5 broadcast_in_table",
        "5 entry_twice",
        "9 table_not_asked",
    ];
    assert_eq!(kinds, expected);
}

#[test]
fn the_help_names_every_kind() {
    for kind in Kind::ALL {
        let named = planner::commands::check::HELP
            .lines()
            .any(|line| line.trim_start().starts_with(&format!("{} ", kind.name())));
        assert!(named, "{kind:?}");
    }
}

#[test]
fn an_empty_site_has_no_notes() {
    draws("", &[]);
}
