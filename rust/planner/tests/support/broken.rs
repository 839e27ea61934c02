//! Texts that are no site's: each has one mistake that a person makes, and draws one fault.

use planner::octets::{OWN_TABLES, PROJECT_TABLES};

/// A text with nothing wrong in it.
pub const GOOD: [&str; 17] = [
    r#"site "Heating plant""#,
    "",
    "table leak-meters # litres lost",
    "    2/2/50 - 2/2/59, 5/1/0",
    "    2/2/70",
    "",
    "project table common",
    "    1/564",
    "",
    r#"coupler 4.0 "boiler houses""#,
    "    both  all open",
    "    table common",
    "",
    r#"coupler 4.7 "boiler house""#,
    "    down  individual filter, broadcast open, groups 0-13 filter, groups 14-31 closed",
    "    up    all open",
    "    table leak-meters",
];

/// A broken text.
pub enum Text {
    /// The good one with another line, or several, at a place from 1.
    Line(usize, &'static str),
    /// All of it.
    Whole(&'static [u8]),
    /// All of it, made.
    Made(fn() -> String),
}

use Text::{Line, Made, Whole};

impl Text {
    pub fn octets(&self) -> Vec<u8> {
        match self {
            Line(at, line) => {
                let mut lines = GOOD;
                lines[at - 1] = line;
                lines.join("\n").into_bytes()
            }
            Whole(octets) => octets.to_vec(),
            Made(text) => text().into_bytes(),
        }
    }
}

/// The text, the line of its fault, and words of what was expected and of what was found.
pub type Broken = (Text, usize, &'static str, &'static str);

pub fn all() -> impl Iterator<Item = &'static Broken> {
    let lists = [
        BLOCKS, LINES, TABLES, ENTRIES, COUPLERS, SETTINGS, BELOW, WHOLE,
    ];
    lists.into_iter().flatten()
}

const END: &str = "the end of the line";

#[rustfmt::skip]
const BLOCKS: &[Broken] = &[
    (Line(1, "site Heating plant"), 1, "a title in straight quotes", "'Heating'"),
    (Line(1, "site"), 1, "a title in straight quotes", END),
    (Line(1, "site \u{201c}Plant\u{201d}"), 1, "a title in straight quotes", "'\u{201c}Plant\u{201d}'"),
    (Line(1, "site 'Plant'"), 1, "a title in straight quotes", r"'\'Plant\''"),
    (Line(1, r#"site = "Plant""#), 1, "a title in straight quotes", "'='"),
    (Line(1, r#"site "Heating" "plant""#), 1, END, "the text 'plant'"),
    (Line(1, r#"site "Heating plant" 2026"#), 1, END, "'2026'"),
    (Line(1, r#"site "Heating plant","#), 1, END, "','"),
    (Line(1, r#"Site "Heating plant""#), 1, "'site', 'table', 'project table' or 'coupler'", "'Site'"),
    (Line(1, r#"site: "Heating plant""#), 1, "'site', 'table'", "'site:'"),
    (Line(1, r#"title "Heating plant""#), 1, "'site', 'table'", "'title'"),
    (Line(1, r#""Heating plant""#), 1, "'site', 'table'", "the text 'Heating plant'"),
    (Line(1, "Heating plant"), 1, "'site', 'table'", "'Heating'"),
    (Line(1, "// Heating plant"), 1, "'site', 'table'", "'//'"),
    (Line(1, "; Heating plant"), 1, "'site', 'table'", "';'"),
    (Line(1, "-- Heating plant"), 1, "'site', 'table'", "'--'"),
    (Line(1, "/* Heating plant */"), 1, "'site', 'table'", "'/*'"),
    (Line(1, ", Heating plant"), 1, "'site', 'table'", "','"),
    (Line(1, "{"), 1, "'site', 'table'", "'{'"),
    (Line(1, "<site>"), 1, "'site', 'table'", "'<site>'"),
    (Line(1, "[site]"), 1, "'site', 'table'", "'[site]'"),
    (Line(1, "include other.site"), 1, "'site', 'table'", "'include'"),
    (Line(1, "site \"a\"\nsite \"b\""), 2, "one title", "a second one; line 1 has the first"),
    (Line(1, "site \"a\"\n    2026"), 2, "'site', 'table'", "an indented line below 'site'"),
    (Line(1, " site \"a\""), 1, "no spaces or tabs before 'site'", "some"),
    (Line(1, "    a note without a hash"), 1, "'site', 'table'", "an indented line with nothing above it"),
    (Line(3, "\ttable leak-meters"), 3, "no spaces or tabs before 'table'", "some"),
    (Line(3, "site table leak-meters"), 3, "a title in straight quotes", "'table'"),
    (Line(5, "2/2/70"), 5, "spaces or a tab before '2/2/70'", "none"),
    (Line(5, "    table boilers"), 5, "no spaces or tabs before 'table'", "some"),
    (Line(7, "    project table common"), 7, "no spaces or tabs before 'project'", "some"),
    (Line(11, "both all open"), 11, "spaces or a tab before 'both'", "none"),
    (Line(14, "  coupler 4.7"), 14, "no spaces or tabs before 'coupler'", "some"),
    (Line(15, "down all open"), 15, "spaces or a tab before 'down'", "none"),
    (Line(16, "up all open"), 16, "spaces or a tab before 'up'", "none"),
    (Line(17, "table leak-meters"), 17, "spaces or a tab before 'table', or a name other", "the table at line 3"),
];

#[rustfmt::skip]
const LINES: &[Broken] = &[
    (Line(1, "site \"Heating plant"), 1, "a closing '\"'", END),
    (Line(3, "table leak-meters \"litres"), 3, "a closing '\"'", END),
    (Line(4, "    2/2/52 \"flow"), 4, "a closing '\"'", END),
    (Line(4, "    \"2/2/52"), 4, "a closing '\"'", END),
    (Line(14, "coupler 4.7 \"boiler house"), 14, "a closing '\"'", END),
    (Line(14, "coupler 4.7 boiler house\""), 14, "a closing '\"'", END),
    (Line(16, "    up all \"open"), 16, "a closing '\"'", END),
    (Line(16, "    \"up all open"), 16, "a closing '\"'", END),
    (Line(17, "    table \"leak-meters"), 17, "a closing '\"'", END),
    (Line(1, "# a comment\rcoupler 4.8\r  both all open"), 1, "lines that end in LF or CR LF", r"'\r'"),
    (Line(2, "# a comment\u{2028}coupler 4.8"), 2, "lines that end in LF", r"'\u{2028}'"),
    (Line(2, "# a comment\u{2029}coupler 4.8"), 2, "lines that end in LF", r"'\u{2029}'"),
    (Line(2, "# a comment\u{85}coupler 4.8"), 2, "lines that end in LF", r"'\u{85}'"),
    (Line(5, "    2/2/70\u{c}"), 5, "no control character but tabs", r"'\u{c}'"),
    (Line(14, "coupler 4.7 \"boiler\u{7}\""), 14, "no control character", r"'\u{7}'"),
    (Line(16, "    up all open\0"), 16, "no control character", r"'\0'"),
    (Line(1, "\u{feff}\u{feff}site \"a\""), 1, "'site', 'table'", r"'\u{feff}site'"),
    (Line(5, "    2/2/70\u{200b}"), 5, "a group address", r"'2/2/70\u{200b}'"),
];

#[rustfmt::skip]
const TABLES: &[Broken] = &[
    (Line(3, "table"), 3, "a table's name: a letter, then", END),
    (Line(3, "table \"leak-meters\""), 3, "a table's name", "the text 'leak-meters'"),
    (Line(3, "table 1st-floor"), 3, "a table's name", "'1st-floor'"),
    (Line(3, "table leak/meters"), 3, "a table's name", "'leak/meters'"),
    (Line(3, "table leak-meters:"), 3, "a table's name", "'leak-meters:'"),
    (Line(3, "table = leak-meters"), 3, "a table's name", "'='"),
    (Line(3, "table , leak-meters"), 3, "a table's name", "','"),
    (Line(3, "table -leak"), 3, "a table's name", "'-leak'"),
    (Line(3, "table leak meters"), 3, END, "'meters'"),
    (Line(3, "table leak-meters {"), 3, END, "'{'"),
    (Line(3, "table leak-meters = 2/2/52"), 3, END, "'='"),
    (Line(3, "table leak-meters 2/2/52"), 3, END, "'2/2/52'"),
    (Line(3, "table leak-meters, boilers"), 3, END, "','"),
    (Line(3, "table leak-meters \"Litres lost\""), 3, END, "the text 'Litres lost'"),
    (Line(3, "tabel leak-meters"), 3, "'site', 'table'", "'tabel'"),
    (Line(3, "Table leak-meters"), 3, "'site', 'table'", "'Table'"),
    (Line(3, "tables leak-meters"), 3, "'site', 'table'", "'tables'"),
    (Line(3, "own table leak-meters"), 3, "'site', 'table'", "'own'"),
    (Line(3, "leak-meters"), 3, "'site', 'table'", "'leak-meters'"),
    (Line(7, "project common"), 7, "'table'", "'common'"),
    (Line(7, "project"), 7, "'table'", END),
    (Line(7, "project tables common"), 7, "'table'", "'tables'"),
    (Line(7, "project \"table\" common"), 7, "'table'", "the text 'table'"),
    (Line(7, "project table"), 7, "a table's name", END),
    (Line(7, "project table 0"), 7, "a table's name", "'0'"),
    (Line(7, "projekt table common"), 7, "'project table'", "'projekt'"),
    (Line(7, "project-table common"), 7, "'project table'", "'project-table'"),
    (Line(7, "table project common"), 7, END, "'common'"),
    (Line(7, "project table leak-meters"), 7, "a name other than 'leak-meters'", "the name of the table at line 3"),
    (Line(6, "table leak-meters\n    1/1/1"), 6, "a name other than 'leak-meters'", "the name of the table at line 3"),
    (Line(2, "table leak-meters"), 2, "or a name other than 'leak-meters'", "the name of the table at line 3"),
    (Made(|| tables("project table", PROJECT_TABLES + 1)), 258, "at most 128 project tables", "table 129"),
    (Made(|| tables("table", OWN_TABLES + 1)), 256, "at most 127 tables besides", "table 128"),
    (Made(|| tables("table", OWN_TABLES + 9)), 256, "at most 127 tables besides", "table 128"),
];

/// So many tables, of two lines each, and a coupler that names the last.
fn tables(word: &str, number: usize) -> String {
    let tables: String = (1..=number)
        .map(|place| format!("\n{word} t{place}\n"))
        .collect();
    format!("{tables}coupler 4.7\n    both all open\n    table t{number}\n")
}

#[rustfmt::skip]
const ENTRIES: &[Broken] = &[
    (Line(4, "    2/2/256"), 4, "a group address, as in 2/2/52 (up to 31/7/255)", "'2/2/256'"),
    (Line(4, "    2/8/52"), 4, "(up to 31/7/255)", "'2/8/52'"),
    (Line(4, "    32/0/0"), 4, "(up to 31/7/255)", "'32/0/0'"),
    (Line(4, "    2/2048"), 4, "2/564 (up to 31/2047)", "'2/2048'"),
    (Line(4, "    32/1"), 4, "2/564 (up to 31/2047)", "'32/1'"),
    (Line(4, "    65536"), 4, "4660 (up to 65535) or 1234h", "'65536'"),
    (Line(4, "    99999999999999999999"), 4, "4660 (up to 65535)", "'99999999999999999999'"),
    (Line(4, "    12345h"), 4, "or 1234h", "'12345h'"),
    (Line(4, "    123h"), 4, "or 1234h", "'123h'"),
    (Line(4, "    12G4h"), 4, "or 1234h", "'12G4h'"),
    (Line(4, "    0x1234"), 4, "or 1234h", "'0x1234'"),
    (Line(4, "    $1234"), 4, "or 1234h", "'$1234'"),
    (Line(4, "    FFFF"), 4, "or 1234h", "'FFFF'"),
    (Line(4, "    2/2/"), 4, "a group address", "'2/2/'"),
    (Line(4, "    /2/52"), 4, "a group address", "'/2/52'"),
    (Line(4, "    2//52"), 4, "a group address", "'2//52'"),
    (Line(4, "    2/2/52/1"), 4, "a group address", "'2/2/52/1'"),
    (Line(4, "    2.2.52"), 4, "a group address", "'2.2.52'"),
    (Line(4, "    2\\2\\52"), 4, "a group address", r"'2\\2\\52'"),
    (Line(4, "    2/2/52."), 4, "a group address", "'2/2/52.'"),
    (Line(4, "    2/2/52:"), 4, "a group address", "'2/2/52:'"),
    (Line(4, "    2/2/52; 2/2/53"), 4, "a group address", "'2/2/52;'"),
    (Line(4, "    2/2/-52"), 4, "a group address", "'2/2/'"),
    (Line(4, "    +1"), 4, "a group address", "'+1'"),
    (Line(4, "    -1"), 4, "a group address", "'-'"),
    (Line(4, "    1e3"), 4, "a group address", "'1e3'"),
    (Line(4, "    2/2/x"), 4, "a group address", "'2/2/x'"),
    (Line(4, "    2/2/*"), 4, "a group address", "'2/2/*'"),
    (Line(4, "    2/2/(52-60)"), 4, "a group address", "'2/2/(52'"),
    (Line(4, "    !2/2/52"), 4, "a group address", "'!2/2/52'"),
    (Line(4, "    \u{ff12}/2/52"), 4, "a group address", "'\u{ff12}/2/52'"),
    (Line(4, "    2/2/052"), 4, "a group address", "'2/2/052' with a leading zero"),
    (Line(4, "    0100"), 4, "a group address", "'0100' with a leading zero"),
    (Line(4, "    \"2/2/52\""), 4, "a group address", "the text '2/2/52'"),
    (Line(4, "    group 2/2/52"), 4, "a group address", "'group'"),
    (Line(4, "    all"), 4, "a group address", "'all'"),
    (Line(4, "    down all open"), 4, "a group address", "'down'"),
    (Line( 4, "    abcdefghijklmnopqrstuvwxyzabcdefghijklmnopqrstuvwxyz", ), 4, "a group address", "'abcdefghijklmnopqrstuvwxyzabcdefghijklmn'.."),
    (Line(4, "    2/2/52 2/2/53"), 4, "'-', ',' or the end of the line", "'2/2/53'"),
    (Line(4, "    2/2/52 to 2/2/60"), 4, "'-', ',' or", "'to'"),
    (Line(4, "    2/2/52 .. 2/2/60"), 4, "'-', ',' or", "'..'"),
    (Line(4, "    2/2/52 \u{2013} 2/2/60"), 4, "'-', ',' or", "'\u{2013}'"),
    (Line(4, "    2/2/52\u{2014}2/2/60"), 4, "'-', ',' or", "'\u{2014}'"),
    (Line(4, "    2/2/52 flow temperature"), 4, "'-', ',' or", "'flow'"),
    (Line(4, "    2/2/52 \"flow temperature\""), 4, "'-', ',' or", "the text 'flow temperature'"),
    (Line(4, "    2 / 2 / 52"), 4, "'-', ',' or", "'/'"),
    (Line(4, "    2/2/52 = 1"), 4, "'-', ',' or", "'='"),
    (Line(4, "    2/2/52..2/2/60"), 4, "a group address", "'2/2/52..2/2/60'"),
    (Line(4, "    2/2/52 -"), 4, "a group address", END),
    (Line(4, "    2/2/52 -, 2/2/60"), 4, "a group address", "','"),
    (Line(4, "    2/2/52 -- 2/2/60"), 4, "a group address", "'-'"),
    (Line(4, "    - 2/2/60"), 4, "a group address", "'-'"),
    (Line(4, "    2/2/52 - 2/2/256"), 4, "a group address", "'2/2/256'"),
    (Line(4, "    2/2/52 - \"2/2/60\""), 4, "a group address", "the text '2/2/60'"),
    (Line(4, "    2/2/60 - 2/2/52"), 4, "a group from 2/2/60 on", "'2/2/52'"),
    (Line(4, "    2/2/52-60"), 4, "in the form of 2/2/52", "'60'"),
    (Line(4, "    2/2/52, 53"), 4, "in the form of 2/2/52", "'53'"),
    (Line(4, "    52, 2/2/53"), 4, "in the form of 52", "'2/2/53'"),
    (Line(4, "    2/2/52 - 2/600"), 4, "in the form of 2/2/52", "'2/600'"),
    (Line(4, "    1234h, 4661"), 4, "in the form of 1234h", "'4661'"),
    (Line(4, "    2/2/52 - 2/2/60 - 2/2/70"), 4, "',' or the end of the line, after a range", "'-'"),
    (Line(4, "    2/2/52 - 2/2/60 2/2/70"), 4, "after a range", "'2/2/70'"),
    (Line(4, "    2-2-52"), 4, "after a range", "'-'"),
    (Line(4, "    2/2/52,"), 4, "a group address", END),
    (Line(4, "    , 2/2/52"), 4, "a group address", "','"),
    (Line(4, "    2/2/52,, 2/2/53"), 4, "a group address", "','"),
    (Line(4, "    ,"), 4, "a group address", "','"),
];

#[rustfmt::skip]
const COUPLERS: &[Broken] = &[
    (Line(14, "coupler"), 14, "the coupler's line, as in 4.7, area and line from 0 to 15", END),
    (Line(14, "coupler 4"), 14, "the coupler's line", "'4'"),
    (Line(14, "coupler 4.7.0"), 14, "the coupler's line", "'4.7.0'"),
    (Line(14, "coupler 4.16"), 14, "the coupler's line", "'4.16'"),
    (Line(14, "coupler 16.0"), 14, "the coupler's line", "'16.0'"),
    (Line(14, "coupler 4,7"), 14, "the coupler's line", "'4'"),
    (Line(14, "coupler 4/7"), 14, "the coupler's line", "'4/7'"),
    (Line(14, "coupler 4-7"), 14, "the coupler's line", "'4-7'"),
    (Line(14, "coupler 47h"), 14, "the coupler's line", "'47h'"),
    (Line(14, "coupler 4.07"), 14, "the coupler's line", "'4.07' with a leading zero"),
    (Line(14, "coupler 4."), 14, "the coupler's line", "'4.'"),
    (Line(14, "coupler .7"), 14, "the coupler's line", "'.7'"),
    (Line(14, "coupler 4..7"), 14, "the coupler's line", "'4..7'"),
    (Line(14, "coupler -4.7"), 14, "the coupler's line", "'-4.7'"),
    (Line(14, "coupler 4.7:"), 14, "the coupler's line", "'4.7:'"),
    (Line(14, "coupler 4.x"), 14, "the coupler's line", "'4.x'"),
    (Line(14, "coupler line 4.7"), 14, "the coupler's line", "'line'"),
    (Line(14, "coupler \"4.7\""), 14, "the coupler's line", "the text '4.7'"),
    (Line(14, "coupler \"boiler house\" 4.7"), 14, "the coupler's line", "the text 'boiler house'"),
    (Line(14, "coupler 4.7 boiler house"), 14, "a label in straight quotes, as in \"boiler house\"", "'boiler'"),
    (Line(14, "coupler 4.7 \u{201c}boiler\u{201d}"), 14, "a label in straight quotes", "'\u{201c}boiler\u{201d}'"),
    (Line(14, "coupler 4.7 'boiler'"), 14, "a label in straight quotes", r"'\'boiler\''"),
    (Line(14, "coupler 4.7, 4.8"), 14, "or the end of the line", "','"),
    (Line(14, "coupler 4.7 - 4.9"), 14, "or the end of the line", "'-'"),
    (Line(14, "coupler 4.7 table leak-meters"), 14, "or the end of the line", "'table'"),
    (Line(14, "coupler 4.7 both all open"), 14, "or the end of the line", "'both'"),
    (Line(14, "coupler 4.7 \"boiler\" \"house\""), 14, END, "the text 'house'"),
    (Line(14, "coupler 4.7 \"boiler house\" IP"), 14, END, "'IP'"),
    (Line(14, "coupler 4.7 \"boiler house\","), 14, END, "','"),
    (Line(14, "coupler 4.7 \"boiler \"north\" house\""), 14, END, "'north'"),
    (Line(14, r#"coupler 4.7 "boiler \"north\" house""#), 14, END, r"'north\\'"),
    (Line(14, "coupler4.7"), 14, "'site', 'table', 'project table' or 'coupler'", "'coupler4.7'"),
    (Line(14, "couplers 4.7 4.8"), 14, "or 'coupler'", "'couplers'"),
    (Line(14, "Coupler 4.7"), 14, "or 'coupler'", "'Coupler'"),
    (Line(14, "line 4.7"), 14, "or 'coupler'", "'line'"),
    (Line(14, "4.7"), 14, "or 'coupler'", "'4.7'"),
];

#[rustfmt::skip]
const SETTINGS: &[Broken] = &[
    (Line(15, "    down"), 15, "'individual', 'broadcast', 'groups' or 'all'", END),
    (Line(15, "    down open"), 15, "'individual', 'broadcast'", "'open'"),
    (Line(15, "    down 2 2 2 2"), 15, "'individual', 'broadcast'", "'2'"),
    (Line(15, "    down all=open"), 15, "'individual', 'broadcast'", "'all=open'"),
    (Line(15, "    down individual: open"), 15, "'individual', 'broadcast'", "'individual:'"),
    (Line(15, "    down Individual open"), 15, "'individual', 'broadcast'", "'Individual'"),
    (Line(15, "    down \"all open\""), 15, "'individual', 'broadcast'", "the text 'all open'"),
    (Line(15, "    down individual open, unicast open"), 15, "'individual', 'broadcast'", "'unicast'"),
    (Line(15, "    down individual open, broadcast open, group open"), 15, "'groups' or 'all'", "'group'"),
    (Line(15, "    down all open,"), 15, "'individual', 'broadcast'", END),
    (Line(15, "    down , all open"), 15, "'individual', 'broadcast'", "','"),
    (Line(15, "    down individual open,, broadcast open"), 15, "'individual', 'broadcast'", "','"),
    (Line(15, "    down ,"), 15, "'individual', 'broadcast'", "','"),
    (Line(15, "    down all"), 15, "'closed', 'filter' or 'open'", END),
    (Line(15, "    down all opne"), 15, "'closed', 'filter' or 'open'", "'opne'"),
    (Line(15, "    down all Open"), 15, "'closed', 'filter' or 'open'", "'Open'"),
    (Line(15, "    down all 2"), 15, "'closed', 'filter' or 'open'", "'2'"),
    (Line(15, "    down all \"open\""), 15, "'closed', 'filter' or 'open'", "the text 'open'"),
    (Line(15, "    down all but individual open"), 15, "'closed', 'filter' or 'open'", "'but'"),
    (Line(15, "    down all filtered"), 15, "'closed', 'filter' or 'open'", "'filtered'"),
    (Line(15, "    down individual not open"), 15, "'closed', 'filter' or 'open'", "'not'"),
    (Line(15, "    down individual, broadcast open"), 15, "'closed', 'filter' or 'open'", "','"),
    (Line(15, "    down individual open; broadcast open"), 15, "'closed', 'filter' or 'open'", "'open;'"),
    (Line(15, "    down groups 0-13, groups 14-31 open"), 15, "'closed', 'filter' or 'open'", "','"),
    (Line(15, "    down groups 0-13 14-31 open"), 15, "'closed', 'filter' or 'open'", "'14-31'"),
    (Line(15, "    down all open open"), 15, "',' or the end of the line", "'open'"),
    (Line(15, "    down individual open broadcast open"), 15, "',' or the end of the line", "'broadcast'"),
    (Line(15, "    down all filter leak-meters"), 15, "',' or the end of the line", "'leak-meters'"),
    (Line(15, "    down groups 0-15 open"), 15, "'0-13', '14-31', 'closed', 'filter' or 'open'", "'0-15'"),
    (Line(15, "    down groups 0 - 13 open"), 15, "'0-13', '14-31'", "'0'"),
    (Line(15, "    down groups 0\u{2013}13 open"), 15, "'0-13', '14-31'", "'0\u{2013}13'"),
    (Line(15, "    down groups 13 open"), 15, "'0-13', '14-31'", "'13'"),
    (Line(15, "    down groups 0/0/1-13/7/255 open"), 15, "'0-13', '14-31'", "'0/0/1-13/7/255'"),
    (Line(15, "    down groups lower open"), 15, "'0-13', '14-31'", "'lower'"),
    (Line(15, "    down groups"), 15, "'0-13', '14-31'", END),
    (Line(15, "    down groups, all open"), 15, "'0-13', '14-31'", "','"),
    (Line(15, "    down groups \"0-13\" open"), 15, "'0-13', '14-31'", "the text '0-13'"),
    (Line(15, "    down individual open"), 15, "a setting for broadcast and groups 0-13 and groups 14-31", "none"),
    (Line(15, "    down individual open, broadcast open"), 15, "a setting for groups 0-13 and groups 14-31", "none"),
    (Line(15, "    down individual open, groups open"), 15, "a setting for broadcast", "none"),
    (Line(15, "    down broadcast open, groups open"), 15, "a setting for individual", "none"),
    (Line( 15, "    down individual open, broadcast open, groups 0-13 open", ), 15, "a setting for groups 14-31", "none"),
    (Line(15, "    down all open, individual filter"), 15, "one setting for individual", "a second one"),
    (Line( 15, "    down groups 0-13 closed, groups open, broadcast open, individual open", ), 15, "one setting for groups 0-13", "a second one"),
    (Line(15, "    down broadcast open, all open"), 15, "one setting for broadcast", "a second one"),
];

#[rustfmt::skip]
const BELOW: &[Broken] = &[
    (Line(15, ""), 14, "a line 'down' below", "none"),
    (Line(16, "    up individual open,\n       broadcast open, groups open"), 16, "'individual', 'broadcast'", END),
    (Line(16, "    up individual open, broadcast open\n       groups open"), 16, "a setting for groups 0-13 and", "none"),
    (Line(16, "    up\n        all open"), 16, "'individual', 'broadcast'", END),
    (Line(16, "    up all open\n       groups open"), 17, "'down', 'up', 'both' or 'table'", "'groups'"),
    (Line(16, ""), 14, "a line 'up' below", "none"),
    (Line(11, ""), 10, "the lines 'down' and 'up', or 'both', below", "none"),
    (Line(15, "    dwon all open"), 15, "'down', 'up', 'both' or 'table'", "'dwon'"),
    (Line(15, "    Down all open"), 15, "'down', 'up', 'both' or 'table'", "'Down'"),
    (Line(15, "    down: all open"), 15, "'down', 'up', 'both' or 'table'", "'down:'"),
    (Line(15, "    main to sub all open"), 15, "'down', 'up', 'both' or 'table'", "'main'"),
    (Line(11, "    all open"), 11, "'down', 'up', 'both' or 'table'", "'all'"),
    (Line(11, "    both, all open"), 11, "'individual', 'broadcast'", "','"),
    (Line(16, "    down all open"), 16, "'down' once", "a second one; line 15 has the first"),
    (Line(16, "    both all open"), 16, "'down' once", "line 15 has the first"),
    (Line(12, "    up all open"), 12, "'up' once", "line 11 has the first"),
    (Line(17, "    tables leak-meters"), 17, "'both' or 'table'", "'tables'"),
    (Line(17, "    table: leak-meters"), 17, "'both' or 'table'", "'table:'"),
    (Line(17, "    filter leak-meters"), 17, "'both' or 'table'", "'filter'"),
    (Line(17, "    project table common"), 17, "'both' or 'table'", "'project'"),
    (Line(17, "    \"boiler house\""), 17, "'both' or 'table'", "the text 'boiler house'"),
    (Line(17, "    medium IP"), 17, "'both' or 'table'", "'medium'"),
    (Line(17, "    2/2/52\n    2/2/53"), 17, "'both' or 'table'", "'2/2/52'"),
    (Line(17, "    table\n        2/2/52\n        2/2/53"), 17, "a table's name", END),
    (Line(17, "    table 128"), 17, "a table's name", "'128'"),
    (Line(17, "    table \"leak-meters\""), 17, "a table's name", "the text 'leak-meters'"),
    (Line(17, "    table leak-meters common"), 17, END, "'common'"),
    (Line(17, "    table leak-meters, common"), 17, END, "','"),
    (Line(17, "    table leak_meters"), 17, "the name of a table in this file", "'leak_meters'"),
    (Line(17, "    table Leak-Meters"), 17, "the name of a table in this file", "'Leak-Meters'"),
    (Line(17, "    table none"), 17, "the name of a table in this file", "'none'"),
    (Line(17, "    table leak-meters\n    table common"), 18, "one table", "a second one; line 17 has the first"),
];

#[rustfmt::skip]
const WHOLE: &[Broken] = &[
    (Whole(b"\xff\xfes\0i\0t\0e\0"), 1, "a text in UTF-8", "the octet FFh"),
    (Whole(b"# K\xfcche\ncoupler 4.7\n    both all open\n"), 1, "a text in UTF-8", "the octet FCh"),
    (Whole(b"coupler 4.7\n    both all open\n# \xc0\x80"), 3, "a text in UTF-8", "the octet C0h"),
    (Whole(b"site \"\xed\xa0\x80\"\n"), 1, "a text in UTF-8", "the octet EDh"),
    (Whole(b"site \"a\"\r\n# K\xc3"), 2, "a text in UTF-8", "the octet C3h"),
    (Whole(b"coupler 4.7"), 1, "the lines 'down' and 'up', or 'both', below", "none"),
    (Whole(b"\n\n\ncoupler 4.7\n\n# down all open\n\n    up all open"), 4, "a line 'down' below", "none"),
    (Whole(b"coupler 4.7\r\n    both all open\r\ntable t\r\n\r\ntable t\r\n    1/1/1\r\n"), 3, "spaces or a tab before 'table', or", "line 5"),
    (Whole(b"2/2/52"), 1, "'site', 'table'", "'2/2/52'"),
    (Whole(b"table t\n    1/1/1 #\n    1/1/\n\n"), 3, "a group address", "'1/1/'"),
    (Whole(b"CP\x01\x02"), 1, "no control character", r"'\u{1}'"),
];
