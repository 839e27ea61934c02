//! A site's text in layouts by chance: comments, blank lines, tabs, line ends, ranges split,
//! overlapping and in any order, addresses in each form, the short words, blocks in any order.

use inputs::Generator;
use planner::address::Group;
use planner::plan::{Class, Coupler, Direction, Groups, Plan, Setting, Store};
use planner::text::{CouplerText, SiteText, TableText};

const NAMES: [&str; 8] = [
    "leak-meters",
    "t",
    "K\u{fc}che",
    "a.b",
    "x_1",
    "table",
    "all",
    "Z9",
];

const LABELS: [&str; 8] = [
    "boiler house",
    "",
    "pumps #3, north",
    "   ",
    "it's 'quoted'",
    "Heizkreis S\u{fc}d \u{2013} \u{201e}alt\u{201c}",
    "coupler 4.7",
    "a\tb\\n",
];

const COMMENTS: [&str; 6] = [
    "#",
    "# the leak meter's line",
    "## \"unclosed",
    "#coupler 4.7",
    "#\u{2713}, \ttabs",
    "# 2/2/52",
];

const SPACES: [&str; 5] = [" ", "    ", "\t", " \t ", "\u{a0}"];

/// A site's text, and what is to be read from it.
pub fn some_layout(generator: &mut Generator, plan: Plan) -> (String, SiteText) {
    let mut site = some_names(generator, plan);
    let mut layout = Layout::new(generator);
    let mut places = [0; 3];
    for block in some_order(layout.generator, &site) {
        match block {
            Block::Title => {
                let title = site.title.clone().unwrap_or_default();
                layout.line(false, &["site", &format!("\"{title}\"")]);
            }
            Block::Table(store) => {
                let place = &mut places[store as usize];
                let groups = site.plan.tables(store)[*place].clone();
                layout.table(store, &mut texts(&mut site, store)[*place], &groups);
                *place += 1;
            }
            Block::Coupler => {
                layout.coupler(&mut site, places[2]);
                places[2] += 1;
            }
        }
    }
    (layout.end(), site)
}

fn texts(site: &mut SiteText, store: Store) -> &mut [TableText] {
    match store {
        Store::Project => &mut site.project,
        Store::Own => &mut site.own,
    }
}

/// Names, labels and a title for a site.
fn some_names(generator: &mut Generator, plan: Plan) -> SiteText {
    let mut site = SiteText::of(plan);
    for (number, table) in site.project.iter_mut().chain(&mut site.own).enumerate() {
        table.name = format!("{}{number}", generator.one_of(&NAMES));
    }
    for coupler in &mut site.couplers {
        coupler.label = some_label(generator);
    }
    site.title = some_label(generator);
    site
}

fn some_label(generator: &mut Generator) -> Option<String> {
    let is_there = generator.below(2) == 0;
    is_there.then(|| generator.one_of(&LABELS).to_string())
}

#[derive(Clone, Copy)]
enum Block {
    Title,
    Table(Store),
    Coupler,
}

/// The blocks in any order: only that of couplers, and of tables in each store, says something.
fn some_order(generator: &mut Generator, site: &SiteText) -> Vec<Block> {
    let mut blocks = vec![Block::Coupler; site.couplers.len()];
    for store in [Store::Project, Store::Own] {
        blocks.extend(site.tables(store).iter().map(|_| Block::Table(store)));
    }
    blocks.extend(site.title.iter().map(|_| Block::Title));
    generator.shuffle(&mut blocks);
    blocks
}

struct Layout<'g> {
    generator: &'g mut Generator,
    text: String,
    lines: usize,
}

impl<'g> Layout<'g> {
    fn new(generator: &'g mut Generator) -> Layout<'g> {
        let mark = generator.one_of(&["", "", "", "\u{feff}"]);
        Layout {
            generator,
            text: mark.into(),
            lines: 0,
        }
    }

    fn end(mut self) -> String {
        self.noise();
        if self.generator.below(4) == 0 {
            self.text
                .truncate(self.text.trim_end_matches(['\r', '\n']).len());
        }
        self.text
    }

    fn end_line(&mut self) {
        self.text += self.generator.one_of(&["\n", "\n", "\r\n"]);
        self.lines += 1;
    }

    /// Blank lines and comments, indented or not.
    fn noise(&mut self) {
        while self.generator.below(4) == 0 {
            self.text += self.generator.one_of(&["", "", " ", "\t\t"]);
            self.text += self
                .generator
                .one_of(&["", COMMENTS[1], COMMENTS[2], COMMENTS[3]]);
            self.end_line();
        }
    }

    /// A line of words and commas, and its number.
    fn line(&mut self, indented: bool, words: &[&str]) -> usize {
        self.noise();
        let mut before = indented;
        for word in words {
            if before && *word != "," || self.generator.below(4) == 0 && self.may_space(indented) {
                self.text += self.generator.one_of(&SPACES);
            }
            self.text += word;
            before = *word != ",";
        }
        if self.generator.below(4) == 0 {
            self.text += self.generator.one_of(&["", " ", "\t"]);
            self.text += self.generator.one_of(&COMMENTS);
        }
        self.end_line();
        self.lines
    }

    /// Everywhere but before a line that begins a block.
    fn may_space(&self, indented: bool) -> bool {
        indented || !self.text.ends_with(['\n', '\u{feff}']) && !self.text.is_empty()
    }

    fn table(&mut self, store: Store, table: &mut TableText, groups: &Groups) {
        table.at = match store {
            Store::Project => self.line(false, &["project", "table", &table.name]),
            Store::Own => self.line(false, &["table", &table.name]),
        };
        let mut rest = &some_ranges(self.generator, groups)[..];
        while !rest.is_empty() {
            let (ranges, behind) = rest.split_at(1 + self.generator.below(rest.len().min(5)));
            let at = self.ranges(ranges);
            table
                .entries
                .extend(ranges.iter().map(|(first, last)| (at, *first, *last)));
            rest = behind;
        }
    }

    /// A line of entries, all in one form.
    fn ranges(&mut self, ranges: &[(Group, Group)]) -> usize {
        let form = self.generator.one_of(&FORMS);
        let mut words = Vec::new();
        for (first, last) in ranges {
            if !words.is_empty() {
                words.push(",".to_string());
            }
            let (first, last, single) = (form(first.0), form(last.0), first == last);
            match self.generator.below(3) {
                _ if single && self.generator.below(4) > 0 => words.push(first),
                0 => words.push(format!("{first}-{last}")),
                1 => words.extend([first, format!("-{last}")]),
                _ => words.extend([first, "-".into(), last]),
            }
        }
        let words: Vec<&str> = words.iter().map(String::as_str).collect();
        self.line(true, &words)
    }

    fn coupler(&mut self, site: &mut SiteText, place: usize) {
        let coupler = site.plan.couplers[place];
        let name = coupler
            .table
            .map(|table| site.tables(table.store)[table.place].name.clone());
        let text = &mut site.couplers[place];
        let label = text.label.as_ref().map(|label| format!("\"{label}\""));
        let line = coupler.line.to_string();
        let head = ["coupler", &line].into_iter().chain(label.as_deref());
        text.at = self.line(false, &head.collect::<Vec<_>>());
        let mut rows = self.rows(&coupler);
        rows.extend(name.map(|name| vec!["table".into(), name]));
        self.generator.shuffle(&mut rows);
        for row in rows {
            let at = self.line(true, &row.iter().map(String::as_str).collect::<Vec<_>>());
            note(text, &row[0], at);
        }
    }

    /// The settings as `down` and `up`, or as `both`.
    fn rows(&mut self, coupler: &Coupler) -> Vec<Vec<String>> {
        let [down, up] = &coupler.settings;
        if down == up && self.generator.below(2) == 0 {
            return vec![self.settings("both", down)];
        }
        let directions = Direction::ALL.into_iter().zip(&coupler.settings);
        let rows = directions.map(|(direction, row)| self.settings(&direction.to_string(), row));
        rows.collect()
    }

    /// A direction's settings in any order, with the short words where they serve.
    fn settings(&mut self, word: &str, row: &[Setting; 4]) -> Vec<String> {
        let [_, _, lower, upper] = row;
        let mut parts: Vec<(String, Setting)> = Vec::new();
        if row.iter().all(|setting| setting == upper) && self.generator.below(2) == 0 {
            parts.push(("all".into(), *upper));
        } else {
            let classes = Class::ALL.into_iter().zip(row);
            parts.extend(classes.map(|(class, setting)| (class.to_string(), *setting)));
            if lower == upper && self.generator.below(2) == 0 {
                parts.truncate(2);
                parts.push(("groups".into(), *lower));
            }
        }
        self.generator.shuffle(&mut parts);
        let mut words = vec![word.to_string()];
        for (class, setting) in parts {
            if words.len() > 1 {
                words.push(",".into());
            }
            words.extend(class.split(' ').map(String::from));
            words.push(setting.to_string());
        }
        words
    }
}

fn note(text: &mut CouplerText, word: &str, at: usize) {
    match word {
        "down" => text.rows[0] = at,
        "up" => text.rows[1] = at,
        "both" => text.rows = [at; 2],
        _ => text.table = Some(at),
    }
}

const FORMS: [fn(u16) -> String; 4] = [
    |group| Group(group).to_string(),
    |group| format!("{}/{}", group >> 11, group & 0x7ff),
    |group| group.to_string(),
    |group| format!("{group:04X}h"),
];

/// The same groups in other ranges: split, overlapping, some twice, in any order.
fn some_ranges(generator: &mut Generator, groups: &Groups) -> Vec<(Group, Group)> {
    let mut ranges = Vec::new();
    for &(first, last) in groups.ranges() {
        let mut from = first;
        while generator.below(2) == 0 {
            let to = between(generator, from, last);
            ranges.push((from, to));
            from = between(generator, first, Group(to.0.saturating_add(1).min(last.0)));
        }
        ranges.push((from, last));
    }
    generator.shuffle(&mut ranges);
    ranges
}

fn between(generator: &mut Generator, first: Group, last: Group) -> Group {
    let size = usize::from(last.0 - first.0) + 1;
    Group(first.0 + generator.below(size) as u16)
}
