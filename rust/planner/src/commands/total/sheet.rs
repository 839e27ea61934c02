//! The answer for people.

use super::listening::Stopped;
use super::{Answer, Outcome};
use crate::address::Group;
use crate::litres::{shown, thousands};
use crate::telegrams::{Account, Counts};

/// What stands before the litres and before the telegrams of a month.
const MONTH_HEAD: [&str; 3] = ["month", "litres", "telegrams"];

/// Tells the total, then what was counted and what was not.
pub fn told(answer: &Answer<'_>) -> String {
    let mut rows = vec![format!("group {}", Group(answer.asked.question.group))];
    rows.extend(answer.heard.stopped.as_ref().map(incomplete));
    match answer.result {
        Outcome::Nothing => rows.extend(total_rows(answer, None)),
        Outcome::Total(account) => rows.extend(total_rows(answer, Some(account))),
        Outcome::NoSum | Outcome::NoSuchWay(_) => rows.extend(way_rows(answer)),
    }
    rows.extend(refused_rows(answer));
    rows.extend(unread_rows(answer));
    if let Outcome::Total(account) = answer.result {
        rows.extend(month_rows(answer, account));
    }
    rows.join("\n") + "\n"
}

/// Beside the figure itself, for whoever does not see standard error.
fn incomplete(stopped: &Stopped) -> String {
    let place = match (stopped.packet, stopped.line) {
        (Some((octet, packet)), _) => format!("octet {octet}, packet {packet}"),
        (None, Some(line)) => format!("line {line}"),
        (None, None) => "there".into(),
    };
    format!("incomplete: the file cannot be read on from {place}")
}

/// The total, with the numbers of the whole file or of the chosen ways.
fn total_rows(answer: &Answer<'_>, account: Option<&Account>) -> Vec<String> {
    let mut rows = Vec::new();
    if answer.heard.is_capture {
        rows.extend(account.into_iter().flat_map(ways));
    }
    let total = account.map_or(answer.asked.question.start, Account::total);
    rows.extend(start_row(answer));
    rows.push(format!("total {} litres", shown(total)));
    rows.extend(count_rows(answer, &answer.counts));
    if !answer.asked.question.chosen.is_empty() {
        rows.extend(not_chosen(answer));
    }
    rows
}

fn start_row(answer: &Answer<'_>) -> Option<String> {
    let start = answer.asked.question.start;
    (start != 0).then(|| format!("start {} litres", shown(start)))
}

fn ways(account: &Account) -> impl Iterator<Item = String> + '_ {
    let numbered = account.ways.iter();
    numbered.filter_map(|(number, way)| number.map(|number| format!("way {number}: {way}")))
}

/// Each way with its own total: there is no sum.
fn way_rows(answer: &Answer<'_>) -> Vec<String> {
    let mut rows = vec!["no sum".into()];
    rows.extend(start_row(answer));
    for account in answer.numbered() {
        rows.extend(ways(account));
        let mut own = vec![format!("total {} litres", shown(account.total()))];
        own.extend(count_rows(answer, &account.counts));
        own.extend(some("refused", account.counts.refusals(), ""));
        own.extend(month_rows(answer, account));
        rows.extend(own.iter().map(|row| format!("  {row}")));
    }
    rows
}

/// The ways that have increments too and are left out.
fn not_chosen(answer: &Answer<'_>) -> Vec<String> {
    let chosen = &answer.asked.question.chosen;
    let is_left = |account: &&Account| match account.ways[..] {
        [(Some(number), _), ..] => !chosen.contains(&number),
        _ => false,
    };
    let left = answer.numbered().into_iter().filter(is_left);
    left.map(|account| {
        let counted = thousands(account.counts.counted);
        let way: Vec<String> = ways(account).collect();
        format!("not chosen {counted} of {}", way.join(", "))
    })
    .collect()
}

/// What the telegrams of ways were.
fn count_rows(answer: &Answer<'_>, counts: &Counts) -> Vec<String> {
    let mut rows = vec![
        counted_row(answer, counts),
        format!("repetitions {}", thousands(counts.repetitions)),
        format!("no increment {}", thousands(counts.no_increment)),
        format!("other groups {}", thousands(counts.other_groups)),
    ];
    let gaps = "an increment may be missing or twice at each";
    rows.extend(some(
        "requests and confirmations",
        counts.not_indications,
        "",
    ));
    rows.extend(some("sent again", counts.sent_again, ""));
    rows.extend(some("gaps", counts.gaps, gaps));
    rows.extend(some("captured twice", counts.twins, "each time counted"));
    rows
}

fn counted_row(answer: &Answer<'_>, counts: &Counts) -> String {
    let place = answer.asked.question.place;
    let number = thousands(counts.counted);
    let mut row = match counts.counted {
        1 => "counted 1 telegram".into(),
        _ => format!("counted {number} telegrams"),
    };
    if let Some((first, last)) = counts.times {
        let zone = place.name();
        row += &match first == last {
            true => format!(", {} {zone}", first.shown(place)),
            false => format!(", {} to {} {zone}", first.shown(place), last.shown(place)),
        };
    }
    if counts.without_time > 0 && counts.times.is_some() {
        row += &format!(", {} without a time", thousands(counts.without_time));
    }
    row
}

/// A row that is left out where there is nothing to tell.
fn some(what: &str, number: u64, behind: &str) -> Option<String> {
    let comma = if behind.is_empty() { "" } else { ", " };
    (number > 0).then(|| format!("{what} {}{comma}{behind}", thousands(number)))
}

/// Refusals by number, with the paper's words.
fn refused_rows(answer: &Answer<'_>) -> Vec<String> {
    let untold = answer.ledger().aside.untold;
    let sum = thousands(answer.counts.refusals() + untold);
    let mut cells: Vec<(String, String, &str)> = Vec::new();
    for (refusal, count) in &answer.counts.refused {
        let number = refusal.number().to_string();
        cells.push((number, thousands(*count), refusal.words()));
    }
    if untold > 0 {
        cells.push(("-".into(), thousands(untold), "no kind of frame"));
    }
    let width = cells.iter().map(|(_, count, _)| count.len()).max();
    let width = width.unwrap_or_default();
    let rows = cells
        .iter()
        .map(|(number, count, words)| format!("{number:>4}  {count:>width$}  {words}"));
    [format!("refused {sum}")].into_iter().chain(rows).collect()
}

/// What was not read, and why.
fn unread_rows(answer: &Answer<'_>) -> impl Iterator<Item = String> {
    let aside = &answer.ledger().aside;
    let lost = "routers tell of lost telegrams";
    let missing = "an increment may be among them";
    let rows = [
        some("other services", aside.other_services, ""),
        some(lost, aside.lost, missing),
        some("cut short, not read", aside.cut, missing),
        some("fragmented, not read", aside.fragments, missing),
        some("other link types, not read", aside.other_links, ""),
        some("other packets", aside.other_packets, ""),
    ];
    rows.into_iter().flatten()
}

/// The sum of each month, and below them what they add up to.
fn month_rows(answer: &Answer<'_>, account: &Account) -> Vec<String> {
    let question = &answer.asked.question;
    if !question.by_month {
        return Vec::new();
    }
    let mut cells = vec![MONTH_HEAD.map(String::from)];
    if question.start != 0 {
        cells.push(["start".into(), shown(question.start), String::new()]);
    }
    let (timeless, months): (Vec<_>, Vec<_>) =
        account.months().partition(|(month, _)| month.is_none());
    for (month, sum) in months.into_iter().chain(timeless) {
        let name = month.map_or("no time".into(), |month| month.to_string());
        cells.push([name, shown(sum.hundredths()), thousands(sum.counted)]);
    }
    let counted = thousands(account.counts.counted);
    cells.push(["total".into(), shown(account.total()), counted]);
    let widths = [0, 1, 2].map(|column| cells.iter().map(|row| row[column].len()).max());
    let [first, second, third] = widths.map(Option::unwrap_or_default);
    let row = |[name, litres, telegrams]: &[String; 3]| {
        let row = format!("{name:<first$}  {litres:>second$}  {telegrams:>third$}");
        row.trim_end().to_string()
    };
    cells.iter().map(row).collect()
}
