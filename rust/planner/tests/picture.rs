//! What a picture says is what the library answers, nothing lies over anything else, and whatever a
//! planner writes into a label, it is well-formed.

#[allow(dead_code)]
#[path = "support/queries.rs"]
mod queries;
#[path = "picture/shapes.rs"]
mod shapes;
mod support;
#[path = "picture/xml.rs"]
mod xml;

use inputs::{seed, Generator};
use klumdray::tracer::Reason;
use planner::address::{Group, Individual, Line};
use planner::loading::{load, translate, Site};
use planner::picture::draw;
use planner::plan::{Direction, Plan};
use planner::text::SiteText;
use planner::tracing::{lines, trace, Destination, Telegram, Traced};
use queries::some_query;
use shapes::{area, corners, ends, parts, Area};
use std::collections::BTreeSet;
use std::sync::OnceLock;
use support::sites::well_formed_site;
use xml::{read, Element};

const SITES: usize = 400;

/// A site, a telegram, the answer, and the picture of it.
struct Case {
    site: Site,
    telegram: Telegram,
    traced: Traced,
    picture: Element,
}

impl Case {
    fn new(text: SiteText, telegram: Telegram) -> Case {
        let octets = translate(&text.plan).expect("a site that words can say");
        let site = Site {
            file: "some.site".into(),
            text,
            octets,
        };
        let traced = trace(&site, &telegram).expect("a well-formed site");
        let picture = read(&draw(&site, &telegram, &traced)).expect("well-formed XML");
        Case {
            site,
            telegram,
            traced,
            picture,
        }
    }

    fn lines(&self) -> BTreeSet<Line> {
        lines(&self.site, &self.telegram)
    }

    /// The one element below the root that an attribute names a line in.
    fn of_line(&self, attribute: &str, line: Line) -> &Element {
        let children = self.picture.children.iter();
        let name = line.to_string();
        let named = children.filter(|element| element.attribute(attribute) == Some(&name));
        let named: Vec<&Element> = named.collect();
        assert_eq!(named.len(), 1, "{attribute} {line}");
        named[0]
    }

    /// The direction in which the telegram comes to a line's coupler: up from below, else down.
    fn direction(&self, line: Line) -> Direction {
        let from = self.telegram.from;
        if from != Line(0) && (from == line || from.main() == line) {
            Direction::Up
        } else {
            Direction::Down
        }
    }
}

/// What a label may hold, and what SVG has to escape, cut or replace.
const LETTERS: [char; 24] = [
    '<', '>', '&', '"', '\'', ']', ';', '-', 'a', 'g', 'i', 'm', 'W', 'Q', '@', '7', ' ', ' ', 'ä',
    'é', 'ß', '漢', '\u{1}', '\u{fffe}',
];

fn some_text(generator: &mut Generator) -> Option<String> {
    let length = generator.one_of(&[0, 1, 5, 12, 20, 30, 200]);
    let letters = (0..length).map(|_| generator.one_of(&LETTERS));
    let text: String = letters.collect();
    (length > 0).then_some(text)
}

fn some_telegram(generator: &mut Generator, plan: &Plan) -> Telegram {
    let query = some_query(generator, plan);
    let to = match query.kind {
        0 => Destination::Individual(Individual(query.destination)),
        _ => Destination::Group(Group(query.destination)),
    };
    Telegram {
        from: Line(query.start),
        to,
        count: query.count,
    }
}

fn some_case(generator: &mut Generator) -> Case {
    let mut text = SiteText::of(well_formed_site(generator));
    text.title = some_text(generator);
    for coupler in &mut text.couplers {
        coupler.label = some_text(generator);
    }
    let telegram = some_telegram(generator, &text.plan);
    Case::new(text, telegram)
}

/// Random sites, each with a telegram, drawn once for all tests.
fn for_each(holds: impl FnMut(&Case)) {
    static CASES: OnceLock<Vec<Case>> = OnceLock::new();
    let cases = CASES.get_or_init(|| {
        let mut generator = Generator::new(seed());
        (0..SITES).map(|_| some_case(&mut generator)).collect()
    });
    cases.iter().for_each(holds);
}

fn texts(element: &Element) -> Vec<&str> {
    let texts = element.named("text").into_iter();
    texts.map(|text| text.text.as_str()).collect()
}

fn class(element: &Element) -> &str {
    element.attribute("class").unwrap_or_default()
}

#[test]
fn what_is_not_xml_is_told() {
    assert!(read("<a b=\"&lt;\"><c/>&amp;<d></d></a>\n").is_ok());
    for broken in [
        "",
        "<a>",
        "<a></b>",
        "<a></a><b/>",
        "<a><b></a></b>",
        "<a b=c/>",
        "<a b=\"c/>",
        "<a b=\"c\" b=\"d\"/>",
        "<a b=\"<\"/>",
        "<a>&</a>",
        "<a>&nbsp;</a>",
        "<a>></a>",
        "<a>\u{1}</a>",
        "<a>\u{ffff}</a>",
        "<a/>b",
    ] {
        assert!(read(broken).is_err(), "{broken}");
    }
}

#[test]
fn stands_alone() {
    let known = [
        "svg", "title", "rect", "g", "path", "line", "polygon", "text",
    ];
    for_each(|case| {
        let root = &case.picture;
        assert_eq!(root.name, "svg");
        assert_eq!(root.attribute("xmlns"), Some("http://www.w3.org/2000/svg"));
        let (width, height) = (root.number("width"), root.number("height"));
        let view_box = format!("0 0 {width} {height}");
        assert_eq!(root.attribute("viewBox"), Some(view_box.as_str()));
        let [_, paper, ..] = &root.children[..] else {
            panic!("{root:?}");
        };
        assert_eq!(
            (paper.number("width"), paper.number("height")),
            (width, height)
        );
        assert_eq!(paper.attribute("fill"), Some("#ffffff"));
        for element in root.all() {
            assert!(known.contains(&element.name.as_str()), "{}", element.name);
            let text = matches!(element.name.as_str(), "text" | "title");
            assert!(text || element.text.trim().is_empty(), "{element:?}");
        }
    });
}

#[test]
fn says_site_telegram_and_summary() {
    for_each(|case| {
        let Telegram { from, to, count } = case.telegram;
        let all = texts(&case.picture);
        assert!(all.contains(&format!("{to} from {from}, count {count}").as_str()));
        let lines = match case.traced.reached.len() {
            1 => "1 line".into(),
            number => format!("{number} lines"),
        };
        let forwardings = match case.traced.forwardings {
            1 => "1 forwarding".into(),
            number => format!("{number} forwardings"),
        };
        assert!(all.contains(&format!("{lines} reached, {forwardings}").as_str()));
        if let Some(title) = &case.site.text.title {
            assert!(shows(all[0], title), "{title}");
            assert!(case.picture.named("title")[0]
                .text
                .starts_with(&printed(title)));
        }
    });
}

/// What XML has no character for is replaced.
fn printed(text: &str) -> String {
    text.replace(['\u{1}', '\u{fffe}'], "\u{fffd}")
}

/// Whether a text is shown: whole, or its beginning and an ellipsis.
fn shows(shown: &str, text: &str) -> bool {
    match shown.strip_suffix('…') {
        Some(beginning) => printed(text).starts_with(beginning),
        None => shown == printed(text),
    }
}

#[test]
fn each_line_is_drawn_as_the_library_lists_it() {
    for_each(|case| {
        let lines = case.lines();
        let all = case.picture.all().into_iter();
        let drawn = all.filter(|element| element.attribute("data-line").is_some());
        assert_eq!(drawn.count(), lines.len());
        for line in lines {
            let drawn = case.of_line("data-line", line);
            let texts = texts(drawn);
            assert_eq!(texts[0], line.to_string());
            let mut reached = case.traced.reached.iter();
            let listed = reached.find(|listed| listed.line == line.0);
            let start = line == case.telegram.from;
            let (expected, strokes) = match listed {
                Some(_) if start => ("line reached start", vec![8.0, 3.0]),
                Some(_) => ("line reached", vec![3.0]),
                None => ("line not-reached", vec![1.0]),
            };
            assert_eq!(class(drawn), expected);
            let borders = drawn.named("path").into_iter();
            let borders = borders.map(|path| path.number("stroke-width"));
            assert_eq!(borders.collect::<Vec<_>>(), strokes);
            assert_eq!(texts.contains(&"start"), start);
            let arrival =
                listed.map(|listed| format!("count {}, crossed {}", listed.count, listed.crossed));
            let counts = texts.iter().filter(|text| text.starts_with("count "));
            assert_eq!(
                counts.copied().collect::<Vec<_>>(),
                Vec::from_iter(arrival.as_deref())
            );
        }
    });
}

#[test]
fn labels_are_shown_and_their_titles_have_all_of_them() {
    for_each(|case| {
        let text = &case.site.text;
        for (coupler, said) in text.plan.couplers.iter().zip(&text.couplers) {
            let drawn = case.of_line("data-line", coupler.line);
            if let Some(label) = &said.label {
                assert!(
                    texts(drawn).iter().any(|text| shows(text, label)),
                    "{label}"
                );
                let title = &drawn.named("title")[0].text;
                assert!(
                    title.contains(printed(label).trim_end()),
                    "{label}: {title}"
                );
            }
        }
    });
}

#[test]
fn each_coupler_is_drawn_as_the_library_answers() {
    for_each(|case| {
        let lines = case.lines();
        let all = case.picture.all().into_iter();
        let drawn = all.filter(|element| element.attribute("data-coupler").is_some());
        assert_eq!(drawn.count(), lines.len() - 1);
        let reached = |line: Line| case.traced.reached.iter().any(|one| one.line == line.0);
        for line in lines.into_iter().filter(|line| *line != Line(0)) {
            let drawn = case.of_line("data-coupler", line);
            let mut couplers = case.site.text.plan.couplers.iter();
            let fitted = couplers.any(|coupler| coupler.line == line);
            match (fitted, reached(line), reached(line.main())) {
                (false, ..) => is_not_fitted(drawn),
                (true, true, true) => is_crossed(drawn, line, case.direction(line)),
                (true, false, false) => is_not_asked(drawn),
                (true, ..) => is_stopped(drawn, line, case),
            }
        }
    });
}

fn squares(coupler: &Element) -> Vec<Option<&str>> {
    let squares = coupler.named("rect").into_iter();
    squares.map(|square| square.attribute("fill")).collect()
}

fn is_not_fitted(drawn: &Element) {
    assert_eq!(class(drawn), "coupler not-fitted");
    assert_eq!(texts(drawn), ["no coupler"]);
    assert!(drawn.named("rect").is_empty() && drawn.named("polygon").is_empty());
    let dashed = drawn.named("g").into_iter();
    let dashed = dashed.filter(|group| group.attribute("stroke-dasharray").is_some());
    assert_eq!(
        dashed.map(|group| group.named("line").len()).sum::<usize>(),
        2
    );
}

fn is_not_asked(drawn: &Element) {
    assert_eq!(class(drawn), "coupler not-asked");
    assert_eq!(squares(drawn), [Some("#ffffff")]);
    assert!(texts(drawn).is_empty());
    assert_eq!(drawn.named("line").len(), 1);
    assert_eq!(drawn.named("line")[0].number("stroke-width"), 1.0);
    assert!(drawn.named("polygon").is_empty());
}

fn is_crossed(drawn: &Element, line: Line, direction: Direction) {
    assert_eq!(class(drawn), "coupler crossed");
    assert_eq!(squares(drawn).len(), 1);
    assert_ne!(squares(drawn), [Some("#ffffff")]);
    assert_eq!(drawn.named("line")[0].number("stroke-width"), 5.0);
    let [head] = drawn.named("polygon")[..] else {
        panic!("{drawn:?}");
    };
    let [tip, left, right] = corners(head)[..] else {
        panic!("{head:?}");
    };
    let base = ((left.0 + right.0) / 2.0, (left.1 + right.1) / 2.0);
    assert_eq!(towards(line, base, tip), direction, "{line}");
}

fn is_stopped(drawn: &Element, line: Line, case: &Case) {
    assert_eq!(class(drawn), "coupler stopped");
    assert_eq!(squares(drawn), [Some("#ffffff")]);
    assert!(drawn.named("polygon").is_empty());
    let mut stops = case.traced.not_reached.iter();
    let stop = stops.find(|stop| stop.coupler == line).expect("a reason");
    let words = match stop.reason {
        Reason::NotFitted => panic!("{stop:?}"),
        Reason::OwnAddress => "own address",
        Reason::Closed => "closed",
        Reason::NotBelow => "not below",
        Reason::NotAbove => "not above",
        Reason::NotInTable => "not in table",
        Reason::CountUsedUp => "count used up",
    };
    assert_eq!(texts(drawn), [words]);
    let [link, cross @ ..] = &drawn.named("line")[..] else {
        panic!("{drawn:?}");
    };
    assert_eq!((link.number("stroke-width"), cross.len()), (1.0, 2));
    let cross: Vec<_> = cross.iter().flat_map(|stroke| ends(stroke)).collect();
    let square = area(drawn.named("rect")[0]).expect("a square");
    let cross = Area::around(&cross);
    assert_eq!(
        towards(line, cross.middle(), square.middle()),
        case.direction(line)
    );
    assert!(!cross.meets(&square));
}

/// The direction from a point to another on a link: an area's coupler lies below the backbone, every
/// other to the right of what it hangs on.
fn towards(line: Line, from: (f64, f64), to: (f64, f64)) -> Direction {
    let (along, beside) = match line.0 & 15 {
        0 => (to.1 - from.1, to.0 - from.0),
        _ => (to.0 - from.0, to.1 - from.1),
    };
    assert!(along != 0.0 && beside == 0.0, "{line}");
    if along > 0.0 {
        Direction::Down
    } else {
        Direction::Up
    }
}

/// An element and how it is named in a message.
fn drawn_areas(picture: &Element) -> Vec<(Area, &Element)> {
    let all = picture.all().into_iter();
    all.filter_map(|element| Some((area(element)?, element)))
        .collect()
}

#[test]
fn everything_lies_on_the_paper() {
    for_each(|case| {
        let paper = area(case.picture.named("rect")[0]).expect("the paper");
        for (area, element) in drawn_areas(&case.picture) {
            assert!(paper.holds(&area), "{element:?}");
        }
    });
}

#[test]
fn no_line_lies_over_another_or_under_a_coupler() {
    /// A double border's half, on both sides.
    const APART: f64 = 4.0;
    for_each(|case| {
        let lines = case.lines();
        let outline = |line: &Line| parts(case.of_line("data-line", *line));
        let outlines: Vec<Vec<Area>> = lines.iter().map(outline).collect();
        for (place, parts) in outlines.iter().enumerate() {
            let others = outlines[..place].iter().flatten();
            let others: Vec<&Area> = others.collect();
            for part in parts {
                let grown = part.grown(2.0 * APART);
                assert!(!others.iter().any(|other| grown.meets(other)), "{part:?}");
            }
        }
        for line in lines.into_iter().filter(|line| *line != Line(0)) {
            let coupler = case.of_line("data-coupler", line);
            for (area, element) in drawn_areas(coupler) {
                let beside = matches!(element.name.as_str(), "rect" | "text");
                let free = !outlines.iter().flatten().any(|part| part.meets(&area));
                assert!(!beside || free, "{element:?}");
            }
        }
    });
}

#[test]
fn no_text_lies_over_another_or_over_a_mark() {
    for_each(|case| {
        let areas = drawn_areas(&case.picture);
        let is_text = |element: &Element| element.name == "text";
        let is_mark = |element: &Element| matches!(element.name.as_str(), "line" | "polygon");
        let texts: Vec<_> = areas.iter().filter(|(_, one)| is_text(one)).collect();
        let marks: Vec<_> = areas.iter().filter(|(_, one)| is_mark(one)).collect();
        for (place, (area, text)) in texts.iter().enumerate() {
            for (other, element) in texts[..place].iter().chain(&marks) {
                assert!(!area.meets(other), "{text:?} and {element:?}");
            }
        }
        for line in case.lines() {
            let drawn = case.of_line("data-line", line);
            let within = parts(drawn)[0].grown(-4.0);
            for text in drawn.named("text") {
                let area = area(text).expect("a text");
                assert!(within.holds(&area), "{text:?}");
            }
        }
    });
}

#[test]
fn no_text_of_the_legend_lies_over_a_sample() {
    for_each(|case| {
        let children = case.picture.children.iter();
        let mut legends = children.filter(|child| class(child) == "legend");
        let areas = drawn_areas(legends.next().expect("a legend")).into_iter();
        let (texts, samples): (Vec<_>, Vec<_>) = areas.partition(|(_, one)| one.name == "text");
        for (area, text) in texts {
            let over = samples.iter().find(|(sample, _)| sample.meets(&area));
            assert!(over.is_none(), "{text:?} and {over:?}");
        }
    });
}

/// "Treating area 0 lines as if they hung below an area coupler" looks right and is wrong.
#[test]
fn each_link_goes_from_the_main_side_to_the_line() {
    for_each(|case| {
        for line in case.lines().into_iter().filter(|line| *line != Line(0)) {
            let coupler = case.of_line("data-coupler", line);
            let areas = drawn_areas(coupler).into_iter();
            let marks = areas.filter(|(_, element)| element.name != "text");
            for end in [line, line.main()] {
                let outline = parts(case.of_line("data-line", end));
                let touched = |(area, _): &(Area, &Element)| {
                    outline.iter().any(|part| part.grown(2.5).meets(area))
                };
                assert!(marks.clone().any(|mark| touched(&mark)), "{line} at {end}");
            }
        }
    });
}

#[test]
fn the_order_of_the_records_does_not_matter() {
    let mut generator = Generator::new(seed());
    for_each(|case| {
        let mut text = case.site.text.clone();
        let both = text.plan.couplers.iter().copied().zip(text.couplers);
        let mut both: Vec<_> = both.collect();
        generator.shuffle(&mut both);
        (text.plan.couplers, text.couplers) = both.into_iter().unzip();
        let other = Case::new(text, case.telegram);
        let drawn = |case: &Case| draw(&case.site, &case.telegram, &case.traced);
        assert_eq!(drawn(&other), drawn(case));
    });
}

/// A label as long as a book is cut, and does not take long.
#[test]
fn a_label_may_be_of_any_length() {
    let mut generator = Generator::new(seed());
    let case = some_case(&mut generator);
    let mut text = case.site.text.clone();
    text.title = Some("W".repeat(1 << 20));
    let long = Case::new(text, case.telegram);
    assert!(texts(&long.picture)[0].ends_with("W…"));
}

#[test]
fn the_picture_in_the_documents_is_what_is_drawn() {
    let root = concat!(env!("CARGO_MANIFEST_DIR"), "/../..");
    let site = load(&format!("{root}/examples/plant.site")).expect("a well-formed site");
    let telegram = Telegram {
        from: Line(0x47),
        to: Destination::Group(Group(0x1234)),
        count: 6,
    };
    let traced = trace(&site, &telegram).expect("a well-formed site");
    let kept = std::fs::read_to_string(format!("{root}/docs/plant.svg")).expect("docs/plant.svg");
    assert!(
        kept == draw(&site, &telegram, &traced),
        "draw it again: ./klumdray trace examples/plant.site --from 4.7 --group 2/2/52 --count 6 \
         --picture docs/plant.svg"
    );
}
