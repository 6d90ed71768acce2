//! Pictures of cards: well-formed SVG with a box for each package and an arrow for each pair that the tables link, within
//! the picture and clear of each other. How it looks is not held here.

use cardtool::contract::{Aid, Tokens};
use cardtool::layout::{Layout, VERSION_02, VERSION_03};
use cardtool::names::Names;
use cardtool::tables::{Bit, Package, Tables, Unmet, Waiting};
use cardtool::{draw, engines, image_text, reach, record_text};
use std::collections::{BTreeMap, BTreeSet};

const CLUBHOUSE: &str = include_str!("../../../examples/clubhouse.txt");

/// The card after the records of a text, whose answers are as expected.
fn card(text: &str) -> (Tables, Names) {
    let text = record_text::read(&VERSION_02, text, &Names::default()).unwrap_or_else(|fault| panic!("{fault}"));
    let mut image = vec![0; VERSION_02.size()];
    engines::answering().empty(&mut image);
    for placed in &text.records {
        let verdict = engines::answering().judge(&mut image, &placed.bytes(&VERSION_02));
        let first = placed.first_line(&text.names);
        let (_, expected) = placed.expected.unwrap_or_else(|| panic!("{first}: nothing is expected"));
        assert!(expected.holds(verdict.answer, verdict.second), "{first}: {verdict:?}, not {expected}");
    }
    (Tables::of(&image, &text.names).expect("a sound image"), text.names)
}

/// The card of an image's text, without names.
fn image(text: &str) -> (Tables, Names) {
    let image = image_text::read(&VERSION_02, text, &Names::default()).unwrap_or_else(|fault| panic!("{fault}"));
    (Tables::of(&image, &Names::default()).expect("a sound image"), Names::default())
}

/// Calls both ways, a chain, rows of both lists to packages on the card, and AIDs and names too long to show.
const LONG: &str = "\
name the-purse-of-the-members-and-guests A0000001510000000000000000000001
name a-service-with-quite-a-long-name the-purse-of-the-members-and-guests 0.0
load F000000001
    provides 0.0
    provides 0.1
    calls F000000002 1.0
    grants 0.0 to F000000002
    grants 0.1 to F000000002
    grants 0.1 to the-purse-of-the-members-and-guests
expect accepted
load F000000002
    provides 1.0
    calls F000000001 0.0
    calls F000000001 0.1
    calls the-purse-of-the-members-and-guests 3.3
    needs F000000001 0.1
    grants 1.0 to F000000001
    grants 7.7 to F000000001
    grants 1.0 to the-purse-of-the-members-and-guests
expect accepted
load the-purse-of-the-members-and-guests
    provides 0.0
    calls F000000002 1.0
    calls A0000001510000000000000000000002 0.0
    grants 0.0 to A0000001510000000000000000000002
expect accepted
";

/// A card of so many packages, of which each calls every `apart`th service of the others, and whose lists are full.
fn full(layout: &'static Layout, apart: usize) -> (Tables, Names) {
    let mut tables = Tables::empty(layout);
    let aid = |last: usize| Aid::new(&[0xF0, 0, 0, 0, last as u8]).expect("an AID");
    let tokens = |method: usize| Tokens { interface: 0, method: method as u8 };
    let services = || (0..layout.services).map(|service| Some(tokens(service))).collect();
    for number in 0..layout.packages {
        tables.packages[number] = Some(Package { aid: aid(number), services: services() });
    }
    for callee in 0..layout.packages {
        for caller in (0..layout.packages).filter(|caller| *caller != callee) {
            for service in (0..layout.services).filter(|service| (callee * 5 + caller * 3 + service) % apart == 0) {
                let bit = Bit { callee, caller, service };
                tables.grants.push(bit);
                tables.calls.extend((service % 3 > 0).then_some(bit));
                tables.needs.extend((service % 3 > 1).then_some(bit));
            }
        }
    }
    for row in 0..layout.rows {
        let (one, other) = (row % layout.packages, (row * 3 + 1) % layout.packages);
        tables.unmet.push(Unmet { callee: aid(100 + row * 2 / 3), tokens: tokens(row), caller: one });
        tables.waiting.push(Waiting { caller: aid(120 + row), callee: other, tokens: tokens(row) });
    }
    (tables, Names::default())
}

fn cards() -> Vec<(Tables, Names)> {
    let one = "package 3 F000000001\nservice 2 255.127\nwaiting F000000001 grants 255.127 to F000000002\n";
    let apart = "package 0 F000000001\npackage 7 F000000002\n";
    let fulls = [full(&VERSION_02, 1), full(&VERSION_02, 7), full(&VERSION_03, 1), full(&VERSION_03, 50)];
    [card(CLUBHOUSE), card(LONG), image(""), image(one), image(apart)].into_iter().chain(fulls).collect()
}

/// An element, the text in it and in what it holds, and the element that holds it.
#[derive(Default)]
struct Element {
    name: String,
    attributes: BTreeMap<String, String>,
    text: String,
    within: Option<usize>,
}

impl Element {
    fn get(&self, name: &str) -> &str {
        self.attributes.get(name).map_or("", String::as_str)
    }

    fn number(&self, name: &str) -> i32 {
        self.get(name).parse().unwrap_or_else(|_| panic!("{name}=\"{}\" of {}", self.get(name), self.name))
    }
}

/// The elements of a well-formed text, in order; else why it is not.
fn elements(text: &str) -> Result<Vec<Element>, String> {
    let (mut elements, mut open): (Vec<Element>, Vec<usize>) = (Vec::new(), Vec::new());
    for piece in text.split('<').skip(1) {
        let (tag, after) = piece.split_once('>').ok_or(format!("a tag without its end: {piece}"))?;
        if let Some(name) = tag.strip_prefix('/') {
            let closed = open.pop().ok_or(format!("</{name}> closes nothing"))?;
            if elements[closed].name != name {
                return Err(format!("</{name}> closes {}", elements[closed].name));
            }
        } else {
            let (inner, empty) = tag.strip_suffix('/').map_or((tag, false), |inner| (inner, true));
            elements.push(Element { within: open.last().copied(), ..start(inner)? });
            if open.is_empty() && elements.len() > 1 {
                return Err("a second root".to_string());
            }
            open.extend((!empty).then_some(elements.len() - 1));
        }
        let after = plain(after)?;
        if open.is_empty() && !after.trim().is_empty() {
            return Err(format!("text after the root: {after}"));
        }
        open.iter().for_each(|element| elements[*element].text += &after);
    }
    if open.is_empty() {
        Ok(elements)
    } else {
        Err("not closed".to_string())
    }
}

/// A name and quoted attributes.
fn start(tag: &str) -> Result<Element, String> {
    let (name, mut left) = tag.split_once(' ').unwrap_or((tag, ""));
    let mut element = Element { name: name.to_string(), ..Element::default() };
    while !left.trim().is_empty() {
        let (key, rest) = left.trim_start().split_once("=\"").ok_or(format!("no attribute: {left}"))?;
        let (value, rest) = rest.split_once('"').ok_or(format!("a quote that does not end: {rest}"))?;
        if !key.chars().all(|c| c.is_ascii_alphanumeric() || c == '-') || !(rest.is_empty() || rest.starts_with(' ')) {
            return Err(format!("an attribute '{key}' and then '{rest}'"));
        }
        if element.attributes.insert(key.to_string(), plain(value)?).is_some() {
            return Err(format!("{key} twice"));
        }
        left = rest;
    }
    Ok(element)
}

/// A text without its entities.
fn plain(text: &str) -> Result<String, String> {
    let mut pieces = text.split('&');
    let mut plain = pieces.next().unwrap_or("").to_string();
    for piece in pieces {
        let (entity, rest) = piece.split_once(';').ok_or(format!("an entity without its end: {piece}"))?;
        let known = [("amp", '&'), ("lt", '<'), ("gt", '>'), ("quot", '"')];
        let found = known.iter().find(|(name, _)| *name == entity).ok_or(format!("an entity &{entity};"))?;
        plain.push(found.1);
        plain += rest;
    }
    Ok(plain)
}

#[test]
fn the_walker_knows_what_is_well_formed() {
    let good = elements("<a b=\"1\" c=\"&lt;\"><d/>x &amp; <e>y</e></a>\n").expect("well formed");
    assert_eq!(good.iter().map(|element| element.name.as_str()).collect::<String>(), "ade");
    assert_eq!((good[0].get("c"), good[0].text.as_str(), good[2].within), ("<", "x & y", Some(0)));
    for bad in ["<a>", "<a></b>", "</a>", "<a b=1/>", "<a b=\"1/>", "<a>&</a>", "<a>&x;</a>", "<a/><b/>", "<a/>x"] {
        assert!(elements(bad).is_err(), "{bad}");
    }
}

/// A picture's elements, which are those of a well-formed SVG that says what it is.
fn walked(svg: &str) -> Vec<Element> {
    let elements = elements(svg).unwrap_or_else(|why| panic!("{why}"));
    let root = &elements[0];
    let (width, height) = (root.number("width"), root.number("height"));
    assert_eq!((root.name.as_str(), root.get("role"), root.get("font-family")), ("svg", "img", "sans-serif"));
    assert_eq!(root.get("viewBox"), format!("0 0 {width} {height}"));
    let names: Vec<&str> = elements.iter().map(|element| element.name.as_str()).collect();
    assert_eq!(names[1..4], ["title", "desc", "rect"]);
    assert_eq!((elements[3].number("width"), elements[3].number("height")), (width, height));
    assert!(names.iter().all(|name| ["svg", "title", "desc", "rect", "text", "tspan", "g", "path"].contains(name)));
    assert_eq!(svg.matches("http").count(), 1, "only the name of SVG");
    elements
}

/// The groups of a class, each with its place among the elements.
fn of_class<'a>(elements: &'a [Element], class: &str) -> Vec<(usize, &'a Element)> {
    elements.iter().enumerate().filter(|(_, element)| element.get("class") == class).collect()
}

/// What stands on an arrow, without its title.
fn label(elements: &[Element], group: usize) -> Vec<String> {
    let within = elements.iter().filter(|element| element.within == Some(group) && element.get("class") == "label");
    let text = within.map(|element| element.text.clone()).collect::<Vec<_>>().join(" ");
    text.split([' ', ',']).filter(|word| !word.is_empty()).map(str::to_string).collect()
}

/// From, to, and the words on the arrow, of each arrow of a class.
type Arrows = Vec<(String, String, Vec<String>)>;

fn arrows(elements: &[Element], class: &str) -> Arrows {
    let arrow = |(place, group): (usize, &Element)| {
        (group.get("data-from").to_string(), group.get("data-to").to_string(), label(elements, place))
    };
    let mut arrows: Arrows = of_class(elements, class).into_iter().map(arrow).collect();
    arrows.sort();
    arrows
}

/// The rows of each pair of ends as one arrow.
fn gathered(rows: impl Iterator<Item = (String, String, String)>) -> Arrows {
    let mut pairs: BTreeMap<(String, String), Vec<String>> = BTreeMap::new();
    rows.for_each(|(from, to, word)| pairs.entry((from, to)).or_default().push(word));
    pairs.into_iter().map(|((from, to), words)| (from, to, words)).collect()
}

/// A word as it is shown.
fn shown(word: String) -> String {
    match word.len() > 18 {
        true => format!("{}…{}", &word[..10], &word[word.len() - 7..]),
        false => word,
    }
}

#[test]
fn an_arrow_for_each_linked_pair() {
    for (tables, names) in cards() {
        let elements = walked(&draw::card(&tables, &names));
        let aid = |number: usize| tables.at(number).expect("a package").aid;
        let service = |of: Aid, tokens| shown(names.service_word(of, tokens));
        let end = |aid: Aid| tables.number(aid).map_or_else(|| aid.to_string(), |number| number.to_string());
        let word = |bit: &Bit| service(aid(bit.callee), tables.callee_row(bit).expect("a row").tokens);
        let by_caller = |bit: &Bit| (bit.caller.to_string(), bit.callee.to_string(), word(bit));
        let by_callee = |bit: &Bit| (bit.callee.to_string(), bit.caller.to_string(), word(bit));
        let needed = |bit: &Bit| tables.needs.iter().any(|need| (need.caller, need.callee) == (bit.caller, bit.callee));
        let (heavy, mere): (Vec<Bit>, Vec<Bit>) = tables.calls.iter().partition(|call| needed(call));
        assert_eq!(arrows(&elements, "need"), gathered(heavy.iter().map(by_caller)));
        assert_eq!(arrows(&elements, "call"), gathered(mere.iter().map(by_caller)));
        let unused = tables.grants.iter().filter(|grant| !tables.calls.contains(grant));
        assert_eq!(arrows(&elements, "grant"), gathered(unused.map(by_callee)));
        let unmet = tables.unmet.iter();
        let unmet = unmet.map(|row| (row.caller.to_string(), end(row.callee), service(row.callee, row.tokens)));
        assert_eq!(arrows(&elements, "unmet"), gathered(unmet));
        let waiting = tables.waiting.iter();
        let waiting =
            waiting.map(|row| (row.callee.to_string(), end(row.caller), service(aid(row.callee), row.tokens)));
        assert_eq!(arrows(&elements, "waiting"), gathered(waiting));
    }
}

#[test]
fn needed_words_are_bold_on_heavy_arrows() {
    for (tables, names) in cards() {
        let elements = walked(&draw::card(&tables, &names));
        let bold = elements.iter().filter(|element| element.name == "tspan" && element.get("font-weight") == "bold");
        assert_eq!(bold.count(), tables.needs.len());
    }
    let elements = walked(&draw::card(&full(&VERSION_02, 7).0, &Names::default()));
    let line = |class: &str| {
        let (group, _) = of_class(&elements, class)[0];
        let mut paths = elements.iter().filter(|element| element.within == Some(group) && element.name == "path");
        paths.nth(1).map(|path| (path.number("stroke-width"), path.get("stroke-dasharray").to_string()))
    };
    let lines = ["need", "call", "grant", "unmet", "waiting"].map(|class| line(class).expect("a line"));
    assert!(lines[0].0 > lines[1].0 && lines[1].0 > lines[2].0, "{lines:?}");
    assert_eq!(lines.iter().collect::<BTreeSet<_>>().len(), 5, "{lines:?}");
}

#[test]
fn a_box_for_each_package() {
    for (tables, names) in cards() {
        for (svg, services) in [(draw::card(&tables, &names), true), (draw::reach(&tables, &names), false)] {
            let elements = walked(&svg);
            let packages = of_class(&elements, "package");
            assert_eq!(packages.len(), tables.installed().count());
            for (number, package) in tables.installed() {
                let own = packages.iter().find(|(_, own)| own.get("data-number") == number.to_string());
                let (place, own) = own.expect("a box");
                assert!(own.text.contains(&names.word(package.aid)) && own.text.contains(&package.aid.to_string()));
                assert!(own.text.contains(&shown(names.word(package.aid))));
                let provided = elements.iter().filter(|e| e.within == Some(*place) && e.get("class") == "service");
                let provided: Vec<String> = provided.map(|service| service.text.clone()).collect();
                let word = |tokens| names.service_word(package.aid, tokens);
                let words: Vec<String> = package.numbered().map(|(_, tokens)| word(tokens)).collect();
                let said = words.iter().map(|word| format!("{word} (provided){}", shown(word.clone())));
                assert_eq!(provided, said.filter(|_| services).collect::<Vec<_>>());
            }
            let listed = tables.unmet.iter().map(|row| row.callee).chain(tables.waiting.iter().map(|row| row.caller));
            let absent: BTreeSet<Aid> = listed.filter(|aid| services && tables.number(*aid).is_none()).collect();
            let drawn = of_class(&elements, "absent").into_iter().map(|(_, own)| own.get("data-aid").to_string());
            let drawn: Vec<String> = drawn.collect();
            assert_eq!(drawn.len(), absent.len());
            assert!(absent.iter().all(|aid| drawn.contains(&aid.to_string())));
        }
    }
}

/// Left, top, right, bottom.
type Place = [i32; 4];

fn apart(one: &Place, other: &Place) -> bool {
    one[2] <= other[0] || other[2] <= one[0] || one[3] <= other[1] || other[3] <= one[1]
}

/// The boxes of packages and of the legend: the first rectangle of each group.
fn boxes(elements: &[Element]) -> Vec<Place> {
    let groups = ["package", "absent", "legend"].into_iter().flat_map(|class| of_class(elements, class));
    let first = |group| elements.iter().find(|element| element.within == Some(group) && element.name == "rect");
    let rects = groups.filter_map(|(group, _)| first(group));
    let place = |rect: &Element| {
        let [x, y, width, height] = ["x", "y", "width", "height"].map(|name| rect.number(name));
        [x, y, x + width, y + height]
    };
    rects.map(place).collect()
}

/// The places of the words on arrows, if letters are about half as wide as high.
fn labels(elements: &[Element]) -> Vec<Place> {
    let place = |(_, text): (usize, &Element)| {
        let (x, y, size) = (text.number("x"), text.number("y"), text.number("font-size"));
        let width = text.text.chars().count() as i32 * size / 2;
        match text.get("text-anchor") {
            "end" => [x - width, y - size + 2, x, y + 2],
            _ => [x, y - size + 2, x + width, y + 2],
        }
    };
    of_class(elements, "label").into_iter().map(place).collect()
}

/// The straight parts of the arrows' lines, with their groups.
fn lines(elements: &[Element]) -> Vec<(usize, Place)> {
    let paths = elements.iter().filter(|path| path.get("fill") == "none" && path.name == "path");
    let mut lines = Vec::new();
    for path in paths.filter(|path| path.get("stroke") != "#FFFFFF") {
        let group = path.within.expect("a group");
        let numbers = path.get("d").split(|c: char| !c.is_ascii_digit()).filter(|number| !number.is_empty());
        let numbers: Vec<i32> = numbers.map(|number| number.parse().expect("a number")).collect();
        let points: Vec<&[i32]> = numbers.chunks(2).collect();
        for ends in points.windows(2) {
            let (x, y) = ([ends[0][0], ends[1][0]], [ends[0][1], ends[1][1]]);
            lines.push((group, [x[0].min(x[1]), y[0].min(y[1]), x[0].max(x[1]), y[0].max(y[1])]));
        }
    }
    lines
}

#[test]
fn nothing_lies_on_another_thing_or_outside() {
    for (tables, names) in cards() {
        for svg in [draw::card(&tables, &names), draw::reach(&tables, &names)] {
            let elements = walked(&svg);
            let (width, height) = (elements[0].number("width"), elements[0].number("height"));
            let (boxes, labels, lines) = (boxes(&elements), labels(&elements), lines(&elements));
            let legend = of_class(&elements, "legend")[0].0;
            let all = || boxes.iter().chain(&labels).chain(lines.iter().map(|(_, line)| line));
            assert!(all().all(|[left, top, right, bottom]| {
                *left >= 0 && *top >= 0 && *right <= width && *bottom <= height && left <= right && top <= bottom
            }));
            let solid: Vec<&Place> = boxes.iter().chain(&labels).collect();
            for (nth, one) in solid.iter().enumerate() {
                assert!(solid[..nth].iter().all(|other| apart(one, other)), "{one:?}");
            }
            for (group, line) in lines.iter().filter(|(group, _)| *group != legend) {
                assert!(solid.iter().all(|place| apart(place, line)), "{line:?} of {}", elements[*group].text);
            }
            parallels_are_apart(&lines);
            arrows_of_one_package_do_not_cross(&elements, &lines);
        }
    }
}

/// Lines of two arrows may cross, and not run on each other.
fn parallels_are_apart(lines: &[(usize, Place)]) {
    let along =
        |[left, top, right, bottom]: &Place| (right - left > 0 && top == bottom, bottom - top > 0 && left == right);
    for (nth, (group, one)) in lines.iter().enumerate() {
        for (_, other) in lines[..nth].iter().filter(|(other, _)| other != group) {
            let same = match (along(one), along(other)) {
                ((true, _), (true, _)) => one[1] == other[1] && one[0] < other[2] && other[0] < one[2],
                ((_, true), (_, true)) => one[0] == other[0] && one[1] < other[3] && other[1] < one[3],
                _ => false,
            };
            assert!(!same, "{one:?} and {other:?}");
        }
    }
}

fn arrows_of_one_package_do_not_cross(elements: &[Element], lines: &[(usize, Place)]) {
    let inside = |at: i32, from: i32, to: i32| from < at && at < to;
    for (group, one) in lines {
        let from = elements[*group].get("data-from");
        for (_, other) in lines.iter().filter(|(other, _)| other != group && elements[*other].get("data-from") == from)
        {
            let cross = inside(one[0], other[0], other[2]) && inside(other[1], one[1], one[3]);
            assert!(!cross, "{one:?} and {other:?} from {from}");
        }
    }
}

#[test]
fn an_arrow_exactly_where_one_reaches() {
    for (tables, names) in cards() {
        let elements = walked(&draw::reach(&tables, &names));
        let reaches = reach::table(&tables);
        let pairs = |class| arrows(&elements, class).into_iter().map(|(from, to, _)| (from, to)).collect::<Vec<_>>();
        let (direct, through) = (pairs("reach direct"), pairs("reach through"));
        for (caller, row) in reaches.iter().enumerate() {
            for (callee, reached) in row.iter().enumerate() {
                let pair = (caller.to_string(), callee.to_string());
                let calls = tables.calls.iter().any(|call| (call.caller, call.callee) == (caller, callee));
                let drawn = [&direct, &through].map(|pairs| pairs.iter().filter(|other| **other == pair).count());
                assert_eq!(drawn, [usize::from(calls), usize::from(*reached && !calls)], "{pair:?}");
            }
        }
        assert_eq!(direct.len() + through.len(), reaches.iter().flatten().filter(|reached| **reached).count());
    }
}

#[test]
fn the_way_through_others_is_named() {
    let (tables, names) = card(CLUBHOUSE);
    let elements = walked(&draw::reach(&tables, &names));
    let words = |from: &str, to: &str| {
        let through = arrows(&elements, "reach through");
        through.into_iter().find(|arrow| (arrow.0.as_str(), arrow.1.as_str()) == (from, to)).map(|arrow| arrow.2)
    };
    assert_eq!(words("5", "0"), Some(vec!["through".to_string(), "organiser".to_string()]));
}

#[test]
fn the_same_card_gives_the_same_picture() {
    for (tables, names) in cards() {
        assert_eq!(draw::card(&tables, &names), draw::card(&tables.clone(), &names.clone()));
        assert_eq!(draw::reach(&tables, &names), draw::reach(&tables.clone(), &names.clone()));
    }
}

#[test]
fn the_picture_of_the_readme_is_of_its_card() {
    let (tables, names) = card(CLUBHOUSE);
    let title = "What is on the card: 6 packages, 1 unmet call, 2 waiting grants";
    let svg = draw::card(&tables, &names);
    assert_eq!(walked(&svg)[1].text, title);
    assert!(svg == include_str!("../../../docs/clubhouse.svg"), "docs/clubhouse.svg is not `draw` of the card");
}
