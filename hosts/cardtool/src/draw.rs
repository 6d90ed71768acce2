//! Pictures of a card for people, as SVG: packages as boxes, and arrows between them.

mod cascade;
mod svg;

use crate::contract::{Aid, Tokens};
use crate::image_text::counts;
use crate::names::Names;
use crate::reach;
use crate::tables::{Bit, Tables};
use crate::words::counted;
use std::collections::BTreeMap;

/// The card: its packages with their calls, needs, and what is missing.
pub fn card(tables: &Tables, names: &Names) -> String {
    let mut picture = Picture::of(tables, names, "What is on the card");
    picture.counts = counts(tables);
    for (own, (_, package)) in picture.packages.iter_mut().zip(tables.installed()) {
        let words = package.numbered().map(|(_, tokens)| names.service_word(package.aid, tokens));
        own.services = words.map(|text| Word { text, strong: true }).collect();
    }
    let mut links: BTreeMap<(usize, usize, Style), Vec<Word>> = BTreeMap::new();
    let word = |bit: &Bit, strong| {
        let row = tables.callee_row(bit);
        row.map(|row| Word { text: names.service_word(row.other, row.tokens), strong })
    };
    for call in &tables.calls {
        let (from, to) = (picture.number(call.caller), picture.number(call.callee));
        links.entry((from, to, Style::Call)).or_default().extend(word(call, tables.needs.contains(call)));
    }
    for grant in tables.grants.iter().filter(|grant| !tables.calls.contains(grant)) {
        let (from, to) = (picture.number(grant.callee), picture.number(grant.caller));
        links.entry((from, to, Style::Grant)).or_default().extend(word(grant, false));
    }
    for row in &tables.unmet {
        let (from, to) = (picture.number(row.caller), picture.with(row.callee));
        links.entry((from, to, Style::Unmet)).or_default().push(picture.listed(to, row.tokens));
    }
    for row in &tables.waiting {
        let (from, to) = (picture.number(row.callee), picture.with(row.caller));
        links.entry((from, to, Style::Waiting)).or_default().push(picture.listed(from, row.tokens));
    }
    for ((from, to, style), words) in links {
        let style = if words.iter().any(|word| word.strong) { Style::Need } else { style };
        picture.arrow(from, to, style, words);
    }
    svg::write(picture, &[Style::Need, Style::Call, Style::Unmet, Style::Grant, Style::Waiting])
}

/// Who reaches whom (`reach::table`): an arrow from each package to each one it gets at; those that are only through
/// others look different from a direct call.
pub fn reach(tables: &Tables, names: &Names) -> String {
    let mut picture = Picture::of(tables, names, "Who reaches whom");
    let reaches = reach::table(tables);
    let (mut direct, mut through) = (0, 0);
    for (caller, _) in tables.installed() {
        for (callee, _) in tables.installed().filter(|(callee, _)| reaches[caller][*callee]) {
            let (from, to) = (picture.number(caller), picture.number(callee));
            if tables.calls.iter().any(|call| (call.caller, call.callee) == (caller, callee)) {
                direct += 1;
                picture.arrow(from, to, Style::Direct, Vec::new());
            } else {
                through += 1;
                picture.arrow(from, to, Style::Through, between(tables, names, caller, callee));
            }
        }
    }
    let packages = counted(picture.packages.len(), "package");
    picture.counts = format!("{packages}, {} by calls, {through} only through others", counted(direct, "way"));
    svg::write(picture, &[Style::Direct, Style::Through])
}

/// The packages between the two on a shortest way.
fn between(tables: &Tables, names: &Names, from: usize, to: usize) -> Vec<Word> {
    let services = tables.at(to).into_iter().flat_map(|package| package.numbered());
    let chains = services.flat_map(|(service, _)| reach::chains(tables, to, service));
    let chain = chains.filter(|chain| chain[0].caller == from).min_by_key(Vec::len).unwrap_or_default();
    let steps = chain.iter().skip(1).filter_map(|step| tables.at(step.caller));
    steps.map(|package| Word { text: names.word(package.aid), strong: false }).collect()
}

/// What an arrow says. Of several from one box to another, the first is on top.
#[derive(Clone, Copy, Debug, PartialEq, Eq, PartialOrd, Ord)]
enum Style {
    Need,
    Call,
    Unmet,
    Grant,
    Waiting,
    Direct,
    Through,
}

/// A word on an arrow, strong when it is needed; or in a box, strong when it is provided.
#[derive(Clone)]
struct Word {
    text: String,
    strong: bool,
}

#[derive(Clone, Copy, Default)]
struct Rect {
    x: i32,
    y: i32,
    width: i32,
    height: i32,
}

/// A package as a box. One that is not on the card has no number.
struct Package {
    number: Option<usize>,
    aid: Aid,
    services: Vec<Word>,
    place: Rect,
}

/// An arrow between boxes, by their places among the boxes.
struct Arrow {
    from: usize,
    to: usize,
    style: Style,
    words: Vec<Word>,
    /// Width and height of its words.
    size: (i32, i32),
    /// Where its line leaves the first box, and the words stand on it.
    row: i32,
    /// Where its words begin, if it goes leftward, or end.
    beside: i32,
    /// Its corners; the last is its tip.
    points: Vec<(i32, i32)>,
}

/// What is drawn. The packages on the card come first.
struct Picture<'a> {
    names: &'a Names,
    title: &'a str,
    counts: String,
    packages: Vec<Package>,
    arrows: Vec<Arrow>,
}

impl Rect {
    fn right(&self) -> i32 {
        self.x + self.width
    }

    fn bottom(&self) -> i32 {
        self.y + self.height
    }
}

impl Arrow {
    fn leftward(&self) -> bool {
        self.to < self.from
    }
}

impl<'a> Picture<'a> {
    /// The packages on the card, without their services, and no arrows.
    fn of(tables: &Tables, names: &'a Names, title: &'a str) -> Picture<'a> {
        let mut picture = Picture { names, title, counts: String::new(), packages: Vec::new(), arrows: Vec::new() };
        tables.installed().for_each(|(number, package)| picture.package(Some(number), package.aid));
        picture
    }

    fn package(&mut self, number: Option<usize>, aid: Aid) {
        self.packages.push(Package { number, aid, services: Vec::new(), place: Rect::default() });
    }

    fn arrow(&mut self, from: usize, to: usize, style: Style, words: Vec<Word>) {
        self.arrows.push(Arrow { from, to, style, words, size: (0, 0), row: 0, beside: 0, points: Vec::new() });
    }

    fn installed(&self) -> usize {
        self.packages.iter().filter(|package| package.number.is_some()).count()
    }

    /// The place of the package with this number.
    fn number(&self, number: usize) -> usize {
        self.packages.iter().position(|package| package.number == Some(number)).unwrap_or(0)
    }

    /// The place of the package with this AID, which is absent if it has none yet.
    fn with(&mut self, aid: Aid) -> usize {
        let found = self.packages.iter().position(|package| package.aid == aid);
        found.unwrap_or_else(|| {
            self.package(None, aid);
            self.packages.len() - 1
        })
    }

    /// The word for the service of a row of a list. If the package is on the card without it, it is shown there too.
    fn listed(&mut self, place: usize, tokens: Tokens) -> Word {
        let package = &mut self.packages[place];
        let word = Word { text: self.names.service_word(package.aid, tokens), strong: false };
        if package.number.is_some() && package.services.iter().all(|service| service.text != word.text) {
            package.services.push(word.clone());
        }
        word
    }

    /// What an arrow says, in words.
    fn sentence(&self, arrow: &Arrow) -> String {
        let [from, to] = [arrow.from, arrow.to].map(|place| self.names.word(self.packages[place].aid));
        let word = |word: &Word| format!("{}{}", word.text, if word.strong { " (needed)" } else { "" });
        let words = arrow.words.iter().map(word).collect::<Vec<_>>().join(", ");
        match arrow.style {
            Style::Need | Style::Call => format!("{from} calls {to}: {words}"),
            Style::Unmet => format!("{from} calls {to}, but it is not on the card: {words}"),
            Style::Grant => format!("{from} allows {to} a call that is not made: {words}"),
            Style::Waiting => format!("{from} allows {to} a call in advance: {words}"),
            Style::Direct => format!("{from} calls {to}"),
            Style::Through => format!("{from} reaches {to} through {words}"),
        }
    }
}
