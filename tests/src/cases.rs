//! One table: every case of the paper's "At the edges", its misreadings of the report, the report's worked example, and
//! the edges of the requests that have landed. Each case starts on the empty image of the small card; one that is on the large
//! card from the start has it enlarged first.

pub mod conditions;
pub mod early;
mod edges;
pub mod large;
mod misread;
pub mod replace;
pub mod retired;
pub mod tokens;
pub mod watched;
pub mod worked;

use crate::card::{Card, Verdict, BYTES};
use crate::compare::{Compare, Difference, Tally};
use crate::history::Event;
use crate::rules::Rules;
use crate::run::caught;
use crate::write;

/// The paper's names for AIDs.
pub const H: &[u8] = &[0xF0, 0, 0, 0, 1];
pub const C: &[u8] = &[0xF0, 0, 0, 0, 2];
pub const B: &[u8] = &[0xF0, 0, 0, 0, 3];
/// An AID that is never installed.
pub const X: &[u8] = &[0xF0, 0, 0, 0, 9];

pub struct Case {
    pub name: &'static str,
    /// Whether the paper marks it.
    pub marked: bool,
    /// What is judged by the rules before each change that the case goes over, the earliest first.
    pub before: Vec<Vec<Step>>,
    /// What is judged on the small card by the rules in force.
    pub steps: Vec<Step>,
    /// What is judged on the large card, where the case has the card enlarged behind the steps.
    pub large: Option<Vec<Step>>,
}

/// A record, and what judging it gives.
#[derive(Clone)]
pub struct Step {
    pub record: Vec<u8>,
    pub verdict: Verdict,
}

/// Every case, in the paper's order.
pub fn all() -> Vec<Case> {
    let paper = [edges::cases(), misread::cases(), worked::cases()];
    paper.into_iter().flatten().chain(requests()).collect()
}

/// Those of the requests, in the order in which they landed.
pub fn requests() -> impl Iterator<Item = Case> {
    let landed = [
        tokens::cases(),
        early::cases(),
        replace::cases(),
        retired::cases(),
        conditions::cases(),
        watched::cases(),
        large::cases(),
    ];
    landed.into_iter().flatten()
}

/// The case of this name.
pub fn named(name: &str) -> Case {
    all().into_iter().find(|case| case.name == name).expect("a case of that name")
}

impl Case {
    /// Judges the records everywhere, compares, and gives what they got: what the table says.
    pub fn run(&self, cards: &[&dyn Card]) -> Result<Vec<Verdict>, String> {
        let judged = caught(|| {
            let (mut compare, mut tally) = (Compare::before(cards, 0, self.changes())?, Tally::default());
            let mut verdicts = self.begin(&mut compare, &mut tally)?;
            verdicts.extend(judge(&self.steps, &mut compare, &mut tally)?);
            if let Some(steps) = &self.large {
                compare.enlarge(&mut tally)?;
                verdicts.extend(judge(steps, &mut compare, &mut tally)?);
            }
            Ok(verdicts)
        });
        let verdicts = judged.map_err(|difference| difference.to_string())?;
        match verdicts.iter().eq(self.expected()) {
            true => Ok(verdicts),
            false => Err(format!("{}; expected {}", words(&verdicts), words(self.expected()))),
        }
    }

    /// Judges what is before the rules in force, and goes over the changes.
    fn begin(&self, compare: &mut Compare, tally: &mut Tally) -> Result<Vec<Verdict>, Difference> {
        let mut verdicts = Vec::new();
        for steps in &self.before {
            verdicts.extend(judge(steps, compare, tally)?);
            compare.change(tally)?;
        }
        Ok(verdicts)
    }

    /// The image that the rules in force find.
    pub fn image(&self) -> Vec<u8> {
        let cards: [&dyn Card; 1] = [&BYTES];
        let mut compare = Compare::before(&cards, 0, self.changes()).expect("an empty card");
        assert!(self.begin(&mut compare, &mut Tally::default()).is_ok(), "{}", self.name);
        compare.image
    }

    /// The line that the program prints for the case: the card, and what its records got there. A bar stands where the rules change,
    /// or where the card is enlarged.
    pub fn line(&self, verdicts: &[Verdict]) -> String {
        let mut left = verdicts.iter();
        let mut got = |steps: &Vec<Step>| words(left.by_ref().take(steps.len()));
        let on_small = self.before.iter().chain([&self.steps]).map(&mut got).collect::<Vec<_>>().join(" | ");
        let on_large = self.large.as_ref().map(|steps| format!("large card {}", got(steps)));
        let from_the_start = self.large.is_some() && self.before.is_empty() && self.steps.is_empty();
        let on_small = (!from_the_start).then(|| format!("small card {on_small}"));
        let cards: Vec<String> = on_small.into_iter().chain(on_large).collect();
        format!("{}{}: {}", if self.marked { "M " } else { "" }, self.name, cards.join(" | "))
    }

    /// The records, a change of the rules behind those before it, and where the card is enlarged.
    pub fn history(&self) -> Vec<Event> {
        let records = |steps: &[Step]| steps.iter().map(|step| Event::Record(step.record.clone())).collect::<Vec<_>>();
        let before = self.before.iter().flat_map(|steps| [records(steps), vec![Event::Change]].concat());
        let large = self.large.iter().flat_map(|steps| [vec![Event::Enlarge], records(steps)].concat());
        before.chain(records(&self.steps)).chain(large).collect()
    }

    /// How often the rules change in the case.
    fn changes(&self) -> usize {
        self.before.len()
    }

    fn expected(&self) -> impl Iterator<Item = &Verdict> {
        let steps = self.before.iter().flatten().chain(&self.steps).chain(self.large.iter().flatten());
        steps.map(|step| &step.verdict)
    }
}

fn judge(steps: &[Step], compare: &mut Compare, tally: &mut Tally) -> Result<Vec<Verdict>, Difference> {
    steps.iter().map(|step| compare.step(&step.record, tally)).collect()
}

fn words<'a>(verdicts: impl IntoIterator<Item = &'a Verdict>) -> String {
    verdicts.into_iter().map(Verdict::to_string).collect::<Vec<_>>().join(", ")
}

fn marked(name: &'static str, steps: Vec<Step>) -> Case {
    Case { name, marked: true, before: Vec::new(), steps, large: None }
}

fn case(name: &'static str, steps: Vec<Step>) -> Case {
    over(name, Rules::IN_FORCE, Vec::new(), steps)
}

/// A case that begins by these rules, with what comes before each of the first changes since; before the others comes nothing.
fn over(name: &'static str, from: Rules, mut before: Vec<Vec<Step>>, steps: Vec<Step>) -> Case {
    assert!(before.len() <= from.changes_since(), "{name}");
    before.resize_with(from.changes_since(), Vec::new);
    Case { name, marked: false, before, steps, large: None }
}

/// A case on the large card from the start.
fn on_large(name: &'static str, steps: Vec<Step>) -> Case {
    case(name, Vec::new()).enlarged(steps)
}

impl Case {
    /// The card is enlarged behind the steps, and goes on with these.
    fn enlarged(self, steps: Vec<Step>) -> Case {
        Case { large: Some(steps), ..self }
    }
}

/// A record that is accepted, with the package's number.
fn yes(number: u32, record: Vec<u8>) -> Step {
    Step { record, verdict: Verdict::new(0, number) }
}

/// A record that is refused, with the cause.
fn no(cause: u32, record: Vec<u8>) -> Step {
    Step { record, verdict: Verdict::new(cause, 255) }
}

fn row(other: &[u8], tokens: write::Tokens) -> write::Row {
    (other.to_vec(), tokens)
}

/// So many calls on different services of the AID that is never installed.
fn unmet(count: u8) -> Vec<write::Row> {
    (0..count).map(|method| row(X, (7, method))).collect()
}
