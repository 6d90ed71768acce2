//! `judge`: each record's answer, why it is refused, and whether it is the answer that was expected.

use super::call::{Call, Form, Input};
use super::records::frames;
use super::{disagreement, Done, Trouble};
use crate::cause;
use crate::engines::{answering, other, Engine, Verdict};
use crate::explain::{explain, Explained, Reason};
use crate::fault::Place;
use crate::hex::to_hex;
use crate::hexadecimal;
use crate::json::{list, object, Json};
use crate::layout::Layout;
use crate::names::Names;
use crate::program::{Failure, Progress};
use crate::record::{self, Part};
use crate::record_text::{self, Expected};
use crate::tables::Tables;
use crate::words::{counted, utf8};
use std::collections::BTreeMap;

const NO_OTHER: &str =
    "--both: this build has the second engine alone: build it with the proved one, as docs/TESTERS.md says";

pub fn judge(call: &Call) -> Result<Done, Trouble> {
    let engine = answering();
    let second = match call.both {
        false => None,
        true => Some(other().ok_or_else(|| Failure::bad_use(NO_OTHER))?),
    };
    let (card, image) = match &call.image {
        Some(input) => call.judgeable(input)?,
        None => (call.card(), empty(engine, call.card())?),
    };
    let (items, names) = items(call, &call.inputs[0], card)?;
    let mut session = Session { engine, second, names: &names, card, image };
    let mut progress = Progress::new("judging", items.len());
    let (mut judged, mut each, mut broken) = (Vec::new(), Vec::new(), None);
    for (n, item) in items.iter().enumerate() {
        progress.at(n);
        match session.judge(item) {
            Ok(turn) => judged.push((item, turn)),
            Err(words) => {
                broken = Some(disagreement(format!("record {}: {words}", n + 1)));
                break;
            }
        }
        if let Some(directory) = &call.each {
            each.push((format!("{directory}/{}.image", n + 1), call.image_out(&session.image)));
        }
    }
    drop(progress);
    let said = Said { engine, second, names: &names, card, judged };
    let (text, json) = (said.text(), said.json());
    let saved = match broken {
        Some(_) => Vec::new(),
        None => each
            .into_iter()
            .chain(call.save.iter().map(|file| (file.clone(), call.image_out(&session.image))))
            .collect(),
    };
    Ok(Done { saved, failed: broken.or(said.unexpected()), ..Done::new(text, json) })
}

fn empty(engine: &dyn Engine, card: &'static Layout) -> Result<Vec<u8>, Failure> {
    let mut image = vec![0; card.size()];
    let answer = engine.empty(&mut image).answer;
    match answer == 0 && image == Tables::empty(card).image() {
        true => Ok(image),
        false => {
            let words = format!("{} answers {answer}, and does not write the empty image", engine.name());
            Err(Failure::failed(disagreement(words)))
        }
    }
}

/// A record to judge, and what a text says of it.
struct Item {
    bytes: Vec<u8>,
    /// The record in short.
    label: String,
    place: Option<Place>,
    /// The places of its rows.
    parts: BTreeMap<Part, Place>,
    expected: Option<(Place, Expected)>,
}

impl Item {
    /// A record that stands in no text.
    fn of_bytes(bytes: &[u8], place: Option<Place>, names: &Names) -> Item {
        let label = match record::read_either(bytes) {
            Ok((_, read)) => record_text::write(&read, names).lines().next().unwrap_or("").to_string(),
            Err(_) => format!("record of {}", counted(bytes.len(), "byte")),
        };
        Item { bytes: bytes.to_vec(), label, place, parts: BTreeMap::new(), expected: None }
    }
}

/// The records of an input, in whichever form, and the names in force for what is said of them. A text is written for
/// the card.
fn items(call: &Call, input: &Input, card: &'static Layout) -> Result<(Vec<Item>, Names), Trouble> {
    if call.form == Form::Text {
        let text = input.text(card, &call.names)?;
        let item = |placed: &record_text::Placed| Item {
            bytes: placed.bytes(card),
            label: placed.first_line(&text.names),
            place: Some(placed.place),
            parts: placed.parts.clone(),
            expected: placed.expected,
        };
        return Ok((text.records.iter().map(item).collect(), text.names.clone()));
    }
    let names = call.names.clone();
    if call.form == Form::Hex {
        let read = utf8(&input.bytes).and_then(hexadecimal::records);
        let lines = read.map_err(|fault| input.no_text(fault, "of records' own bytes say --from raw"))?;
        return Ok((lines.iter().map(|line| Item::of_bytes(&line.bytes, Some(line.place()), &names)).collect(), names));
    }
    // What is no frame is one record, and the last, as the session program takes it.
    let mut left = &input.bytes[..];
    let items = frames(&input.bytes).map(|frame| {
        let part = frame.unwrap_or(left);
        left = &left[part.len()..];
        Item::of_bytes(part, None, &names)
    });
    Ok((items.collect(), names))
}

/// A card, and who answers for it.
struct Session<'a> {
    engine: &'a dyn Engine,
    /// The engine that the answers are compared with.
    second: Option<&'a dyn Engine>,
    names: &'a Names,
    card: &'static Layout,
    image: Vec<u8>,
}

/// What a record got.
struct Turn {
    verdict: Verdict,
    explained: Explained,
}

impl Session<'_> {
    /// Judges a record; where somebody disagrees, what about.
    fn judge(&mut self, item: &Item) -> Result<Turn, String> {
        let before = self.image.clone();
        let verdict = self.engine.judge(&mut self.image, &item.bytes);
        let explained = explain(&before, &item.bytes, self.names);
        self.held(&before, item, verdict, &explained)?;
        if let Some(second) = self.second {
            let mut image = before;
            let other = second.judge(&mut image, &item.bytes);
            let names = (self.engine.name(), second.name());
            if other != verdict {
                return Err(format!("{} answers {}, and {} {}", names.0, numbers(verdict), names.1, numbers(other)));
            }
            if let Some(byte) = (0..image.len()).find(|&byte| image[byte] != self.image[byte]) {
                return Err(format!("{} and {} leave byte {byte} of the image different", names.0, names.1));
            }
        }
        Ok(Turn { verdict, explained })
    }

    /// The answer, the contracts that it leaves and the package's number are what the contracts on the card give.
    fn held(&self, before: &[u8], item: &Item, verdict: Verdict, explained: &Explained) -> Result<(), String> {
        let (name, Verdict { answer, second }) = (self.engine.name(), verdict);
        if answer != explained.answer {
            return Err(format!("{name} answers {answer}, and the contracts on the card give {}", explained.answer));
        }
        let tables = |image: &[u8]| Tables::of(image, self.names).ok();
        let Some(after) = &explained.after else {
            let left = format!("{name} leaves another image, though it answers {answer}");
            return if self.image == before { Ok(()) } else { Err(left) };
        };
        let Some(left) = tables(&self.image).filter(|left| left.contracts() == *after) else {
            return Err(format!("{name} leaves other contracts than its answer {answer} says"));
        };
        // A package that was removed has the number that it had.
        let number = record::read(self.card, &item.bytes)
            .ok()
            .and_then(|read| left.number(read.aid).or_else(|| tables(before)?.number(read.aid)));
        match number == Some(second as usize) {
            true => Ok(()),
            false => Err(format!("{name} gives the number {second}, which is not the package's")),
        }
    }
}

fn numbers(verdict: Verdict) -> String {
    format!("{} with {}", verdict.answer, verdict.second)
}

/// What `judge` says.
struct Said<'a> {
    engine: &'a dyn Engine,
    second: Option<&'a dyn Engine>,
    names: &'a Names,
    card: &'static Layout,
    judged: Vec<(&'a Item, Turn)>,
}

impl Said<'_> {
    fn text(&self) -> String {
        let on = if self.card.is_large() { " on a large card" } else { "" };
        let mut text = format!("# answers of {}{on}", self.engine.name());
        if let Some(second) = self.second {
            text.push_str(&format!(", and the same of {}", second.name()));
        }
        text.push('\n');
        for (ordinal, (item, turn)) in (1..).zip(&self.judged) {
            text.push_str(&format!("{ordinal} {}: {}\n", item.label, verdict_words(turn.verdict)));
            // An image that is not sound is not changed, and is so for every record.
            let known = ordinal > 1 && turn.verdict.answer == 1;
            for reason in turn.explained.reasons.iter().filter(|_| !known) {
                text.push_str(&format!("    {}\n", self.reason(item, reason)));
            }
            if let Some(words) = unexpected(item, turn) {
                text.push_str(&format!("    {words}\n"));
            }
        }
        text + &self.summary() + "\n"
    }

    /// A reason, after the line of the row that it is about; before that of a row which it repeats.
    fn reason(&self, item: &Item, reason: &Reason) -> String {
        let before = line(item, reason).map_or(String::new(), |line| format!("line {line}: "));
        let first = reason.first().and_then(|part| item.parts.get(&part));
        let after = first.map_or(String::new(), |place| format!(", on line {}", place.line));
        format!("{before}{}{after}", reason.words(self.names))
    }

    fn summary(&self) -> String {
        let accepted = self.judged.iter().filter(|(_, turn)| turn.verdict.answer == 0).count();
        let words = format!("{accepted} accepted, {} refused", self.judged.len() - accepted);
        match self.expected() {
            (0, _) => words,
            (count, held) => format!("{words}, {held} of {count} as expected"),
        }
    }

    /// How many answers were expected, and how many of them came.
    fn expected(&self) -> (usize, usize) {
        let expected = || self.judged.iter().filter(|(item, _)| item.expected.is_some());
        (expected().count(), expected().filter(|(item, turn)| unexpected(item, turn).is_none()).count())
    }

    /// Why the program fails: answers that are not those expected.
    fn unexpected(&self) -> Option<String> {
        let (count, held) = self.expected();
        let failed = count - held;
        let were = if failed == 1 { "was" } else { "were" };
        (failed > 0).then(|| format!("{} {were} not as expected", counted(failed, "answer")))
    }

    fn json(&self) -> Json {
        let records = (1usize..).zip(&self.judged).map(|(ordinal, (item, turn))| {
            let Verdict { answer, second } = turn.verdict;
            let reasons = turn.explained.reasons.iter().map(|reason| self.reason_json(item, reason));
            object([
                ("ordinal", ordinal.into()),
                ("line", item.place.map(|place| place.line).into()),
                ("record", item.label.as_str().into()),
                ("bytes", to_hex(&item.bytes).into()),
                ("answer", answer.into()),
                ("package", (answer == 0).then_some(second).into()),
                ("cause", (answer != 0).then(|| cause::words(answer)).into()),
                ("reasons", if answer == 0 { Json::Null } else { list(reasons) }),
                ("expected", item.expected.map(|(_, expected)| expected.to_string()).into()),
                ("as_expected", item.expected.map(|_| unexpected(item, turn).is_none()).into()),
            ])
        });
        let (expected, held) = self.expected();
        let accepted = self.judged.iter().filter(|(_, turn)| turn.verdict.answer == 0).count();
        object([
            ("engine", self.engine.name().into()),
            ("compared_with", self.second.map(|second| second.name()).into()),
            ("card", self.card.name.into()),
            ("records", list(records)),
            ("accepted", accepted.into()),
            ("refused", (self.judged.len() - accepted).into()),
            ("expected", expected.into()),
            ("as_expected", held.into()),
        ])
    }

    fn reason_json(&self, item: &Item, reason: &Reason) -> Json {
        let ends = reason.ends();
        let package = |aid| super::views::package(aid, self.names);
        object([
            ("words", reason.words(self.names).into()),
            ("line", line(item, reason).into()),
            ("byte", reason.byte().into()),
            ("caller", ends.map(|ends| package(ends.caller)).into()),
            ("callee", ends.map(|ends| package(ends.callee)).into()),
            ("service", ends.map(|ends| ends.service.to_string()).into()),
            ("number", reason.number().into()),
            ("count", reason.count().map(|(count, _)| count).into()),
            ("limit", reason.count().map(|(_, limit)| limit).into()),
        ])
    }
}

/// The line of the text that a reason is about: that of a row of the record, or that with which the record begins.
fn line(item: &Item, reason: &Reason) -> Option<usize> {
    let row = reason.part().and_then(|part| item.parts.get(&part).copied());
    row.or(item.place).map(|place| place.line)
}

/// What is said of an answer that is not the one expected.
fn unexpected(item: &Item, turn: &Turn) -> Option<String> {
    let (place, expected) = item.expected?;
    let Verdict { answer, second } = turn.verdict;
    (!expected.holds(answer, second)).then(|| format!("line {}: expected {expected}: FAILED", place.line))
}

fn verdict_words(verdict: Verdict) -> String {
    match verdict.answer {
        0 => format!("accepted, package {}", verdict.second),
        cause => format!("refused, {cause}: {}", cause::words(cause)),
    }
}

#[cfg(test)]
mod tests {
    use super::*;
    use crate::engines::Second;

    /// An engine that is wrong on purpose: what it makes of the right verdict, and of the image before and after.
    struct Wrong(fn(Verdict, &[u8], &mut [u8]) -> Verdict);

    impl Engine for Wrong {
        fn name(&self) -> &'static str {
            "a wrong engine"
        }

        fn check(&self, image: &[u8]) -> Verdict {
            Second.check(image)
        }

        fn empty(&self, image: &mut [u8]) -> Verdict {
            Second.empty(image)
        }

        fn convert(&self, old: &[u8], image: &mut [u8]) -> Verdict {
            Second.convert(old, image)
        }

        fn enlarge(&self, image: &[u8], large: &mut [u8]) -> Verdict {
            Second.enlarge(image, large)
        }

        fn judge(&self, image: &mut [u8], record: &[u8]) -> Verdict {
            let before = image.to_vec();
            let verdict = Second.judge(image, record);
            (self.0)(verdict, &before, image)
        }

        fn read_out(&self, image: &[u8], number: u32, out: &mut [u8]) -> Verdict {
            Second.read_out(image, number, out)
        }
    }

    /// Where the tokens of package 0 begin.
    fn first_tokens(image: &[u8]) -> usize {
        Layout::sized(image.len()).map_or(0, |card| card.tokens_at(0, 0))
    }

    const STORY: &str = "load F000000001\n provides 0.0\n provides 0.1\nload F000000001\nunload F000000001\n";

    /// What is said of an engine, alone or beside another, at the first record where somebody disagrees.
    fn said(card: &'static Layout, engine: &dyn Engine, second: Option<&dyn Engine>) -> Option<String> {
        let names = Names::default();
        let text = record_text::read(card, STORY, &names).expect("a text");
        let image = empty(engine, card).expect("the empty image");
        let mut session = Session { engine, second, names: &names, card, image };
        let items = text.records.iter().map(|placed| Item::of_bytes(&placed.bytes(card), None, &names));
        items.enumerate().find_map(|(n, item)| Some(format!("{}: {}", n + 1, session.judge(&item).err()?)))
    }

    #[test]
    fn a_right_engine_is_held() {
        for card in Layout::CARDS {
            assert_eq!(said(card, &Second, None), None);
            assert_eq!(said(card, &Second, Some(&Second)), None);
        }
    }

    /// Each wrong engine alone is found by the contracts, at the record where it is wrong.
    #[test]
    fn a_wrong_engine_is_found_by_the_contracts() {
        let cases: [(Wrong, &str); 6] = [
            (
                Wrong(|_, _, _| Verdict { answer: 0, second: 0 }),
                "2: a wrong engine answers 0, and the contracts on the card give 4",
            ),
            (
                Wrong(|_, before, image| {
                    image.copy_from_slice(before);
                    Verdict { answer: 2, second: 255 }
                }),
                "1: a wrong engine answers 2, and the contracts on the card give 0",
            ),
            (
                Wrong(|verdict, before, image| {
                    image.copy_from_slice(before);
                    verdict
                }),
                "1: a wrong engine leaves other contracts than its answer 0 says",
            ),
            (
                Wrong(|verdict, _, image| {
                    image[first_tokens(image)] = 9;
                    verdict
                }),
                "1: a wrong engine leaves other contracts than its answer 0 says",
            ),
            (
                Wrong(|verdict, _, image| {
                    image[image.len() - 1] = u8::from(verdict.answer == 4);
                    verdict
                }),
                "2: a wrong engine leaves another image, though it answers 4",
            ),
            (
                Wrong(|verdict, _, _| Verdict { second: verdict.second + 1, ..verdict }),
                "1: a wrong engine gives the number 1, which is not the package's",
            ),
        ];
        for (card, (wrong, words)) in
            Layout::CARDS.into_iter().flat_map(|card| cases.iter().map(move |case| (card, case)))
        {
            assert_eq!(said(card, wrong, None).as_deref(), Some(*words));
        }
    }

    /// What the contracts do not show, the other engine does: services under other numbers, another second number.
    #[test]
    fn a_wrong_engine_is_found_by_the_other() {
        let swapped = Wrong(|verdict, _, image| {
            if verdict.answer == 0 {
                let at = first_tokens(image);
                image.swap(at + 1, at + 3);
            }
            verdict
        });
        for (card, byte) in Layout::CARDS.into_iter().zip([141, 278]) {
            assert_eq!(said(card, &swapped, None), None);
            let words = format!(
                "1: a wrong engine and the second engine (not proved) leave byte {byte} of the image different"
            );
            assert_eq!(said(card, &swapped, Some(&Second)), Some(words));
        }
        let numbered =
            Wrong(|verdict, _, _| Verdict { second: if verdict.answer == 0 { verdict.second } else { 0 }, ..verdict });
        let words = "2: a wrong engine answers 4 with 0, and the second engine (not proved) 4 with 255";
        for card in Layout::CARDS {
            assert_eq!(said(card, &numbered, Some(&Second)).as_deref(), Some(words));
        }
    }
}
