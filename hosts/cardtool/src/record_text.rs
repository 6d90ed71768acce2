//! Records as text, a line for each row. docs/TESTERS.md describes the form.

use crate::cause::LAST_CAUSE;
use crate::contract::{Aid, Row, Tokens};
use crate::fault::{Fault, Place};
use crate::hex::to_hex;
use crate::hexadecimal::Digits;
use crate::layout::{Layout, VERSION_03};
use crate::names::Names;
use crate::record::{contradictions, Change, Lists, Part, Record, Why};
use crate::words::{lines, Line, Word};
use std::collections::BTreeMap;
use std::ops::RangeInclusive;

/// What a record of a text is.
#[derive(Clone, Debug, PartialEq, Eq)]
pub enum Written {
    Record(Record),
    /// The bytes of a line `record`, which may be malformed.
    Bytes(Vec<u8>),
}

/// The most bytes of a record that are shown for it.
const SHOWN: usize = 20;

/// A record of a text, its place, where the rows of its lists stand, and what is expected of its answer.
#[derive(Clone, Debug, PartialEq, Eq)]
pub struct Placed {
    pub written: Written,
    pub place: Place,
    pub parts: BTreeMap<Part, Place>,
    pub expected: Option<(Place, Expected)>,
}

/// What an `expect` line says of the answer.
#[derive(Clone, Copy, Debug, PartialEq, Eq)]
pub enum Expected {
    /// Accepted, and with this package number if one is said.
    Accepted(Option<u32>),
    /// Refused, and with this cause if one is said.
    Refused(Option<u32>),
}

impl Expected {
    /// Whether an answer and its second number are as expected.
    pub fn holds(self, answer: u32, second: u32) -> bool {
        match self {
            Expected::Accepted(number) => answer == 0 && number.is_none_or(|number| number == second),
            Expected::Refused(cause) => answer != 0 && cause.is_none_or(|cause| cause == answer),
        }
    }
}

impl std::fmt::Display for Expected {
    fn fmt(&self, f: &mut std::fmt::Formatter) -> std::fmt::Result {
        match self {
            Expected::Accepted(None) => write!(f, "accepted"),
            Expected::Accepted(Some(number)) => write!(f, "accepted {number}"),
            Expected::Refused(None) => write!(f, "refused"),
            Expected::Refused(Some(cause)) => write!(f, "refused {cause}"),
        }
    }
}

impl Placed {
    /// The record's bytes for a card. Those of a line `record` are what they are.
    pub fn bytes(&self, card: &Layout) -> Vec<u8> {
        match &self.written {
            Written::Record(record) => record.bytes(card),
            Written::Bytes(bytes) => bytes.clone(),
        }
    }

    /// A fault where the record contradicts itself: a card answers 3 to it.
    pub fn consistent(&self) -> Result<(), Fault> {
        let Written::Record(record) = &self.written else { return Ok(()) };
        match contradictions(record).first() {
            None => Ok(()),
            Some((part, clash)) => {
                let place = self.parts.get(part).copied().unwrap_or(self.place);
                Err(Fault::text(place, format!("{clash} (a card answers 3)")))
            }
        }
    }

    /// The line that begins the record, as `decode` writes it; of a long one in hexadecimal the first bytes.
    pub fn first_line(&self, names: &Names) -> String {
        let text = match &self.written {
            Written::Record(record) => write(record, names),
            Written::Bytes(bytes) if bytes.len() > SHOWN => {
                format!("record {} ... ({} bytes)", to_hex(&bytes[..SHOWN]), bytes.len())
            }
            Written::Bytes(bytes) => format!("record {}", to_hex(bytes)),
        };
        text.lines().next().unwrap_or("").trim_end().to_string()
    }
}

/// What a text says to a card: records in order, and names.
#[derive(Clone, Debug, PartialEq, Eq)]
pub struct Text {
    card: &'static Layout,
    pub records: Vec<Placed>,
    pub names: Names,
}

/// Reads a text of records for a card, in which these names are given already. Records that contradict themselves are
/// read too.
pub fn read(card: &'static Layout, text: &str, names: &Names) -> Result<Text, Fault> {
    let mut read = Text { card, records: Vec::new(), names: names.clone() };
    for mut line in lines(text) {
        read.line(&mut line)?;
        line.finish()?;
    }
    Ok(read)
}

/// A row as it stands after its verb.
pub enum Said {
    Provides(Tokens),
    Calls(Row),
    Grants(Row),
    Needs(Row),
}

/// Reads what follows a row's verb, of a package if one stands above; `None` when the word is no such verb.
pub fn said(verb: Word, line: &mut Line, names: &Names, own: Option<Aid>) -> Result<Option<Said>, Fault> {
    let other = |line: &mut Line, what: &str| names.aid(line.next(what)?);
    let service = |line: &mut Line, of: Option<Aid>| names.service(of, line.next("a service, as 0.1,")?);
    let callee = |line: &mut Line| {
        let other = other(line, "the callee's AID")?;
        Ok(Row { other, tokens: service(line, Some(other))? })
    };
    Ok(Some(match verb.text {
        "provides" => Said::Provides(service(line, own)?),
        "calls" => Said::Calls(callee(line)?),
        "needs" => Said::Needs(callee(line)?),
        "grants" => {
            let tokens = service(line, own)?;
            line.expect("to")?;
            Said::Grants(Row { other: other(line, "the caller's AID")?, tokens })
        }
        _ => return Ok(None),
    }))
}

impl Text {
    fn line(&mut self, line: &mut Line) -> Result<(), Fault> {
        let first = line.next("a word")?;
        match first.text {
            "name" => self.names.line(line),
            "load" | "replace" | "unload" | "add" | "remove" => {
                let record = record(first, line, &self.names)?;
                self.begin(first, Written::Record(record))
            }
            "record" => {
                let bytes = Digits::of(line)?.bytes;
                self.begin(first, Written::Bytes(bytes))
            }
            "expect" => self.expect(first, line),
            "provides" | "calls" | "grants" | "needs" => self.contract_row(first, line),
            "to" => self.caller(first, line),
            _ => Err(no_line(first)),
        }
    }

    fn begin(&mut self, verb: Word, written: Written) -> Result<(), Fault> {
        self.records.push(Placed { written, place: verb.place, parts: BTreeMap::new(), expected: None });
        Ok(())
    }

    /// What is expected of the answer to the record above.
    fn expect(&mut self, verb: Word, line: &mut Line) -> Result<(), Fault> {
        let Some(placed) = self.records.last_mut() else {
            return Err(verb.fault("'expect' follows a record, and none stands above it"));
        };
        if let Some((place, _)) = placed.expected {
            let words = "of this record's answer something is expected already";
            return Err(verb.fault(format!("{words}, on line {}", place.line)));
        }
        let word = line.next("accepted or refused")?;
        let mut number =
            |what: &str, numbers| line.next_if(|_| true).map(|word| number(word, what, numbers)).transpose();
        let expected = match word.text {
            "accepted" => {
                let what = format!("package number of the {} card", self.card.name);
                Expected::Accepted(number(&what, 0..=self.card.packages as u32 - 1)?)
            }
            "refused" => Expected::Refused(number("cause", 1..=LAST_CAUSE)?),
            _ => return Err(word.fault(format!("accepted or refused is expected, not '{}'", word.cut()))),
        };
        placed.expected = Some((verb.place, expected));
        Ok(())
    }

    /// A row of the contract above.
    fn contract_row(&mut self, verb: Word, line: &mut Line) -> Result<(), Fault> {
        let Some(Placed {
            written: Written::Record(Record { aid, change: Change::Load(lists) | Change::Replace(lists) }),
            parts,
            expected,
            ..
        }) = self.records.last_mut()
        else {
            let words = format!("'{}' is a row of a contract, and neither load nor replace stands above it", verb.text);
            return Err(verb.fault(words));
        };
        no_expect(*expected, verb)?;
        let card = self.card;
        let rows = |card: &Layout| card.record_rows;
        let part = match said(verb, line, &self.names, Some(*aid))? {
            Some(Said::Provides(tokens)) => {
                Part::Provides(put(&mut lists.provides, tokens, card, |card| card.services, verb)?)
            }
            Some(Said::Calls(row)) => Part::Calls(put(&mut lists.calls, row, card, rows, verb)?),
            Some(Said::Grants(row)) => Part::Grants(put(&mut lists.grants, row, card, rows, verb)?),
            Some(Said::Needs(row)) => Part::Needs(put(&mut lists.needs, row, card, rows, verb)?),
            None => return Err(no_line(verb)),
        };
        parts.insert(part, verb.place);
        Ok(())
    }

    /// A caller of the service that is added above.
    fn caller(&mut self, verb: Word, line: &mut Line) -> Result<(), Fault> {
        let Some(Placed {
            written: Written::Record(Record { change: Change::AddService(_, callers), .. }),
            parts,
            expected,
            ..
        }) = self.records.last_mut()
        else {
            return Err(verb.fault("'to' follows 'add AID provides SERVICE', and none stands above it"));
        };
        no_expect(*expected, verb)?;
        let caller = self.names.aid(line.next("the caller's AID")?)?;
        let callers = put(callers, caller, self.card, |card| card.record_callers, verb)?;
        parts.insert(Part::Callers(callers), verb.place);
        Ok(())
    }
}

fn no_line(word: Word) -> Fault {
    word.fault(format!(
        "'{}' begins no line: there are load, replace, unload, add, remove, record, expect and name, \
         the rows provides, calls, grants and needs, and to",
        word.cut()
    ))
}

/// The rows of a record stand before what is expected of its answer.
fn no_expect(expected: Option<(Place, Expected)>, verb: Word) -> Result<(), Fault> {
    match expected {
        None => Ok(()),
        Some((place, _)) => {
            let words = format!("'{}' belongs to the record above, and stands after its 'expect'", verb.text);
            Err(verb.fault(format!("{words} on line {}", place.line)))
        }
    }
}

/// A record as its first line has it.
fn record(verb: Word, line: &mut Line, names: &Names) -> Result<Record, Fault> {
    let aid = names.aid(line.next("the package's AID")?)?;
    let change = match verb.text {
        "load" => Change::Load(Lists::default()),
        "replace" => Change::Replace(Lists::default()),
        "unload" => Change::Remove,
        adds_or_removes => one_row(adds_or_removes == "add", line, names, aid)?,
    };
    Ok(Record { aid, change })
}

/// What a line says that adds or removes one row. Since R-13 that is no need.
fn one_row(adds: bool, line: &mut Line, names: &Names, own: Aid) -> Result<Change, Fault> {
    let verb = line.next("provides, calls or grants")?;
    if verb.text == "needs" {
        return Err(verb.fault(Why::Retired(if adds { 9 } else { 10 }).to_string()));
    }
    Ok(match (said(verb, line, names, Some(own))?, adds) {
        (Some(Said::Provides(tokens)), true) => Change::AddService(tokens, Vec::new()),
        (Some(Said::Provides(tokens)), false) => Change::RemoveService(tokens),
        (Some(Said::Calls(row)), true) => Change::AddCall(row),
        (Some(Said::Calls(row)), false) => Change::RemoveCall(row),
        (Some(Said::Grants(row)), true) => Change::AddGrant(row),
        (Some(Said::Grants(row)), false) => Change::RemoveGrant(row),
        (Some(Said::Needs(_)) | None, _) => {
            return Err(verb.fault(format!("provides, calls or grants is expected, not '{}'", verb.cut())));
        }
    })
}

/// Puts an item at the end of its list, and gives its place there. A card says how many there may be.
fn put<T>(
    list: &mut Vec<T>,
    item: T,
    card: &Layout,
    most: impl Fn(&Layout) -> usize,
    verb: Word,
) -> Result<usize, Fault> {
    let (most, larger) = (most(card), most(&VERSION_03));
    if list.len() == most {
        let words = format!("a record of the {} card has at most {most} lines with '{}'", card.name, verb.text);
        let more = if larger > most { format!(", one of the large card (--large) {larger}") } else { String::new() };
        return Err(verb.fault(words + &more));
    }
    list.push(item);
    Ok(list.len() - 1)
}

/// The number after `accepted` or `refused`.
fn number(word: Word, what: &str, numbers: RangeInclusive<u32>) -> Result<u32, Fault> {
    let (least, most) = (numbers.start(), numbers.end());
    let none = || word.fault(format!("'{}' is no {what}: there are {least} to {most}", word.cut()));
    numbers.clone().find(|number| number.to_string() == word.text).ok_or_else(none)
}

/// A record as text, which reads as that record again.
pub fn write(record: &Record, names: &Names) -> String {
    let own = names.word(record.aid);
    let row = |verb: &str, row: String| format!("{verb} {own} {row}\n");
    match &record.change {
        Change::Load(lists) => format!("load {own}\n{}", rows(record.aid, lists, names)),
        Change::Remove => format!("unload {own}\n"),
        Change::AddService(tokens, callers) => {
            let callers = callers.iter().map(|caller| format!("    to {}\n", names.word(*caller)));
            row("add", provides(record.aid, *tokens, names)) + &callers.collect::<String>()
        }
        Change::RemoveService(tokens) => row("remove", provides(record.aid, *tokens, names)),
        Change::AddCall(call) => row("add", calls(call, names)),
        Change::RemoveCall(call) => row("remove", calls(call, names)),
        Change::AddGrant(grant) => row("add", grants(record.aid, grant, names)),
        Change::RemoveGrant(grant) => row("remove", grants(record.aid, grant, names)),
        Change::Replace(lists) => format!("replace {own}\n{}", rows(record.aid, lists, names)),
    }
}

/// A line for each row of a contract.
fn rows(own: Aid, lists: &Lists, names: &Names) -> String {
    let provides = lists.provides.iter().map(|tokens| provides(own, *tokens, names));
    let calls = lists.calls.iter().map(|row| calls(row, names));
    let grants = lists.grants.iter().map(|row| grants(own, row, names));
    let needs = lists.needs.iter().map(|row| needs(row, names));
    provides.chain(calls).chain(grants).chain(needs).map(|row| format!("    {row}\n")).collect()
}

pub fn provides(own: Aid, tokens: Tokens, names: &Names) -> String {
    format!("provides {}", names.service_word(own, tokens))
}

pub fn calls(row: &Row, names: &Names) -> String {
    format!("calls {}", service(row, names))
}

pub fn needs(row: &Row, names: &Names) -> String {
    format!("needs {}", service(row, names))
}

pub fn grants(own: Aid, row: &Row, names: &Names) -> String {
    format!("grants {} to {}", names.service_word(own, row.tokens), names.word(row.other))
}

/// A callee and its service.
pub fn service(row: &Row, names: &Names) -> String {
    format!("{} {}", names.word(row.other), names.service_word(row.other, row.tokens))
}
