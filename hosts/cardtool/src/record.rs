//! Records: their bytes read and written, why they are malformed (cause 2), and how they contradict themselves
//! (cause 3).

use crate::contract::{Aid, Contract, Row, Tokens};
use crate::layout::{Layout, VERSION_02};
use std::fmt;

#[derive(Clone, Debug, PartialEq, Eq)]
pub struct Record {
    pub aid: Aid,
    pub change: Change,
}

#[derive(Clone, Debug, PartialEq, Eq)]
pub enum Change {
    Load(Lists),
    Remove,
    AddService(Tokens, Vec<Aid>),
    RemoveService(Tokens),
    AddCall(Row),
    RemoveCall(Row),
    AddGrant(Row),
    RemoveGrant(Row),
    Replace(Lists),
}

impl Change {
    /// The record's kind byte.
    pub fn kind(&self) -> u8 {
        match self {
            Change::Load(_) => 1,
            Change::Remove => 2,
            Change::AddService(..) => 3,
            Change::RemoveService(_) => 4,
            Change::AddCall(_) => 5,
            Change::RemoveCall(_) => 6,
            Change::AddGrant(_) => 7,
            Change::RemoveGrant(_) => 8,
            Change::Replace(_) => 11,
        }
    }
}

/// A contract as it is written, row after row.
#[derive(Clone, Debug, Default, PartialEq, Eq)]
pub struct Lists {
    pub provides: Vec<Tokens>,
    pub calls: Vec<Row>,
    pub grants: Vec<Row>,
    pub needs: Vec<Row>,
}

impl Lists {
    pub fn contract(&self) -> Contract {
        Contract {
            provides: self.provides.iter().copied().collect(),
            calls: self.calls.iter().copied().collect(),
            grants: self.grants.iter().copied().collect(),
            needs: self.needs.iter().copied().collect(),
        }
    }
}

/// Where and why a record is malformed: cause 2.
#[derive(Clone, Copy, Debug, PartialEq, Eq)]
pub struct Malformed {
    /// The byte of the record.
    pub at: usize,
    pub why: Why,
}

#[derive(Clone, Copy, Debug, PartialEq, Eq)]
pub enum Why {
    /// The length field is not the count of bytes.
    Length {
        written: usize,
        bytes: usize,
    },
    /// This version, where records of a card have another.
    Version(u8, &'static Layout),
    Kind(u8),
    /// Kind 9 or 10, since R-13.
    Retired(u8),
    Count {
        written: usize,
        most: usize,
    },
    AidLength(u8),
    Method(u8),
    /// The record ends before its parts do.
    Missing,
    /// So many bytes after the last part.
    LeftOver(usize),
}

/// Reads a record of either card, by its version, and gives the card too.
pub fn read_either(bytes: &[u8]) -> Result<(&'static Layout, Record), Malformed> {
    let card = bytes.get(2).and_then(|version| Layout::of_records(*version)).unwrap_or(&VERSION_02);
    Ok((card, read(card, bytes)?))
}

/// Reads a record of a card, or says where it is malformed.
pub fn read(layout: &'static Layout, bytes: &[u8]) -> Result<Record, Malformed> {
    let mut rest = Rest { layout, bytes, at: 0 };
    let written = usize::from(rest.byte()?) * 256 + usize::from(rest.byte()?);
    if written != bytes.len() {
        return Err(Malformed { at: 0, why: Why::Length { written, bytes: bytes.len() } });
    }
    let version = rest.byte()?;
    if version != layout.record {
        return Err(Malformed { at: 2, why: Why::Version(version, layout) });
    }
    let kind = rest.byte()?;
    if !matches!(kind, 1..=8 | 11) {
        let why = if matches!(kind, 9 | 10) { Why::Retired(kind) } else { Why::Kind(kind) };
        return Err(Malformed { at: 3, why });
    }
    let aid = rest.aid()?;
    let change = match kind {
        1 => Change::Load(rest.lists()?),
        2 => Change::Remove,
        3 => Change::AddService(rest.tokens()?, rest.list(1, layout.record_callers, Rest::aid)?),
        4 => Change::RemoveService(rest.tokens()?),
        5 => Change::AddCall(rest.row()?),
        6 => Change::RemoveCall(rest.row()?),
        7 => Change::AddGrant(rest.row()?),
        8 => Change::RemoveGrant(rest.row()?),
        _ => Change::Replace(rest.lists()?),
    };
    match bytes.len() - rest.at {
        0 => Ok(Record { aid, change }),
        left => Err(Malformed { at: rest.at, why: Why::LeftOver(left) }),
    }
}

/// The record, and the place of the first byte not read yet.
struct Rest<'a> {
    layout: &'static Layout,
    bytes: &'a [u8],
    at: usize,
}

impl<'a> Rest<'a> {
    fn take(&mut self, count: usize) -> Result<&'a [u8], Malformed> {
        let missing = Malformed { at: self.bytes.len(), why: Why::Missing };
        let taken = self.bytes[self.at..].get(..count).ok_or(missing)?;
        self.at += count;
        Ok(taken)
    }

    fn byte(&mut self) -> Result<u8, Malformed> {
        self.take(1).map(|byte| byte[0])
    }

    fn aid(&mut self) -> Result<Aid, Malformed> {
        let at = self.at;
        let length = self.byte()?;
        let malformed = Malformed { at, why: Why::AidLength(length) };
        if !(Aid::LEAST..=Aid::MOST).contains(&usize::from(length)) {
            return Err(malformed);
        }
        Aid::new(self.take(length.into())?).ok_or(malformed)
    }

    fn tokens(&mut self) -> Result<Tokens, Malformed> {
        let interface = self.byte()?;
        let at = self.at;
        match self.byte()? {
            method if method <= Tokens::MOST_METHOD => Ok(Tokens { interface, method }),
            written => Err(Malformed { at, why: Why::Method(written) }),
        }
    }

    fn row(&mut self) -> Result<Row, Malformed> {
        Ok(Row { other: self.aid()?, tokens: self.tokens()? })
    }

    fn lists(&mut self) -> Result<Lists, Malformed> {
        let Layout { services, count_bytes, record_rows, .. } = *self.layout;
        Ok(Lists {
            provides: self.list(1, services, Rest::tokens)?,
            calls: self.list(count_bytes, record_rows, Rest::row)?,
            grants: self.list(count_bytes, record_rows, Rest::row)?,
            needs: self.list(count_bytes, record_rows, Rest::row)?,
        })
    }

    /// A count of so many bytes, and its rows.
    fn list<T>(
        &mut self,
        count_bytes: usize,
        most: usize,
        row: impl Fn(&mut Self) -> Result<T, Malformed>,
    ) -> Result<Vec<T>, Malformed> {
        let at = self.at;
        let written = self.take(count_bytes)?.iter().fold(0, |count, byte| count << 8 | usize::from(*byte));
        if written > most {
            return Err(Malformed { at, why: Why::Count { written, most } });
        }
        (0..written).map(|_| row(self)).collect()
    }
}

impl Record {
    /// The bytes that the record has for a card.
    pub fn bytes(&self, card: &Layout) -> Vec<u8> {
        let mut bytes = vec![0, 0, card.record, self.change.kind()];
        put_aid(&mut bytes, &self.aid);
        match &self.change {
            Change::Load(lists) | Change::Replace(lists) => {
                put_list(&mut bytes, 1, &lists.provides, put_tokens);
                for list in [&lists.calls, &lists.grants, &lists.needs] {
                    put_list(&mut bytes, card.count_bytes, list, put_row);
                }
            }
            Change::Remove => {}
            Change::AddService(tokens, callers) => {
                put_tokens(&mut bytes, tokens);
                put_list(&mut bytes, 1, callers, put_aid);
            }
            Change::RemoveService(tokens) => put_tokens(&mut bytes, tokens),
            Change::AddCall(row) | Change::RemoveCall(row) | Change::AddGrant(row) | Change::RemoveGrant(row) => {
                put_row(&mut bytes, row)
            }
        }
        let length = (bytes.len() as u16).to_be_bytes();
        bytes[..2].copy_from_slice(&length);
        bytes
    }
}

fn put_aid(bytes: &mut Vec<u8>, aid: &Aid) {
    bytes.push(aid.bytes().len() as u8);
    bytes.extend(aid.bytes());
}

fn put_tokens(bytes: &mut Vec<u8>, tokens: &Tokens) {
    bytes.extend([tokens.interface, tokens.method]);
}

fn put_row(bytes: &mut Vec<u8>, row: &Row) {
    put_aid(bytes, &row.other);
    put_tokens(bytes, &row.tokens);
}

fn put_list<T>(bytes: &mut Vec<u8>, count_bytes: usize, list: &[T], put: fn(&mut Vec<u8>, &T)) {
    let count = list.len().to_be_bytes();
    bytes.extend(&count[count.len() - count_bytes..]);
    list.iter().for_each(|item| put(bytes, item));
}

/// A part of a record, with its place in its list from 0 on.
#[derive(Clone, Copy, Debug, PartialEq, Eq, PartialOrd, Ord)]
pub enum Part {
    Provides(usize),
    Calls(usize),
    Grants(usize),
    Needs(usize),
    /// The callers of kind 3.
    Callers(usize),
    /// The row of kinds 5 to 8.
    Row,
}

/// Why a part contradicts its record.
#[derive(Clone, Copy, Debug, PartialEq, Eq)]
pub enum Clash {
    /// It stands in its list already, at this part.
    Repeated(Part),
    OwnAid,
    NotCalled,
}

/// Cause 3: each part of the record that contradicts the rest, or names its own AID as the other end.
pub fn contradictions(record: &Record) -> Vec<(Part, Clash)> {
    let own = |row: &Row| row.other == record.aid;
    let mut found = Vec::new();
    match &record.change {
        Change::Load(lists) | Change::Replace(lists) => {
            let Lists { provides, calls, grants, needs } = lists;
            repeated(&mut found, Part::Provides, provides);
            for (part, list) in [(Part::Calls as PartAt, calls), (Part::Grants, grants), (Part::Needs, needs)] {
                repeated(&mut found, part, list);
                each(&mut found, part, Clash::OwnAid, list, own);
            }
            each(&mut found, Part::Needs, Clash::NotCalled, needs, |need| !calls.contains(need));
        }
        Change::AddService(_, callers) => {
            repeated(&mut found, Part::Callers, callers);
            each(&mut found, Part::Callers, Clash::OwnAid, callers, |caller| *caller == record.aid);
        }
        Change::Remove | Change::RemoveService(_) => {}
        Change::AddCall(row) | Change::RemoveCall(row) | Change::AddGrant(row) | Change::RemoveGrant(row) => {
            each(&mut found, |_| Part::Row, Clash::OwnAid, std::slice::from_ref(row), own)
        }
    }
    found
}

/// The part at a place of its list.
type PartAt = fn(usize) -> Part;

/// The parts of a list that stand earlier in it too.
fn repeated<T: PartialEq>(found: &mut Vec<(Part, Clash)>, part: PartAt, list: &[T]) {
    for (at, item) in list.iter().enumerate() {
        if let Some(first) = list[..at].iter().position(|other| other == item) {
            found.push((part(at), Clash::Repeated(part(first))));
        }
    }
}

/// The parts of a list that clash.
fn each<T>(found: &mut Vec<(Part, Clash)>, part: PartAt, clash: Clash, list: &[T], clashes: impl Fn(&T) -> bool) {
    let at = list.iter().enumerate().filter(|(_, item)| clashes(item));
    found.extend(at.map(|(at, _)| (part(at), clash)));
}

impl fmt::Display for Why {
    fn fmt(&self, f: &mut fmt::Formatter) -> fmt::Result {
        match self {
            Why::Length { written, bytes } => {
                write!(f, "the length field says {written}, the record has {bytes} bytes")
            }
            Why::Version(version, card) => match Layout::of_records(*version) {
                Some(other) => {
                    let whose = format!("a record of the {} card, and this card is {}", other.name, card.name);
                    let text = "'cardtool decode' makes a text of it, which is judged on either";
                    write!(f, "the version is {version}: {whose}; {text}")
                }
                None => {
                    let [small, large] = Layout::CARDS.map(|card| format!("{} on the {} card", card.record, card.name));
                    write!(f, "the version is {version}, and records have {small}, {large}")
                }
            },
            Why::Kind(kind) => write!(f, "the kind is {kind}, and there are 1 to 8 and 11"),
            Why::Retired(kind) => {
                let (line, instead) = match kind {
                    9 => ("add AID needs", "a need comes with the whole contract, as a row of 'load' or 'replace'"),
                    _ => (
                        "remove AID needs",
                        "a need goes with its call, 'remove AID calls AID SERVICE', or with a 'replace' without it",
                    ),
                };
                write!(f, "'{line}', kind {kind}, is retired since R-13, and a card answers 2: {instead}")
            }
            Why::Count { written, most } => write!(f, "the count is {written}, at most {most} may stand here"),
            Why::AidLength(length) => write!(f, "the AID's length is {length}, not {} to {}", Aid::LEAST, Aid::MOST),
            Why::Method(written) => write!(f, "the method token is {written}, not 0 to {}", Tokens::MOST_METHOD),
            Why::Missing => write!(f, "the record ends here, and bytes are missing"),
            Why::LeftOver(1) => write!(f, "1 byte is left over"),
            Why::LeftOver(left) => write!(f, "{left} bytes are left over"),
        }
    }
}

impl fmt::Display for Clash {
    fn fmt(&self, f: &mut fmt::Formatter) -> fmt::Result {
        f.write_str(match self {
            Clash::Repeated(_) => "this stands in its list already",
            Clash::OwnAid => "a package does not name its own AID here",
            Clash::NotCalled => "what is needed is not among the calls",
        })
    }
}
