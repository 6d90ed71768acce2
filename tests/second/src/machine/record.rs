//! A record as the plain machine reads it: causes 2 and 3, which the record alone decides.

use super::contract::{Aid, Contract, Row, Tokens};
use crate::rules::Rules;
use std::collections::BTreeSet;

#[derive(Clone, Debug, PartialEq, Eq)]
pub struct Record {
    pub aid: Aid,
    pub change: Change,
}

#[derive(Clone, Debug, PartialEq, Eq)]
pub enum Change {
    Load(Lists),
    Remove,
    AddService(Tokens, Vec<Aid>),
    RemoveService(Tokens),
    AddCall(Row),
    RemoveCall(Row),
    AddGrant(Row),
    RemoveGrant(Row),
    AddNeed(Row),
    RemoveNeed(Row),
    Replace(Lists),
}

/// A contract as it is written, row after row.
#[derive(Clone, Debug, Default, PartialEq, Eq)]
pub struct Lists {
    pub provides: Vec<Tokens>,
    pub calls: Vec<Row>,
    pub grants: Vec<Row>,
    pub needs: Vec<Row>,
}

impl Lists {
    pub fn contract(&self) -> Contract {
        Contract {
            provides: self.provides.iter().copied().collect(),
            calls: self.calls.iter().copied().collect(),
            grants: self.grants.iter().copied().collect(),
            needs: self.needs.iter().copied().collect(),
        }
    }
}

/// Reads a record by the rules; `None` is cause 2: "record's length, version, kind, count, AID length wrong, or bytes missing or
/// left over", and since R-7 a method token.
pub fn read(rules: Rules, bytes: &[u8]) -> Option<Record> {
    let mut rest = Rest { rules, bytes };
    let length = rest.number(2)?;
    let version = rest.byte()?;
    let kind = rest.byte()?;
    if length != bytes.len() || version != rules.sizes.record_version || !rules.reads(kind) {
        return None;
    }
    let aid = rest.aid()?;
    let change = match kind {
        1 => Change::Load(rest.lists()?),
        2 => Change::Remove,
        3 => Change::AddService(rest.tokens()?, rest.callers()?),
        4 => Change::RemoveService(rest.tokens()?),
        5 => Change::AddCall(rest.row()?),
        6 => Change::RemoveCall(rest.row()?),
        7 => Change::AddGrant(rest.row()?),
        8 => Change::RemoveGrant(rest.row()?),
        9 => Change::AddNeed(rest.row()?),
        10 => Change::RemoveNeed(rest.row()?),
        _ => Change::Replace(rest.lists()?),
    };
    rest.bytes.is_empty().then_some(Record { aid, change })
}

/// Cause 3: "repeated row, own AID as the other end, need not called, grant of a service not provided (kind 1); own AID or a
/// repeated AID (kind 3); own AID as the other end (5 to 10)". Kind 11 is as kind 1; since R-2 a grant may come early.
pub fn contradicts(rules: Rules, record: &Record) -> bool {
    let own = |other: &Aid| *other == record.aid;
    let own_row = |row: &Row| own(&row.other);
    match &record.change {
        Change::Load(lists) | Change::Replace(lists) => {
            let Lists { provides, calls, grants, needs } = lists;
            let too_early = |grant: &Row| !rules.early_grants && !provides.contains(&grant.tokens);
            repeats(provides)
                || [calls, grants, needs].into_iter().any(|rows| repeats(rows) || rows.iter().any(own_row))
                || needs.iter().any(|need| !calls.contains(need))
                || grants.iter().any(too_early)
        }
        Change::AddService(_, callers) => repeats(callers) || callers.iter().any(own),
        Change::Remove | Change::RemoveService(_) => false,
        Change::AddCall(row)
        | Change::RemoveCall(row)
        | Change::AddGrant(row)
        | Change::RemoveGrant(row)
        | Change::AddNeed(row)
        | Change::RemoveNeed(row) => own_row(row),
    }
}

/// Whether something stands in the list twice.
fn repeats<T: Ord>(list: &[T]) -> bool {
    list.iter().collect::<BTreeSet<_>>().len() < list.len()
}

/// What is not read yet, and the rules to read it by.
struct Rest<'a> {
    rules: Rules,
    bytes: &'a [u8],
}

impl<'a> Rest<'a> {
    fn take(&mut self, count: usize) -> Option<&'a [u8]> {
        let (taken, rest) = self.bytes.split_at_checked(count)?;
        self.bytes = rest;
        Some(taken)
    }

    fn byte(&mut self) -> Option<u8> {
        self.take(1).map(|byte| byte[0])
    }

    /// A number of so many bytes, big-endian.
    fn number(&mut self, bytes: usize) -> Option<usize> {
        (0..bytes).try_fold(0, |number, _| Some(256 * number + usize::from(self.byte()?)))
    }

    /// "An AID is written as a length byte and its bytes."
    fn aid(&mut self) -> Option<Aid> {
        let length = self.number(1)?;
        match Aid::LENGTHS.contains(&length) {
            true => self.take(length).map(Aid::new),
            false => None,
        }
    }

    /// "Two token bytes, interface then method."
    fn tokens(&mut self) -> Option<Tokens> {
        let tokens = Tokens { interface: self.byte()?, method: self.byte()? };
        (tokens.method <= self.rules.most_method).then_some(tokens)
    }

    fn row(&mut self) -> Option<Row> {
        Some(Row { other: self.aid()?, tokens: self.tokens()? })
    }

    fn lists(&mut self) -> Option<Lists> {
        Some(Lists {
            provides: self.list(1, self.rules.sizes.services, Rest::tokens)?,
            calls: self.rows()?,
            grants: self.rows()?,
            needs: self.rows()?,
        })
    }

    fn rows(&mut self) -> Option<Vec<Row>> {
        self.list(self.rules.sizes.count_bytes, self.rules.sizes.rows, Rest::row)
    }

    fn callers(&mut self) -> Option<Vec<Aid>> {
        self.list(1, self.rules.sizes.callers, Rest::aid)
    }

    /// A count of so many bytes and its rows, of which there may be so many.
    fn list<T>(&mut self, bytes: usize, most: usize, row: fn(&mut Self) -> Option<T>) -> Option<Vec<T>> {
        match self.number(bytes)? {
            count if count <= most => (0..count).map(|_| row(self)).collect(),
            _ => None,
        }
    }
}
