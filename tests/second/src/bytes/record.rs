//! A record as the byte engine reads it: parts of the record's own bytes, nothing copied.
//! An AID is kept as it is written, with its length byte.

use super::layout::{LONGEST_AID, SHORTEST_AID, TOKENS};
use crate::rules::Rules;

/// The length of the record in two bytes, its version and its kind.
pub const HEAD: usize = 4;

#[derive(Clone, Copy)]
pub struct Record<'a> {
    pub aid: &'a [u8],
    pub change: Change<'a>,
}

#[derive(Clone, Copy)]
pub enum Change<'a> {
    Load(Contract<'a>),
    Remove,
    AddService([u8; TOKENS], Aids<'a>),
    RemoveService([u8; TOKENS]),
    AddCall(Row<'a>),
    RemoveCall(Row<'a>),
    AddGrant(Row<'a>),
    RemoveGrant(Row<'a>),
    AddNeed(Row<'a>),
    RemoveNeed(Row<'a>),
    Replace(Contract<'a>),
}

/// A whole contract, as kinds 1 and 11 write it.
#[derive(Clone, Copy)]
pub struct Contract<'a> {
    pub provides: &'a [[u8; TOKENS]],
    pub calls: Rows<'a>,
    pub grants: Rows<'a>,
    pub needs: Rows<'a>,
}

#[derive(Clone, Copy)]
pub struct Row<'a> {
    pub aid: &'a [u8],
    pub tokens: [u8; TOKENS],
}

impl PartialEq for Row<'_> {
    /// The tokens and the AID's last byte first: they tell most rows apart.
    fn eq(&self, other: &Row) -> bool {
        self.tokens == other.tokens && self.aid.last() == other.aid.last() && self.aid == other.aid
    }
}

/// The rows of a list that has been read, one after another.
#[derive(Clone, Copy)]
pub struct Rows<'a>(&'a [u8]);

impl<'a> Iterator for Rows<'a> {
    type Item = Row<'a>;

    fn next(&mut self) -> Option<Row<'a>> {
        let (aid, rest) = read_aid(self.0)?;
        let (&tokens, rest) = rest.split_first_chunk()?;
        self.0 = rest;
        Some(Row { aid, tokens })
    }
}

/// The AIDs of a list that has been read, one after another.
#[derive(Clone, Copy)]
pub struct Aids<'a>(&'a [u8]);

impl<'a> Iterator for Aids<'a> {
    type Item = &'a [u8];

    fn next(&mut self) -> Option<&'a [u8]> {
        let (aid, rest) = read_aid(self.0)?;
        self.0 = rest;
        Some(aid)
    }
}

/// Reads a record; `None` is cause 2.
pub fn read(rules: Rules, record: &[u8]) -> Option<Record<'_>> {
    let (&[high, low, version, kind], rest) = record.split_first_chunk::<HEAD>()?;
    let length = usize::from(u16::from_be_bytes([high, low]));
    if length != record.len() || version != rules.sizes.record_version || !rules.reads(kind) {
        return None;
    }
    let (aid, rest) = read_aid(rest)?;
    let (change, rest) = match kind {
        1 | 11 => {
            let (contract, rest) = read_contract(rules, rest)?;
            (if kind == 1 { Change::Load(contract) } else { Change::Replace(contract) }, rest)
        }
        2 => (Change::Remove, rest),
        3 => read_service(rules, rest)?,
        4 => {
            let (tokens, rest) = read_tokens(rules, rest)?;
            (Change::RemoveService(tokens), rest)
        }
        5..=10 => {
            let (row, rest) = read_row(rules, rest)?;
            let change = match kind {
                5 => Change::AddCall(row),
                6 => Change::RemoveCall(row),
                7 => Change::AddGrant(row),
                8 => Change::RemoveGrant(row),
                9 => Change::AddNeed(row),
                _ => Change::RemoveNeed(row),
            };
            (change, rest)
        }
        _ => return None,
    };
    rest.is_empty().then_some(Record { aid, change })
}

fn read_contract(rules: Rules, rest: &[u8]) -> Option<(Contract<'_>, &[u8])> {
    let (count, rest) = read_count(rest, 1, rules.sizes.services)?;
    let (provides, rest) = rest.split_at_checked(TOKENS * count)?;
    let provides = provides.as_chunks().0;
    if !provides.iter().all(|tokens| allowed(rules, tokens)) {
        return None;
    }
    let (calls, rest) = read_rows(rules, rest)?;
    let (grants, rest) = read_rows(rules, rest)?;
    let (needs, rest) = read_rows(rules, rest)?;
    Some((Contract { provides, calls, grants, needs }, rest))
}

fn read_rows(rules: Rules, rest: &[u8]) -> Option<(Rows<'_>, &[u8])> {
    let (count, rest) = read_count(rest, rules.sizes.count_bytes, rules.sizes.rows)?;
    let (rows, rest) = read_list(rest, count, |rest| Some(read_row(rules, rest)?.1))?;
    Some((Rows(rows), rest))
}

fn read_service(rules: Rules, rest: &[u8]) -> Option<(Change<'_>, &[u8])> {
    let (tokens, rest) = read_tokens(rules, rest)?;
    let (count, rest) = read_count(rest, 1, rules.sizes.callers)?;
    let (callers, rest) = read_list(rest, count, |rest| Some(read_aid(rest)?.1))?;
    Some((Change::AddService(tokens, Aids(callers)), rest))
}

/// A count of so many bytes, and what comes after it.
fn read_count(rest: &[u8], bytes: usize, most: usize) -> Option<(usize, &[u8])> {
    let (count, rest) = rest.split_at_checked(bytes)?;
    let count = count.iter().fold(0, |count, byte| count << 8 | usize::from(*byte));
    (count <= most).then_some((count, rest))
}

/// So many rows: their bytes, and what comes after them.
fn read_list(rows: &[u8], count: usize, after_row: impl Fn(&[u8]) -> Option<&[u8]>) -> Option<(&[u8], &[u8])> {
    let mut rest = rows;
    for _ in 0..count {
        rest = after_row(rest)?;
    }
    Some((&rows[..rows.len() - rest.len()], rest))
}

fn read_row(rules: Rules, rest: &[u8]) -> Option<(Row<'_>, &[u8])> {
    let (aid, rest) = read_aid(rest)?;
    let (tokens, rest) = read_tokens(rules, rest)?;
    Some((Row { aid, tokens }, rest))
}

fn read_tokens(rules: Rules, rest: &[u8]) -> Option<([u8; TOKENS], &[u8])> {
    let (tokens, rest) = rest.split_first_chunk()?;
    allowed(rules, tokens).then_some((*tokens, rest))
}

/// Any interface, and a method that the rules have.
fn allowed(rules: Rules, tokens: &[u8; TOKENS]) -> bool {
    tokens[1] <= rules.most_method
}

fn read_aid(rest: &[u8]) -> Option<(&[u8], &[u8])> {
    let length = *rest.first()?;
    if !(SHORTEST_AID..=LONGEST_AID).contains(&length) {
        return None;
    }
    rest.split_at_checked(1 + usize::from(length))
}

/// Cause 3.
pub fn contradicts(rules: Rules, record: &Record) -> bool {
    match record.change {
        Change::Load(contract) | Change::Replace(contract) => contract_contradicts(rules, record.aid, &contract),
        Change::AddService(_, callers) => repeats(callers) || callers.into_iter().any(|caller| caller == record.aid),
        Change::Remove | Change::RemoveService(_) => false,
        Change::AddCall(row)
        | Change::RemoveCall(row)
        | Change::AddGrant(row)
        | Change::RemoveGrant(row)
        | Change::AddNeed(row)
        | Change::RemoveNeed(row) => row.aid == record.aid,
    }
}

fn contract_contradicts(rules: Rules, own: &[u8], contract: &Contract) -> bool {
    let Contract { provides, mut calls, mut grants, mut needs } = *contract;
    repeats(provides.iter())
        || repeats(calls)
        || repeats(grants)
        || repeats(needs)
        || calls.any(|row| row.aid == own)
        || grants.any(|row| row.aid == own || !rules.early_grants && !provides.contains(&row.tokens))
        || needs.any(|row| !contract.calls.into_iter().any(|call| call == row))
}

fn repeats<T: PartialEq, L: Iterator<Item = T> + Clone>(list: L) -> bool {
    let mut rest = list;
    while let Some(row) = rest.next() {
        if rest.clone().any(|later| later == row) {
            return true;
        }
    }
    false
}
