//! Why a card refuses a record: document 01's plain machine on the contracts of an image, with reasons. It asks no engine,
//! so that an engine's answer can be held to it.

mod reason;

pub use reason::{Ends, Item, Matter, Reason, Waits};

use crate::contract::{Aid, Contracts, Row};
use crate::layout::{Layout, VERSION_01};
use crate::names::Names;
use crate::record::{self, contradictions, Change, Part, Record};
use crate::tables::Tables;
use std::collections::{BTreeMap, BTreeSet};

/// What the contracts on a card say of a record: the answer that follows from them, and why.
#[derive(Clone, Debug, PartialEq, Eq)]
pub struct Explained {
    /// 0, or the first cause that applies, 1 to 11.
    pub answer: u32,
    /// Those of that cause; none exactly when the record is accepted.
    pub reasons: Vec<Reason>,
    /// The contracts that an accepted record leaves.
    pub after: Option<Contracts>,
}

/// The names are those that faults of an image have in their words.
pub fn explain(image: &[u8], record: &[u8], names: &Names) -> Explained {
    match judged(image, record, names) {
        Ok(after) => Explained { answer: 0, reasons: Vec::new(), after: Some(after) },
        Err((answer, reasons)) => Explained { answer, reasons, after: None },
    }
}

/// The first cause that applies, and its reasons.
type Refusal = (u32, Vec<Reason>);

/// The contracts that the record leaves, or why it is refused.
fn judged(image: &[u8], record: &[u8], names: &Names) -> Result<Contracts, Refusal> {
    let tables = sound(image, names).map_err(|reasons| (1, reasons))?;
    let record = &record::read(tables.layout, record).map_err(|malformed| (2, vec![Reason::Malformed(malformed)]))?;
    let before = &tables.contracts();
    none(3, contradicting(record))?;
    none(4, loaded(&tables, record))?;
    none(5, absent(&tables, record))?;
    none(6, pointless(&tables, before, record))?;
    none(7, without_number(&tables, record))?;
    let after = changed(before, record);
    let look = Look { record, before, after: &after };
    none(8, look.ungranted())?;
    none(9, look.needs())?;
    none(10, look.unmet(tables.layout.rows))?;
    none(11, look.waiting(tables.layout.rows))?;
    Ok(after)
}

/// A cause applies when there are reasons of it.
fn none(cause: u32, reasons: impl IntoIterator<Item = Reason>) -> Result<(), Refusal> {
    let reasons: Vec<Reason> = reasons.into_iter().collect();
    match reasons.is_empty() {
        true => Ok(()),
        false => Err((cause, reasons)),
    }
}

/// Cause 1: the image is not sound, or has version 01, which is converted and not judged.
fn sound(image: &[u8], names: &Names) -> Result<Tables, Vec<Reason>> {
    let old = Layout::sized(image.len()) == Some(&VERSION_01);
    match (Tables::of(image, names), old) {
        (Ok(tables), false) => Ok(tables),
        (tables, old) => {
            let faults = tables.err().into_iter().flatten().map(Reason::Unsound);
            Err(old.then_some(Reason::Old).into_iter().chain(faults).collect())
        }
    }
}

/// Cause 3: each row that contradicts the record.
fn contradicting(record: &Record) -> Vec<Reason> {
    let rows = rows(record);
    let row = |part: Part| rows.iter().find(|(other, _)| *other == part).map(|(_, item)| *item);
    let found = contradictions(record).into_iter();
    let reason = |(part, clash)| Some(Reason::Row { item: row(part)?, matter: Matter::Clash(clash), part: Some(part) });
    found.filter_map(reason).collect()
}

/// Cause 4: a load of a package that is on the card.
fn loaded(tables: &Tables, record: &Record) -> Option<Reason> {
    let number = tables.number(record.aid)?;
    matches!(record.change, Change::Load(_)).then_some(Reason::Installed { package: record.aid, number })
}

/// Cause 5: another record of a package that is not.
fn absent(tables: &Tables, record: &Record) -> Option<Reason> {
    let absent = !matches!(record.change, Change::Load(_)) && tables.number(record.aid).is_none();
    absent.then(|| Reason::Absent { package: record.aid, installed: installed(tables) })
}

/// Cause 6: the contract has what is added, or lacks what is removed.
fn pointless(tables: &Tables, card: &Contracts, record: &Record) -> Option<Reason> {
    let (own, contract) = (record.aid, card.get(&record.aid)?);
    let row = |item, matter| Some(Reason::Row { item, matter, part: Some(Part::Row) });
    let service = |service, matter| Some(Reason::Row { item: Item::Service(own, service), matter, part: None });
    match &record.change {
        Change::AddService(tokens, _) => {
            service(*tokens, Matter::Provided(tables.service(tables.number(own)?, *tokens)?))
        }
        Change::RemoveService(tokens) if !contract.provides.contains(tokens) => service(*tokens, Matter::Lacking),
        Change::AddCall(call) if contract.calls.contains(call) => {
            let call = Ends::call(own, call);
            row(Item::Call(call), Matter::Called { met: met(card, &call) })
        }
        Change::RemoveCall(call) if !contract.calls.contains(call) => {
            row(Item::Call(Ends::call(own, call)), Matter::Lacking)
        }
        Change::AddGrant(grant) if contract.grants.contains(grant) => {
            let grant = Ends::grant(own, grant);
            row(Item::Grant(grant), Matter::Granted(waits(card, &grant)))
        }
        Change::RemoveGrant(grant) if !contract.grants.contains(grant) => {
            row(Item::Grant(Ends::grant(own, grant)), Matter::Lacking)
        }
        _ => None,
    }
}

/// Cause 7: a load finds every package number used, or an added service every service number of its package.
fn without_number(tables: &Tables, record: &Record) -> Option<Reason> {
    match &record.change {
        Change::Load(_) => {
            let (limit, installed) = (tables.layout.packages, installed(tables));
            (installed.len() >= limit).then_some(Reason::PackageNumbers { limit, installed })
        }
        Change::AddService(..) => {
            let (limit, package) = (tables.layout.services, tables.at(tables.number(record.aid)?)?);
            let services: Vec<_> = package.numbered().map(|(_, service)| service).collect();
            (services.len() >= limit).then_some(Reason::ServiceNumbers { limit, package: record.aid, services })
        }
        _ => None,
    }
}

/// The packages on the card, by number.
fn installed(tables: &Tables) -> Vec<Aid> {
    tables.installed().map(|(_, package)| package.aid).collect()
}

/// The contracts after the change of a record that is free of the causes 2 to 7. No other contract than its package's
/// changes.
pub fn changed(before: &Contracts, record: &Record) -> Contracts {
    let mut after = before.clone();
    let own = after.entry(record.aid).or_default();
    match &record.change {
        Change::Load(lists) | Change::Replace(lists) => *own = lists.contract(),
        Change::Remove => drop(after.remove(&record.aid)),
        Change::AddService(tokens, callers) => {
            own.provides.insert(*tokens);
            own.grants.extend(callers.iter().map(|caller| Row { other: *caller, tokens: *tokens }));
        }
        // Its grants stay, and wait.
        Change::RemoveService(tokens) => drop(own.provides.remove(tokens)),
        Change::AddCall(row) => drop(own.calls.insert(*row)),
        Change::RemoveCall(row) => drop((own.calls.remove(row), own.needs.remove(row))),
        Change::AddGrant(row) => drop(own.grants.insert(*row)),
        Change::RemoveGrant(row) => drop(own.grants.remove(row)),
    }
    after
}

/// What a record's change leaves, beside what was there.
struct Look<'a> {
    record: &'a Record,
    before: &'a Contracts,
    after: &'a Contracts,
}

impl Look<'_> {
    /// Cause 8: each met call that its provider does not grant to the caller.
    fn ungranted(&self) -> Vec<Reason> {
        let ungranted = calls(self.after).filter(|call| met(self.after, call) && !granted(self.after, call));
        in_order(ungranted.map(|call| {
            let (matter, from) = match (call.caller == self.record.aid, met(self.before, &call)) {
                (true, _) => (Matter::NotGranted, Item::Call(call)),
                (false, false) => (Matter::ServiceComes, Item::Service(call.callee, call.service)),
                (false, true) => (Matter::GrantGoes, Item::Grant(call)),
            };
            Reason::Row { item: Item::Call(call), matter, part: self.part(from) }
        }))
    }

    /// Cause 9: each need whose service is not provided.
    fn needs(&self) -> Vec<Reason> {
        let packages = self.after.iter();
        let needs = packages.flat_map(|(own, contract)| contract.needs.iter().map(|row| Ends::call(*own, row)));
        let unmet = needs.filter(|need| !met(self.after, need));
        in_order(unmet.map(|need| self.row(Item::Need(need), self.lack(&need))))
    }

    /// Cause 10: the count of unmet calls, and each that was not unmet before.
    fn unmet(&self, limit: usize) -> Vec<Reason> {
        let (before, after) = (unmet(self.before), unmet(self.after));
        let rows = after.difference(&before).map(|call| self.row(Item::Call(*call), self.lack(call)));
        past(limit, after.len(), in_order(rows), |count, new| Reason::UnmetCalls { count, limit, new })
    }

    /// Cause 11: the count of waiting grants, and each that did not wait before.
    fn waiting(&self, limit: usize) -> Vec<Reason> {
        let (before, after) = (waiting(self.before), waiting(self.after));
        let new = after.iter().filter(|(grant, _)| !before.contains_key(grant));
        let rows = new.map(|(grant, waits)| self.row(Item::Grant(*grant), Matter::Waits(*waits)));
        past(limit, after.len(), in_order(rows), |count, new| Reason::WaitingGrants { count, limit, new })
    }

    /// Why the service of a call or a need is not provided.
    fn lack(&self, call: &Ends) -> Matter {
        match (self.after.contains_key(&call.callee), met(self.before, call)) {
            (false, false) => Matter::NoPackage,
            (true, false) => Matter::NoService,
            (false, true) => Matter::PackageGoes,
            (true, true) => Matter::ServiceGoes,
        }
    }

    fn row(&self, item: Item, matter: Matter) -> Reason {
        Reason::Row { item, matter, part: self.part(item) }
    }

    /// The part of the record that is this row.
    fn part(&self, item: Item) -> Option<Part> {
        rows(self.record).into_iter().find(|(_, other)| *other == item).map(|(part, _)| part)
    }
}

/// With more than the limit, their count and the new ones.
fn past(limit: usize, count: usize, new: Vec<Reason>, counted: impl Fn(usize, usize) -> Reason) -> Vec<Reason> {
    match count > limit {
        true => [vec![counted(count, new.len())], new].concat(),
        false => Vec::new(),
    }
}

/// Rows of the record first, as they stand there; then the others, by package.
fn in_order(reasons: impl Iterator<Item = Reason>) -> Vec<Reason> {
    let mut reasons: Vec<Reason> = reasons.collect();
    reasons.sort_by_key(|reason| (reason.part().is_none(), reason.part()));
    reasons
}

/// Each row of a record, with its part.
fn rows(record: &Record) -> Vec<(Part, Item)> {
    let own = record.aid;
    let call = |row: &Row| Item::Call(Ends::call(own, row));
    let grant = |row: &Row| Item::Grant(Ends::grant(own, row));
    let need = |row: &Row| Item::Need(Ends::call(own, row));
    match &record.change {
        Change::Load(lists) | Change::Replace(lists) => {
            let provides = lists.provides.iter().map(|tokens| Item::Service(own, *tokens));
            let provides = (0..).map(Part::Provides).zip(provides);
            let calls = (0..).map(Part::Calls).zip(lists.calls.iter().map(call));
            let grants = (0..).map(Part::Grants).zip(lists.grants.iter().map(grant));
            let needs = (0..).map(Part::Needs).zip(lists.needs.iter().map(need));
            provides.chain(calls).chain(grants).chain(needs).collect()
        }
        Change::AddService(tokens, callers) => {
            let grants = callers.iter().map(|caller| grant(&Row { other: *caller, tokens: *tokens }));
            (0..).map(Part::Callers).zip(grants).collect()
        }
        Change::AddCall(row) | Change::RemoveCall(row) => vec![(Part::Row, call(row))],
        Change::AddGrant(row) | Change::RemoveGrant(row) => vec![(Part::Row, grant(row))],
        Change::Remove | Change::RemoveService(_) => Vec::new(),
    }
}

impl Ends {
    /// Those of a package's call or need.
    pub fn call(own: Aid, row: &Row) -> Ends {
        Ends { caller: own, callee: row.other, service: row.tokens }
    }

    /// Those of a package's grant.
    pub fn grant(own: Aid, row: &Row) -> Ends {
        Ends { caller: row.other, callee: own, service: row.tokens }
    }
}

/// Every call on the card.
fn calls(card: &Contracts) -> impl Iterator<Item = Ends> + '_ {
    card.iter().flat_map(|(own, contract)| contract.calls.iter().map(|row| Ends::call(*own, row)))
}

/// "A call is met when its service is provided on the card", and a need alike.
pub fn met(card: &Contracts, call: &Ends) -> bool {
    card.get(&call.callee).is_some_and(|provider| provider.provides.contains(&call.service))
}

/// Whether the provider of a call grants it to the caller.
fn granted(card: &Contracts, call: &Ends) -> bool {
    let row = Row { other: call.caller, tokens: call.service };
    card.get(&call.callee).is_some_and(|provider| provider.grants.contains(&row))
}

/// What a grant waits for: "it waits until caller and service are both on the card".
pub fn waits(card: &Contracts, grant: &Ends) -> Option<Waits> {
    match (card.contains_key(&grant.caller), met(card, grant)) {
        (true, true) => None,
        (false, true) => Some(Waits::Caller),
        (true, false) => Some(Waits::Service),
        (false, false) => Some(Waits::Both),
    }
}

/// The calls that are not met.
fn unmet(card: &Contracts) -> BTreeSet<Ends> {
    calls(card).filter(|call| !met(card, call)).collect()
}

/// The grants that wait, each with what it waits for.
fn waiting(card: &Contracts) -> BTreeMap<Ends, Waits> {
    let grants = card.iter().flat_map(|(own, contract)| contract.grants.iter().map(|row| Ends::grant(*own, row)));
    grants.filter_map(|grant| Some((grant, waits(card, &grant)?))).collect()
}
