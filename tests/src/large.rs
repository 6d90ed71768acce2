//! What R-9 has, "A card with sixteen packages", so that it can be counted in records on the large card.

use crate::machine::record::{self, Change};
use crate::machine::Machine;
use crate::rules::{Rules, Sizes};
use crate::tables::{Bit, Tables};
use std::fmt;

/// Something that a record shows on the large card.
#[derive(Clone, Copy, Debug, PartialEq, Eq, PartialOrd, Ord)]
pub enum Large {
    /// So many unmet calls afterwards, and so many waiting grants.
    Unmet(usize),
    Waiting(usize),
    /// On a full list kind 5 gets 10, and kind 7 gets 11.
    PastUnmet,
    PastWaiting,
    /// A whole contract has so many rows in a list, and is read.
    Rows(List, usize),
    /// It has a row more than it may have, or a service, which is all that is wrong.
    PastRows(List),
    PastServices,
    /// A bit whose packages and service all have numbers past the small card's, in each part that has bits.
    High(Part),
    /// It is accepted on a card that was enlarged with contracts on it.
    GoneOn,
}

/// The lists of records whose counts have two bytes.
#[derive(Clone, Copy, Debug, PartialEq, Eq, PartialOrd, Ord)]
pub enum List {
    Calls,
    Grants,
    Needs,
}

#[derive(Clone, Copy, Debug, PartialEq, Eq, PartialOrd, Ord)]
pub enum Part {
    Used,
    Provides,
    Calls,
    Grants,
    Needs,
}

/// One service and one row more than records of the large card may have.
const MORE: Sizes = Sizes { services: Sizes::LARGE.services + 1, rows: Sizes::LARGE.rows + 1, ..Sizes::LARGE };

impl Large {
    /// The counts around the limits of both cards' lists.
    const LISTED: [usize; 4] =
        [Sizes::SMALL.listed - 1, Sizes::SMALL.listed, Sizes::LARGE.listed - 1, Sizes::LARGE.listed];
    /// The counts at which a byte ends, and the last.
    const COUNTS: [usize; 3] = [255, 256, Sizes::LARGE.rows];

    /// Every one that can be.
    pub fn all() -> impl Iterator<Item = Large> {
        let lists = [List::Calls, List::Grants, List::Needs];
        let parts = [Part::Used, Part::Provides, Part::Calls, Part::Grants, Part::Needs];
        let rows = lists.into_iter().flat_map(|list| Large::COUNTS.map(|count| Large::Rows(list, count)));
        let listed = Large::LISTED.map(Large::Unmet).into_iter().chain(Large::LISTED.map(Large::Waiting));
        let past = [Large::PastUnmet, Large::PastWaiting, Large::PastServices, Large::GoneOn];
        let past = past.into_iter().chain(lists.map(Large::PastRows));
        listed.chain(rows).chain(past).chain(parts.map(Large::High))
    }

    /// What a record and its answer show, by the contracts that it found and the tables that it left.
    pub fn of(rules: Rules, held: &Machine, bytes: &[u8], answer: u32, left: &Tables) -> Vec<Large> {
        let mut shown = Large::of_record(rules, bytes);
        shown.extend(Large::of_tables(left));
        let full = |rows: usize| rows == Sizes::LARGE.listed;
        match (bytes.get(3), answer) {
            (Some(5), 10) if full(held.unmet().count()) => shown.push(Large::PastUnmet),
            (Some(7), 11) if full(held.waiting().count()) => shown.push(Large::PastWaiting),
            _ => {}
        }
        shown
    }

    fn of_record(rules: Rules, bytes: &[u8]) -> Vec<Large> {
        let Some(record) = record::read(rules.on(&MORE), bytes) else { return Vec::new() };
        let (Change::Load(lists) | Change::Replace(lists)) = &record.change else { return Vec::new() };
        let counts =
            [(List::Calls, lists.calls.len()), (List::Grants, lists.grants.len()), (List::Needs, lists.needs.len())];
        let past = counts.iter().filter(|(_, rows)| *rows == MORE.rows).map(|(list, _)| Large::PastRows(*list));
        let services = (lists.provides.len() == MORE.services).then_some(Large::PastServices);
        let past: Vec<Large> = past.chain(services).collect();
        let read = counts.into_iter().filter(|(_, rows)| Large::COUNTS.contains(rows));
        match past.len() {
            0 => read.map(|(list, rows)| Large::Rows(list, rows)).collect(),
            1 => past,
            _ => Vec::new(),
        }
    }

    fn of_tables(tables: &Tables) -> impl Iterator<Item = Large> + '_ {
        let high = |number: usize| number >= Sizes::SMALL.packages;
        let high_bit = move |bit: &Bit| high(bit.caller) && high(bit.callee) && bit.service >= Sizes::SMALL.services;
        let packages = || tables.packages.iter().skip(Sizes::SMALL.packages).flatten();
        let mut provided = packages().flat_map(|package| package.services.iter().skip(Sizes::SMALL.services));
        let parts = [
            (Part::Used, packages().next().is_some()),
            (Part::Provides, provided.any(Option::is_some)),
            (Part::Calls, tables.calls.iter().any(high_bit)),
            (Part::Grants, tables.grants.iter().any(high_bit)),
            (Part::Needs, tables.needs.iter().any(high_bit)),
        ];
        let listed = [Large::Unmet(tables.unmet.len()), Large::Waiting(tables.waiting.len())];
        let at_limits = |shown: &Large| match shown {
            Large::Unmet(rows) | Large::Waiting(rows) => Large::LISTED.contains(rows),
            _ => false,
        };
        let set = parts.into_iter().filter(|(_, set)| *set).map(|(part, _)| Large::High(part));
        listed.into_iter().filter(at_limits).chain(set)
    }
}

impl fmt::Display for List {
    fn fmt(&self, f: &mut fmt::Formatter) -> fmt::Result {
        f.write_str(match self {
            List::Calls => "calls",
            List::Grants => "grants",
            List::Needs => "needs",
        })
    }
}

impl fmt::Display for Part {
    fn fmt(&self, f: &mut fmt::Formatter) -> fmt::Result {
        f.write_str(match self {
            Part::Used => "used",
            Part::Provides => "provides",
            Part::Calls => "calls",
            Part::Grants => "grants",
            Part::Needs => "needs",
        })
    }
}

impl fmt::Display for Large {
    fn fmt(&self, f: &mut fmt::Formatter) -> fmt::Result {
        match self {
            Large::Unmet(rows) => write!(f, "{rows} unmet calls"),
            Large::Waiting(rows) => write!(f, "{rows} waiting grants"),
            Large::PastUnmet => write!(f, "an unmet call too many"),
            Large::PastWaiting => write!(f, "a waiting grant too many"),
            Large::Rows(list, rows) => write!(f, "records with {rows} {list}"),
            Large::PastRows(list) => write!(f, "with {} {list}", MORE.rows),
            Large::PastServices => write!(f, "with {} services", MORE.services),
            Large::High(part) => write!(f, "high bits of {part}"),
            Large::GoneOn => write!(f, "accepted on an enlarged card"),
        }
    }
}
