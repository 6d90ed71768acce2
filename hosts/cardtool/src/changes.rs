//! What differs between the contracts of two cards, by AIDs and tokens and not by numbers.

use crate::contract::{Aid, Contract, Row, Tokens};
use crate::explain::{met, waits, Ends};
use crate::names::Names;
use crate::record_text::{calls, grants, needs, provides};
use crate::tables::Tables;
use std::collections::BTreeSet;

/// What differs in the contract of a package.
#[derive(Clone, Copy, Debug, PartialEq, Eq)]
pub struct Change {
    pub package: Aid,
    pub sign: Sign,
    pub row: Changed,
}

#[derive(Clone, Copy, Debug, PartialEq, Eq)]
pub enum Sign {
    Gone,
    Come,
    /// The row is in both contracts, and what others have makes it another: met, unmet, in force or waiting.
    Turned,
}

#[derive(Clone, Copy, Debug, PartialEq, Eq)]
pub enum Changed {
    /// The package itself.
    Package,
    Provides(Tokens),
    Calls(Row),
    Grants(Row),
    Needs(Row),
    Met(Row),
    Unmet(Row),
    InForce(Row),
    Waiting(Row),
}

/// Every change from one card to another, package by package, what goes before what comes.
pub fn between(before: &Tables, after: &Tables) -> Vec<Change> {
    let (old, new) = (before.contracts(), after.contracts());
    let packages: BTreeSet<Aid> = old.keys().chain(new.keys()).copied().collect();
    let mut found = Vec::new();
    for package in packages {
        let none = Contract::default();
        let (was, is) = (old.get(&package), new.get(&package));
        let mut say = |sign: Sign, row: Changed| found.push(Change { package, sign, row });
        match (was, is) {
            (Some(_), None) => say(Sign::Gone, Changed::Package),
            (None, Some(_)) => say(Sign::Come, Changed::Package),
            _ => {}
        }
        let (was, is) = (was.unwrap_or(&none), is.unwrap_or(&none));
        differences(&was.provides, &is.provides, Changed::Provides, &mut say);
        differences(&was.calls, &is.calls, Changed::Calls, &mut say);
        differences(&was.grants, &is.grants, Changed::Grants, &mut say);
        differences(&was.needs, &is.needs, Changed::Needs, &mut say);
        for call in was.calls.intersection(&is.calls) {
            let met = [&old, &new].map(|card| met(card, &Ends::call(package, call)));
            match met.into() {
                (true, false) => say(Sign::Turned, Changed::Unmet(*call)),
                (false, true) => say(Sign::Turned, Changed::Met(*call)),
                _ => {}
            }
        }
        for grant in was.grants.intersection(&is.grants) {
            let in_force = [&old, &new].map(|card| waits(card, &Ends::grant(package, grant)).is_none());
            match in_force.into() {
                (true, false) => say(Sign::Turned, Changed::Waiting(*grant)),
                (false, true) => say(Sign::Turned, Changed::InForce(*grant)),
                _ => {}
            }
        }
    }
    found
}

fn differences<T: Copy + Ord>(
    was: &BTreeSet<T>,
    is: &BTreeSet<T>,
    row: fn(T) -> Changed,
    say: &mut impl FnMut(Sign, Changed),
) {
    was.difference(is).for_each(|item| say(Sign::Gone, row(*item)));
    is.difference(was).for_each(|item| say(Sign::Come, row(*item)));
}

impl Change {
    /// Whether a contract has changed, and not only what others have.
    pub fn differs(&self) -> bool {
        self.sign != Sign::Turned
    }

    /// What sort of change it is, in a word.
    pub fn sort(&self) -> &'static str {
        match self.sign {
            Sign::Gone => "gone",
            Sign::Come => "come",
            Sign::Turned => "turned",
        }
    }

    /// The row, as texts have it, and what has become of it.
    pub fn row_words(&self, names: &Names) -> String {
        match &self.row {
            Changed::Package => "package".to_string(),
            Changed::Provides(tokens) => provides(self.package, *tokens, names),
            Changed::Calls(row) => calls(row, names),
            Changed::Grants(row) => grants(self.package, row, names),
            Changed::Needs(row) => needs(row, names),
            Changed::Met(row) => format!("{} is met now", calls(row, names)),
            Changed::Unmet(row) => format!("{} is unmet now", calls(row, names)),
            Changed::InForce(row) => format!("{} is in force now", grants(self.package, row, names)),
            Changed::Waiting(row) => format!("{} waits now", grants(self.package, row, names)),
        }
    }
}

/// A line for each package that has changed, then one for each of its rows that has: '-' gone, '+' come, '~' turned.
pub fn text(changes: &[Change], names: &Names) -> String {
    let mut text = String::new();
    for group in changes.chunk_by(|one, other| one.package == other.package) {
        let whole = group.iter().find(|change| change.row == Changed::Package);
        let sign = whole.map_or(' ', |change| sign(change.sign));
        text.push_str(&format!("{sign} package {}\n", names.word(group[0].package)));
        for change in group.iter().filter(|change| change.row != Changed::Package) {
            text.push_str(&format!("{}     {}\n", self::sign(change.sign), change.row_words(names)));
        }
    }
    text
}

fn sign(sign: Sign) -> char {
    match sign {
        Sign::Gone => '-',
        Sign::Come => '+',
        Sign::Turned => '~',
    }
}
