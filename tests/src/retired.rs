//! What R-13 leaves, "Needs only with the contract", so that it can be counted in histories: needs that kind 9 set, on cards
//! that go over the change, and the two kinds that are retired.

use crate::machine::record::{self, Change};
use crate::machine::{Aid, Machine, Row};
use crate::rules::Rules;
use std::collections::BTreeSet;
use std::fmt;

/// Something that a record shows after R-13's change. A need is an old one when kind 9 set it, and no whole contract since.
#[derive(Clone, Copy, Debug, PartialEq, Eq, PartialOrd, Ord)]
pub enum Retired {
    /// Old needs alone have a package stay, a service, or one that a whole contract would drop.
    KeepsPackage,
    KeepsService,
    KeepsContract,
    /// An old need is read out.
    ReadOut,
    /// It goes with its call.
    GoesWithCall,
    /// It goes with the next whole contract, or is in it.
    GoesWithContract,
    StaysInContract,
    /// It goes with its package.
    GoesWithPackage,
    /// Kind 9 or 10 gets 2, and was accepted before.
    Adds,
    Removes,
}

impl Retired {
    pub const ALL: [Retired; 10] = [
        Retired::KeepsPackage,
        Retired::KeepsService,
        Retired::KeepsContract,
        Retired::ReadOut,
        Retired::GoesWithCall,
        Retired::GoesWithContract,
        Retired::StaysInContract,
        Retired::GoesWithPackage,
        Retired::Adds,
        Retired::Removes,
    ];
}

/// The needs on a card that kind 9 set, each after its package.
#[derive(Clone, Default)]
pub struct OldNeeds(BTreeSet<(Aid, Row)>);

impl OldNeeds {
    /// An accepted record by the rules leaves these contracts: kind 9 brings a need, and what a whole contract has is its own.
    pub fn follow(&mut self, rules: Rules, bytes: &[u8], after: &Machine) {
        let Some(record) = record::read(rules, bytes) else { return };
        match record.change {
            Change::AddNeed(row) => drop(self.0.insert((record.aid, row))),
            Change::Replace(_) => self.0.retain(|(own, _)| *own != record.aid),
            _ => {}
        }
        self.0.retain(|(own, need)| after.contracts.get(own).is_some_and(|contract| contract.needs.contains(need)));
    }

    /// What a record and its answer show, by the contracts held and these needs of theirs, when every contract was read out.
    pub fn show(&self, rules: Rules, held: &Machine, bytes: &[u8], answer: u32) -> Vec<Retired> {
        let mut shown = Vec::new();
        if !self.0.is_empty() {
            shown.push(Retired::ReadOut);
        }
        let before = || held.clone().judge(Rules::R_1.on(rules.sizes), bytes);
        match (record::read(rules, bytes), answer, bytes.get(3)) {
            (None, 2, Some(9)) if before() == 0 => shown.push(Retired::Adds),
            (None, 2, Some(10)) if before() == 0 => shown.push(Retired::Removes),
            (Some(record), 9, _) if self.lifted(held).judge(rules, bytes) != 9 => shown.push(match record.change {
                Change::Remove => Retired::KeepsPackage,
                Change::RemoveService(_) => Retired::KeepsService,
                _ => Retired::KeepsContract,
            }),
            (Some(record), 0, _) => {
                let own = self.0.iter().filter(|(own, _)| *own == record.aid).map(|(_, need)| need);
                shown.extend(own.filter_map(|need| match &record.change {
                    Change::Remove => Some(Retired::GoesWithPackage),
                    Change::RemoveCall(call) if call == need => Some(Retired::GoesWithCall),
                    Change::Replace(lists) if lists.needs.contains(need) => Some(Retired::StaysInContract),
                    Change::Replace(_) => Some(Retired::GoesWithContract),
                    _ => None,
                }));
            }
            _ => {}
        }
        shown
    }

    /// The contracts without these needs.
    fn lifted(&self, held: &Machine) -> Machine {
        let mut without = held.clone();
        for (own, need) in &self.0 {
            without.contracts.get_mut(own).map(|contract| contract.needs.remove(need));
        }
        without
    }
}

impl fmt::Display for Retired {
    fn fmt(&self, f: &mut fmt::Formatter) -> fmt::Result {
        f.write_str(match self {
            Retired::KeepsPackage => "has a package stay",
            Retired::KeepsService => "a service",
            Retired::KeepsContract => "a contract",
            Retired::ReadOut => "read out",
            Retired::GoesWithCall => "goes with its call",
            Retired::GoesWithContract => "with the next contract",
            Retired::StaysInContract => "stays in it",
            Retired::GoesWithPackage => "goes with its package",
            Retired::Adds => "kind 9 retired",
            Retired::Removes => "kind 10 retired",
        })
    }
}
