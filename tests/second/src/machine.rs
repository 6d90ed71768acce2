//! The plain machine: fed the records' bytes, it holds contracts in full AIDs and tokens and gives
//! the answers 0 and 2 to 11. It shares no code with `bytes`.

pub mod contract;
pub mod record;

pub use contract::{Aid, Contract, Row, Tokens};
pub use record::{Change, Record};

use crate::rules::Rules;
use std::collections::BTreeMap;

/// The contracts held, each under its AID; at first none.
#[derive(Clone, Debug, Default, PartialEq, Eq)]
pub struct Machine {
    pub contracts: BTreeMap<Aid, Contract>,
}

impl Machine {
    /// Judges a record by the rules of its time and keeps its change if it is accepted. The answer is the
    /// first cause that applies, or 0.
    pub fn judge(&mut self, rules: Rules, bytes: &[u8]) -> u32 {
        let record = match self.to_try(rules, bytes) {
            Ok(record) => record,
            Err(cause) => return cause,
        };
        let after = self.changed(rules, &record);
        if let Some(cause) = after.cause_after(rules) {
            return cause;
        }
        *self = after;
        0
    }

    /// The record whose change is tried, or the first that applies of causes 2 to 7.
    pub fn to_try(&self, rules: Rules, bytes: &[u8]) -> Result<Record, u32> {
        let record = record::read(rules, bytes).ok_or(2u32)?;
        if record::contradicts(rules, &record) {
            return Err(3);
        }
        match self.cause_before(rules, &record) {
            Some(cause) => Err(cause),
            None => Ok(record),
        }
    }

    /// Causes 4 to 7: the record against the contracts held.
    fn cause_before(&self, rules: Rules, record: &Record) -> Option<u32> {
        let held = self.contracts.get(&record.aid);
        if let Change::Load(_) = record.change {
            return match held {
                Some(_) => Some(4),
                None if self.contracts.len() == rules.sizes.packages => Some(7),
                None => None,
            };
        }
        let Some(contract) = held else { return Some(5) };
        let pointless = match &record.change {
            Change::Load(_) | Change::Replace(_) | Change::Remove => false,
            Change::AddService(tokens, _) => contract.provides.contains(tokens),
            Change::RemoveService(tokens) => !contract.provides.contains(tokens),
            Change::AddCall(row) => contract.calls.contains(row),
            Change::RemoveCall(row) => !contract.calls.contains(row),
            Change::AddGrant(row) => {
                let too_early = !rules.early_grants && !contract.provides.contains(&row.tokens);
                contract.grants.contains(row) || too_early
            }
            Change::RemoveGrant(row) => !contract.grants.contains(row),
            Change::AddNeed(row) => contract.needs.contains(row) || !contract.calls.contains(row),
            Change::RemoveNeed(row) => !contract.needs.contains(row),
        };
        let full = matches!(record.change, Change::AddService(..)) && contract.provides.len() == rules.sizes.services;
        match (pointless, full) {
            (true, _) => Some(6),
            (false, true) => Some(7),
            (false, false) => None,
        }
    }

    /// The contracts after the record's change. No other contract than the named one changes.
    pub fn changed(&self, rules: Rules, record: &Record) -> Machine {
        let mut after = self.clone();
        match &record.change {
            Change::Load(lists) | Change::Replace(lists) => {
                after.contracts.insert(record.aid, lists.contract());
            }
            Change::Remove => {
                after.contracts.remove(&record.aid);
            }
            update => {
                if let Some(contract) = after.contracts.get_mut(&record.aid) {
                    change_contract(rules, contract, update);
                }
            }
        }
        after
    }

    /// Causes 8 to 11: the contracts as they would be.
    fn cause_after(&self, rules: Rules) -> Option<u32> {
        if !self.met_calls_granted() {
            Some(8)
        } else if !self.needs_met() {
            Some(9)
        } else if self.unmet().count() > rules.sizes.listed {
            Some(10)
        } else if self.waiting().count() > rules.sizes.listed {
            Some(11)
        } else {
            None
        }
    }

    /// "The card is lawful when every met call is granted by the provider to the caller, and every need is met."
    pub fn lawful(&self) -> bool {
        self.met_calls_granted() && self.needs_met()
    }

    fn met_calls_granted(&self) -> bool {
        self.calls().all(|(caller, call)| !self.met(call) || self.granted(*caller, call))
    }

    fn needs_met(&self) -> bool {
        self.contracts.values().flat_map(|contract| &contract.needs).all(|need| self.met(need))
    }

    /// Every call on the card, after its caller.
    pub fn calls(&self) -> impl Iterator<Item = (&Aid, &Row)> {
        self.contracts.iter().flat_map(|(aid, contract)| contract.calls.iter().map(move |call| (aid, call)))
    }

    /// Whether the service that this row of calls or needs names is provided on the card.
    pub fn met(&self, call: &Row) -> bool {
        self.contracts.get(&call.other).is_some_and(|provider| provider.provides.contains(&call.tokens))
    }

    /// Whether the provider of this call grants it to the caller.
    pub fn granted(&self, caller: Aid, call: &Row) -> bool {
        self.contracts.get(&call.other).is_some_and(|provider| provider.grants_to(caller, call.tokens))
    }

    /// The calls whose service is not provided on the card, each after its caller.
    pub fn unmet(&self) -> impl Iterator<Item = (&Aid, &Row)> {
        self.calls().filter(|(_, call)| !self.met(call))
    }

    /// Whether every token held is one that these rules have. A card that holds another is not sound by them.
    pub fn keeps_to(&self, rules: Rules) -> bool {
        let mut held = self.contracts.values().flat_map(Contract::tokens);
        held.all(|tokens| tokens.method <= rules.most_method)
    }

    /// Whether a grant of this contract waits: "until caller and service are both on the card".
    pub fn waits(&self, contract: &Contract, grant: &Row) -> bool {
        !(self.contracts.contains_key(&grant.other) && contract.provides.contains(&grant.tokens))
    }

    /// The grants that wait, each after its package.
    pub fn waiting(&self) -> impl Iterator<Item = (&Aid, &Row)> {
        self.contracts.iter().flat_map(|(aid, contract)| {
            let waiting = contract.grants.iter().filter(|grant| self.waits(contract, grant));
            waiting.map(move |grant| (aid, grant))
        })
    }
}

/// Kinds 3 to 10 on the contract that they name.
fn change_contract(rules: Rules, contract: &mut Contract, change: &Change) {
    match change {
        Change::Load(_) | Change::Replace(_) | Change::Remove => {}
        Change::AddService(tokens, callers) => {
            contract.provides.insert(*tokens);
            for caller in callers {
                contract.grants.insert(Row { other: *caller, tokens: *tokens });
            }
        }
        Change::RemoveService(tokens) => {
            contract.provides.remove(tokens);
            contract.grants.retain(|grant| rules.early_grants || grant.tokens != *tokens);
        }
        Change::AddCall(row) => {
            contract.calls.insert(*row);
        }
        Change::RemoveCall(row) => {
            contract.calls.remove(row);
            contract.needs.remove(row);
        }
        Change::AddGrant(row) => {
            contract.grants.insert(*row);
        }
        Change::RemoveGrant(row) => {
            contract.grants.remove(row);
        }
        Change::AddNeed(row) => {
            contract.needs.insert(*row);
        }
        Change::RemoveNeed(row) => {
            contract.needs.remove(row);
        }
    }
}
