//! What R-2 brings about, "Grants given before the service exists", so that it can be counted in histories.

use crate::machine::{Change, Contract, Machine, Record};
use std::fmt;

/// Something that an accepted record does. A grant is early while its package does not provide its service.
#[derive(Clone, Copy, Debug, PartialEq, Eq, PartialOrd, Ord)]
pub enum Early {
    /// A load has an early grant.
    Loaded,
    /// A load turns a grant to it into a bit, and an early one goes on waiting.
    Parted,
    /// Kind 3 takes once a grant that it lists and that waits, to a package that is installed, or is not.
    DoubledHere,
    DoubledAbsent,
    /// Kind 3 turns a waiting grant into a bit that it does not list; or leaves one in its place.
    Settled,
    Left,
    /// Kind 3 meets a call, the grant of which it does not list: it waited.
    Met,
    /// Kind 4 keeps a grant that was a bit; or one that waited already.
    Kept,
    KeptWaiting,
    /// Kind 7 adds an early grant, and kind 8 removes one.
    Added,
    Removed,
}

impl Early {
    pub const ALL: [Early; 11] = [
        Early::Loaded,
        Early::Parted,
        Early::DoubledHere,
        Early::DoubledAbsent,
        Early::Settled,
        Early::Left,
        Early::Met,
        Early::Kept,
        Early::KeptWaiting,
        Early::Added,
        Early::Removed,
    ];

    /// What a record does that the contracts held accept.
    pub fn of<'a>(held: &'a Machine, record: &'a Record) -> impl Iterator<Item = Early> + 'a {
        Early::ALL.into_iter().filter(|early| early.is_done(held, record))
    }

    fn is_done(self, held: &Machine, record: &Record) -> bool {
        let none = Contract::default();
        let own = held.contracts.get(&record.aid).unwrap_or(&none);
        let mut grants = own.grants.iter();
        match (self, &record.change) {
            (Early::Loaded, Change::Load(lists)) => {
                lists.grants.iter().any(|grant| !lists.provides.contains(&grant.tokens))
            }
            (Early::Parted, Change::Load(_)) => {
                let to_it = |early: bool| {
                    let mut waiting = held.waiting().filter(|(_, grant)| grant.other == record.aid);
                    waiting.any(|(callee, grant)| held.contracts[callee].provides.contains(&grant.tokens) != early)
                };
                to_it(true) && to_it(false)
            }
            (_, Change::AddService(tokens, callers)) => {
                let wanted = match self {
                    Early::DoubledHere => (true, true),
                    Early::DoubledAbsent => (true, false),
                    Early::Settled | Early::Met => (false, true),
                    Early::Left => (false, false),
                    _ => return false,
                };
                grants.any(|grant| {
                    let caller = held.contracts.get(&grant.other);
                    let calls = |caller: &Contract| {
                        caller.calls.iter().any(|call| call.other == record.aid && call.tokens == *tokens)
                    };
                    grant.tokens == *tokens
                        && (callers.contains(&grant.other), caller.is_some()) == wanted
                        && (self != Early::Met || caller.is_some_and(calls))
                })
            }
            (Early::Kept | Early::KeptWaiting, Change::RemoveService(tokens)) => {
                let waits = self == Early::KeptWaiting;
                grants.any(|grant| grant.tokens == *tokens && held.waits(own, grant) == waits)
            }
            (Early::Added, Change::AddGrant(row)) | (Early::Removed, Change::RemoveGrant(row)) => {
                !own.provides.contains(&row.tokens)
            }
            _ => false,
        }
    }
}

impl fmt::Display for Early {
    fn fmt(&self, f: &mut fmt::Formatter) -> fmt::Result {
        f.write_str(match self {
            Early::Loaded => "loaded",
            Early::Parted => "settled and left by a load",
            Early::DoubledHere => "doubled to packages here",
            Early::DoubledAbsent => "doubled to others",
            Early::Settled => "settled by kind 3",
            Early::Left => "left by it",
            Early::Met => "meeting a call",
            Early::Kept => "kept by kind 4",
            Early::KeptWaiting => "kept waiting",
            Early::Added => "added",
            Early::Removed => "removed",
        })
    }
}
