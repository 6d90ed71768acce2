//! R-3, "Load conditions in the report's order": definition 7.1 of the report on full contracts, set by set as it is printed, and
//! the answers that R-3 has for it, so that loads can be held to them and counted.

use crate::machine::{Aid, Contract, Machine, Row, Tokens};
use std::collections::BTreeSet;
use std::fmt;

/// Which of the three conditions hold, in their order, for a new application B and all applications A on the platform.
#[derive(Clone, Copy, Debug, PartialEq, Eq, PartialOrd, Ord)]
pub struct Conditions {
    /// The newcomer's rights.
    pub rights: bool,
    /// Its needs.
    pub needs: bool,
    /// The rights of those already there.
    pub others: bool,
}

impl Conditions {
    pub const ALL: [Conditions; 8] = [
        Conditions::new(true, true, true),
        Conditions::new(false, true, true),
        Conditions::new(true, false, true),
        Conditions::new(true, true, false),
        Conditions::new(false, false, true),
        Conditions::new(false, true, false),
        Conditions::new(true, false, false),
        Conditions::new(false, false, false),
    ];

    pub const fn new(rights: bool, needs: bool, others: bool) -> Conditions {
        Conditions { rights, needs, others }
    }

    pub fn of(platform: &Machine, new: Aid, contract: &Contract) -> Conditions {
        Conditions {
            rights: newcomers_rights(platform, new, contract),
            needs: newcomers_needs(platform, contract),
            others: others_rights(platform, new, contract),
        }
    }

    pub fn all_hold(self) -> bool {
        self == Conditions::new(true, true, true)
    }

    /// The answers that a load can get: "8 comes exactly when the first or third fails, and 9 exactly when the second alone does".
    pub fn answers(self) -> &'static [u32] {
        match self {
            Conditions { rights: false, .. } | Conditions { others: false, .. } => &[8],
            Conditions { needs: false, .. } => &[9],
            _ => &[0, 10, 11],
        }
    }
}

/// A package's AID and contract.
pub type Package<'a> = (&'a Aid, &'a Contract);

/// 1. B ∈ secrules_A(Provides_A ∩ Calls_B).
pub fn newcomers_rights(platform: &Machine, new: Aid, contract: &Contract) -> bool {
    platform.contracts.iter().all(|a| allows(a, (&new, contract)))
}

/// 2. funcrules_B ⊆ ⋃_{A ∈ 𝒜} Provides_A. B is not in 𝒜, and its needs do not name it.
pub fn newcomers_needs(platform: &Machine, contract: &Contract) -> bool {
    let services = platform.contracts.iter().flat_map(|(a, provider)| {
        let own = |tokens: &Tokens| Row { other: *a, tokens: *tokens };
        provider.provides.iter().map(own)
    });
    contract.needs.is_subset(&services.collect())
}

/// 3. A ∈ secrules_B(Provides_B ∩ Calls_A). Calls_A has the calls too that nothing on the platform meets yet.
pub fn others_rights(platform: &Machine, new: Aid, contract: &Contract) -> bool {
    platform.contracts.iter().all(|a| allows((&new, contract), a))
}

/// C ∈ secrules_P(Provides_P ∩ Calls_C): the provider grants the caller each of these services. Of none, nothing is asked.
fn allows(provider: Package, caller: Package) -> bool {
    let [called, granted] = called_and_granted(provider, caller);
    called.is_subset(&granted)
}

/// The provider's services that the caller calls, and those that are granted to it: S1 and S2 of the report's steps.
pub fn called_and_granted(provider: Package, caller: Package) -> [BTreeSet<Tokens>; 2] {
    let named = |rows: &BTreeSet<Row>, other: Aid| -> BTreeSet<Tokens> {
        rows.iter().filter(|row| row.other == other).map(|row| row.tokens).collect()
    };
    let called = provider.1.provides.intersection(&named(&caller.1.calls, *provider.0)).copied().collect();
    [called, named(&provider.1.grants, *caller.0)]
}

/// A load that is free of causes 2 to 7, by the conditions that hold and its answer.
#[derive(Clone, Copy, Debug, PartialEq, Eq, PartialOrd, Ord)]
pub struct Outcome {
    pub conditions: Conditions,
    pub answer: u32,
}

impl Outcome {
    /// Every one that can be.
    pub fn all() -> impl Iterator<Item = Outcome> {
        let answered = |conditions: Conditions| {
            conditions.answers().iter().map(move |answer| Outcome { conditions, answer: *answer })
        };
        Conditions::ALL.into_iter().flat_map(answered)
    }
}

impl fmt::Display for Conditions {
    fn fmt(&self, f: &mut fmt::Formatter) -> fmt::Result {
        f.write_str(match (self.rights, self.needs, self.others) {
            (true, true, true) => "all hold",
            (false, true, true) => "the first fails",
            (true, false, true) => "the second fails",
            (true, true, false) => "the third fails",
            (false, false, true) => "the first and the second fail",
            (false, true, false) => "the first and the third fail",
            (true, false, false) => "the second and the third fail",
            (false, false, false) => "all fail",
        })
    }
}

impl fmt::Display for Outcome {
    fn fmt(&self, f: &mut fmt::Formatter) -> fmt::Result {
        write!(f, "{} as {}", self.answer, self.conditions)
    }
}
