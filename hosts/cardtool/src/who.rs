//! Who gets at a service: by a grant, by a call, and by a chain of calls through others.

use crate::contract::{Aid, Row, Tokens};
use crate::explain::{waits, Ends, Waits};
use crate::names::Names;
use crate::reach;
use crate::tables::Tables;
use std::collections::BTreeSet;

/// What the contracts on a card say of a service.
pub struct Access {
    pub package: Aid,
    pub tokens: Tokens,
    /// The package's number, where it is on the card.
    pub installed: Option<usize>,
    /// The service's number, where the package provides it.
    pub number: Option<usize>,
    pub granted: Vec<Grant>,
    pub calls: Vec<Call>,
    /// For each package that reaches the service, a shortest chain of met calls to it.
    pub chains: Vec<Vec<Step>>,
}

pub struct Grant {
    pub caller: Aid,
    /// What the grant waits for, if it does.
    pub waits_for: Option<&'static str>,
}

pub struct Call {
    pub caller: Aid,
    pub needed: bool,
}

/// A met call.
pub struct Step {
    pub caller: Aid,
    pub callee: Aid,
    pub tokens: Tokens,
}

/// The services of a package that it provides or grants, or that others call.
pub fn services(tables: &Tables, package: Aid) -> Vec<Tokens> {
    let contracts = tables.contracts();
    let own = contracts.get(&package).into_iter();
    let own = own.flat_map(|own| own.provides.iter().copied().chain(own.grants.iter().map(|grant| grant.tokens)));
    let called = contracts.values().flat_map(|contract| &contract.calls);
    let called = called.filter(|call| call.other == package).map(|call| call.tokens);
    own.chain(called).collect::<BTreeSet<_>>().into_iter().collect()
}

/// Who gets at a service.
pub fn access(tables: &Tables, package: Aid, tokens: Tokens) -> Access {
    let contracts = tables.contracts();
    let installed = tables.number(package);
    let number = installed.and_then(|package| tables.service(package, tokens));
    let row = Row { other: package, tokens };
    let own = contracts.get(&package).into_iter().flat_map(|own| &own.grants);
    let granted = own.filter(|grant| grant.tokens == tokens).map(|grant| {
        let waits_for = waits(&contracts, &Ends::grant(package, grant)).map(|waits| match waits {
            Waits::Caller => "the package",
            Waits::Service => "the service",
            Waits::Both => "the package and the service",
        });
        Grant { caller: grant.other, waits_for }
    });
    let callers = contracts.iter().filter(|(_, contract)| contract.calls.contains(&row));
    let calls = callers.map(|(aid, contract)| Call { caller: *aid, needed: contract.needs.contains(&row) });
    let chains = installed.zip(number).map(|(package, number)| reach::chains(tables, package, number));
    let step = |bit: &crate::tables::Bit| {
        let Row { other, tokens } = tables.callee_row(bit)?;
        Some(Step { caller: tables.at(bit.caller)?.aid, callee: other, tokens })
    };
    let chains = chains.into_iter().flatten().map(|chain| chain.iter().filter_map(step).collect());
    Access {
        package,
        tokens,
        installed,
        number,
        granted: granted.collect(),
        calls: calls.collect(),
        chains: chains.collect(),
    }
}

impl Access {
    /// A line for each grant, call and chain.
    pub fn text(&self, names: &Names) -> String {
        let own = names.word(self.package);
        let service = format!("{own} {}", names.service_word(self.package, self.tokens));
        let mut lines = vec![match (self.installed, self.number) {
            (Some(package), Some(number)) => format!("{service} is service {number} of package {package}"),
            (Some(package), None) => format!("{service} is not provided by package {package}"),
            (None, _) => format!("{service} is not on the card: {own} is not installed"),
        }];
        lines.extend(self.granted.iter().map(|grant| match grant.waits_for {
            None => format!("    granted to {}", names.word(grant.caller)),
            Some(what) => format!("    granted to {}, waiting for {what}", names.word(grant.caller)),
        }));
        if self.granted.is_empty() {
            lines.push("    granted to nobody".to_string());
        }
        lines.extend(self.calls.iter().map(|call| {
            let met = if self.number.is_some() { "" } else { ", unmet" };
            let needed = if call.needed { ", and needed" } else { "" };
            format!("    called by {}{met}{needed}", names.word(call.caller))
        }));
        if self.calls.is_empty() {
            lines.push("    called by nobody".to_string());
        }
        let through: Vec<&Vec<Step>> = self.chains.iter().filter(|chain| chain.len() > 1).collect();
        lines.extend(through.iter().map(|chain| {
            let first = names.word(chain[0].caller);
            let steps = chain.iter().map(|step| {
                format!(
                    "{} calls {} {}",
                    names.word(step.caller),
                    names.word(step.callee),
                    names.service_word(step.callee, step.tokens)
                )
            });
            format!("    reached by {first} through others: {}", steps.collect::<Vec<_>>().join(", "))
        }));
        if through.is_empty() {
            lines.push("    reached through others by nobody".to_string());
        }
        lines.join("\n") + "\n"
    }
}
