//! Records that fit the contracts held: most are accepted, or fail on one of the causes 7 to 11.

use super::{pair, Drive, Source};
use crate::machine::{Aid, Contract, Machine, Row, Tokens};
use crate::rules::Rules;
use crate::write;

impl Source {
    /// `None` when the contracts held leave nothing that fits.
    pub(super) fn fit(&mut self, kind: u8, held: &Machine) -> Option<Vec<u8>> {
        // Of one package what it has comes again too, which random names seldom hit.
        let again = self.own.is_some() && self.random.percent(10);
        match kind {
            5 if again => self.fit_old_row(5, held, |contract| contract.calls.iter().collect()),
            7 if again => self.fit_old_row(7, held, |contract| contract.grants.iter().collect()),
            1 => {
                let absent = self.not_installed(held);
                let own = *self.random.pick(&absent)?;
                Some(self.fit_contract(1, own, &Contract::default(), held))
            }
            2 => Some(self.write().remove(self.installed(held, |_| true)?.0.bytes())),
            3 => self.fit_new_service(held),
            4 => {
                let (own, contract) = self.installed(held, |contract| !contract.provides.is_empty())?;
                let services: Vec<Tokens> = contract.provides.iter().copied().collect();
                Some(self.write().remove_service(own.bytes(), pair(*self.random.pick(&services)?)))
            }
            5 => self.fit_new_call(held),
            6 => self.fit_old_row(6, held, |contract| contract.calls.iter().collect()),
            7 => self.fit_new_grant(held),
            8 => self.fit_old_row(8, held, |contract| contract.grants.iter().collect()),
            9 => {
                let met = self.random.percent(80);
                self.fit_old_row(9, held, |contract| {
                    contract.calls.difference(&contract.needs).filter(|call| held.met(call) == met).collect()
                })
            }
            10 => self.fit_old_row(10, held, |contract| contract.needs.iter().collect()),
            11 => {
                let (own, contract) = self.installed(held, |_| true)?;
                Some(self.fit_contract(11, own, contract, held))
            }
            _ => None,
        }
    }

    /// Takes a token off the card that the rules in force exclude: the calls first, and a service when nobody calls it.
    /// `None` when the card holds no such token.
    pub fn clearing(&mut self, held: &Machine) -> Option<Vec<u8>> {
        let excluded = |tokens: &Tokens| tokens.method > Rules::IN_FORCE.most_method;
        let call = held.calls().find(|(_, call)| excluded(&call.tokens));
        let called = call.map(|(own, call)| self.write().update(6, own.bytes(), call.other.bytes(), pair(call.tokens)));
        let provided = || {
            let mut services = held
                .contracts
                .iter()
                .flat_map(|(own, contract)| contract.provides.iter().map(move |tokens| (own, tokens)));
            services.find(|(_, tokens)| excluded(tokens))
        };
        called.or_else(|| provided().map(|(own, tokens)| self.write().remove_service(own.bytes(), pair(*tokens))))
    }

    /// A package that is installed and suits.
    fn installed<'m>(&mut self, held: &'m Machine, suits: impl Fn(&Contract) -> bool) -> Option<(Aid, &'m Contract)> {
        let may_be = |(aid, contract): &(&Aid, &Contract)| self.may_be_of(aid) && suits(contract);
        let suiting: Vec<_> = held.contracts.iter().filter(may_be).collect();
        self.random.pick(&suiting).map(|(aid, contract)| (**aid, *contract))
    }

    /// Kinds 5 to 10 on one of some rows that a contract has.
    fn fit_old_row(&mut self, kind: u8, held: &Machine, rows: impl Fn(&Contract) -> Vec<&Row>) -> Option<Vec<u8>> {
        let (own, contract) = self.installed(held, |contract| !rows(contract).is_empty())?;
        let rows = rows(contract);
        let row = self.random.pick(&rows)?;
        Some(self.write().update(kind, own.bytes(), row.other.bytes(), pair(row.tokens)))
    }

    /// A whole contract of the package, in place of the one it has; that of a package to load has nothing. Seldom it looks
    /// neither at grants nor at needs, so that it fails on several.
    fn fit_contract(&mut self, kind: u8, own: Aid, old: &Contract, held: &Machine) -> Vec<u8> {
        let [ungranted, unmet_needs, grants_met] = if self.random.percent(5) { [15, 30, 50] } else { [1, 2, 97] };
        let services = self.fit_services(own, old, held);
        let on_it = |call: &Row| call.other == own && services.contains(&call.tokens);
        let unmet_after = |call: &Row| !on_it(call) && (call.other == own || !held.met(call));
        let others = || held.calls().filter(|(caller, _)| **caller != own);
        let unmet = others().filter(|(_, call)| unmet_after(call)).count();
        let calls = self.fit_calls(own, old, held, unmet, ungranted);
        let needs = self.some(&calls, |call| if held.met(call) { 30 } else { unmet_needs });

        // What others call of its services it grants, mostly.
        let met: Vec<Row> = others()
            .filter(|(_, call)| on_it(call))
            .map(|(caller, call)| Row { other: *caller, tokens: call.tokens })
            .collect();
        let mut grants = self.some(&met, |_| grants_met);
        grants.extend(self.some(&Vec::from_iter(old.grants.iter().copied()), |_| 60));
        let waits = |grant: &&Row| !(held.contracts.contains_key(&grant.other) && services.contains(&grant.tokens));
        let settles =
            |callee: &Aid, grant: &Row| grant.other == own && held.contracts[callee].provides.contains(&grant.tokens);
        let stay = held.waiting().filter(|(callee, grant)| **callee != own && !settles(callee, grant)).count();
        let waiting = stay + grants.iter().filter(waits).count();
        grants.extend(self.fit_grants(own, &services, held, waiting));
        grants.sort();
        grants.dedup();
        self.random.shuffle(&mut grants);

        let services: Vec<_> = services.into_iter().map(pair).collect();
        self.write().contract(kind, own.bytes(), &services, &written(&calls), &written(&grants), &written(&needs))
    }

    /// Most of the old services, those that others need nearly always, and some more, half the time those that others call
    /// already before the rest; in any order.
    fn fit_services(&mut self, own: Aid, old: &Contract, held: &Machine) -> Vec<Tokens> {
        let needed = |tokens: &Tokens| {
            let need = Row { other: own, tokens: *tokens };
            held.contracts.values().any(|contract| contract.needs.contains(&need))
        };
        let stays = |tokens: &&Tokens| self.random.percent(if needed(tokens) { 95 } else { 70 });
        let mut services: Vec<Tokens> = old.provides.iter().filter(stays).copied().collect();
        let all = self.rules.sizes.services;
        let most = if self.random.percent(20) { all } else { 3 };
        let mut more: Vec<Tokens> =
            self.tokens.iter().filter(|tokens| !old.provides.contains(tokens)).copied().collect();
        self.random.shuffle(&mut more);
        if self.random.percent(50) {
            more.sort_by_key(|tokens| !held.unmet().any(|(_, call)| *call == Row { other: own, tokens: *tokens }));
        }
        more.truncate(self.random.between(0, most));
        services.extend(more);
        services.truncate(all);
        self.random.shuffle(&mut services);
        services
    }

    /// Calls on what is granted to the package, by this chance on what is not, and some unmet ones, of the old ones first.
    fn fit_calls(&mut self, own: Aid, old: &Contract, held: &Machine, unmet: usize, ungranted: usize) -> Vec<Row> {
        let on_card = services_of(held, own);
        let mut calls = self.some(&on_card, |call| if held.granted(own, call) { 60 } else { ungranted });
        let mut absent = self.absent_services(held, own);
        self.random.shuffle(&mut absent);
        absent.sort_by_key(|call| !old.calls.contains(call));
        let stay = absent.iter().filter(|call| old.calls.contains(call) && self.random.percent(70)).count();
        absent.truncate(self.rows_more(unmet).max(stay).min(self.rules.sizes.rows - calls.len()));
        calls.extend(absent);
        self.random.shuffle(&mut calls);
        calls
    }

    /// Grants to packages on the card, and some that wait.
    fn fit_grants(&mut self, own: Aid, services: &[Tokens], held: &Machine, waiting: usize) -> Vec<Row> {
        let early = self.early(own, |tokens| !services.contains(tokens));
        let mut absent = self.some(&early, |_| 10);
        let mut here = Vec::new();
        for other in self.aids.iter().filter(|other| **other != own) {
            let rows = services.iter().map(|tokens| Row { other: *other, tokens: *tokens });
            match held.contracts.contains_key(other) {
                true => here.extend(rows),
                false => absent.extend(rows),
            }
        }
        let mut grants = self.some(&here, |_| 40);
        self.random.shuffle(&mut absent);
        absent.truncate(self.rows_more(waiting).min(self.rules.sizes.listed));
        grants.extend(absent);
        grants
    }

    /// Grants of services that the package does not provide, where the rules have them.
    fn early(&self, own: Aid, not_provided: impl Fn(&Tokens) -> bool) -> Vec<Row> {
        let others = self.aids.iter().filter(|other| self.rules.early_grants && **other != own);
        let tokens = || self.tokens.iter().filter(|tokens| not_provided(tokens));
        others.flat_map(|other| tokens().map(|tokens| Row { other: *other, tokens: *tokens })).collect()
    }

    /// How many rows to add to a list that has `now`: a few, or up to its limit, one below it or one past it.
    fn rows_more(&mut self, now: usize) -> usize {
        let to_the_limit = match self.drive {
            Drive::Lists => 40,
            Drive::Mixed => 10,
            Drive::Packages | Drive::Services => 3,
        };
        let limit = self.rules.sizes.listed;
        match self.random.percent(to_the_limit) {
            true => self.random.between(limit - 1, limit + 1).saturating_sub(now),
            false => self.random.between(0, 3).min((limit + 1).saturating_sub(now)),
        }
    }

    /// A service, mostly one that is called or granted already. Its callers are listed, and some of those it is granted to.
    fn fit_new_service(&mut self, held: &Machine) -> Option<Vec<u8>> {
        let (own, contract) = self.installed(held, |_| true)?;
        let called = held.unmet().filter(|(_, call)| call.other == own).map(|(_, call)| call.tokens);
        let mut new: Vec<Tokens> = called.chain(contract.grants.iter().map(|grant| grant.tokens)).collect();
        if self.random.percent(50) {
            new = self.tokens.clone();
        }
        new.retain(|tokens| !contract.provides.contains(tokens));
        let tokens = *self.random.pick(&new)?;
        let mut callers: Vec<Aid> = Vec::new();
        for (caller, _) in held.unmet().filter(|(_, call)| **call == Row { other: own, tokens }) {
            let listed = if contract.grants_to(*caller, tokens) { 40 } else { 80 };
            if self.random.percent(listed) {
                callers.push(*caller);
            }
        }
        let granted = contract.grants.iter().filter(|grant| grant.tokens == tokens && self.random.percent(30));
        callers.extend(granted.map(|grant| grant.other));
        callers.extend((0..self.random.between(0, 4)).map(|_| self.aid()).filter(|other| *other != own));
        callers.sort();
        callers.dedup();
        self.random.shuffle(&mut callers);
        let callers: Vec<_> = callers.iter().map(|caller| caller.bytes().to_vec()).collect();
        Some(self.write().add_service(own.bytes(), pair(tokens), &callers))
    }

    /// A call that is granted, one that is not, or an unmet one.
    fn fit_new_call(&mut self, held: &Machine) -> Option<Vec<u8>> {
        let (own, contract) = self.installed(held, |_| true)?;
        let new = |row: &Row| !contract.calls.contains(row);
        let unmet = self.random.percent(if self.drive == Drive::Lists { 75 } else { 40 });
        let rows: Vec<Row> = if unmet {
            self.absent_services(held, own).into_iter().filter(new).collect()
        } else {
            let granted = self.random.percent(85);
            services_of(held, own).into_iter().filter(|row| new(row) && held.granted(own, row) == granted).collect()
        };
        let row = self.random.pick(&rows)?;
        Some(self.write().update(5, own.bytes(), row.other.bytes(), pair(row.tokens)))
    }

    /// A grant to a package on the card, or one that waits: for its caller, or for its service, which may be called.
    fn fit_new_grant(&mut self, held: &Machine) -> Option<Vec<u8>> {
        let early = self.rules.early_grants && self.random.percent(25);
        let (own, contract) = self.installed(held, |contract| early || !contract.provides.is_empty())?;
        let waits = self.random.percent(if self.drive == Drive::Lists { 70 } else { 30 });
        let mut rows = Vec::new();
        for other in self.aids.iter().filter(|other| **other != own && held.contracts.contains_key(*other) != waits) {
            rows.extend(contract.provides.iter().map(|tokens| Row { other: *other, tokens: *tokens }));
        }
        if early {
            let called = held.unmet().filter(|(_, call)| call.other == own && self.random.percent(60));
            rows = called.map(|(caller, call)| Row { other: *caller, tokens: call.tokens }).collect();
        }
        if early && rows.is_empty() {
            rows = self.early(own, |tokens| !contract.provides.contains(tokens));
        }
        rows.retain(|row| !contract.grants.contains(row));
        let row = self.random.pick(&rows)?;
        Some(self.write().update(7, own.bytes(), row.other.bytes(), pair(row.tokens)))
    }

    fn not_installed(&self, held: &Machine) -> Vec<Aid> {
        let absent = |aid: &&Aid| self.may_be_of(aid) && !held.contracts.contains_key(*aid);
        self.aids.iter().filter(absent).copied().collect()
    }

    /// Services of others that nobody on the card provides.
    fn absent_services(&self, held: &Machine, own: Aid) -> Vec<Row> {
        let others = self.aids.iter().filter(|other| **other != own);
        let rows = others.flat_map(|other| self.tokens.iter().map(|tokens| Row { other: *other, tokens: *tokens }));
        rows.filter(|row| !held.met(row)).collect()
    }

    /// Each of the rows with its chance in a hundred.
    fn some(&mut self, rows: &[Row], chance: impl Fn(&Row) -> usize) -> Vec<Row> {
        rows.iter().filter(|row| self.random.percent(chance(row))).copied().collect()
    }
}

/// The services that packages other than `own` provide on the card.
fn services_of(held: &Machine, own: Aid) -> Vec<Row> {
    let others = held.contracts.iter().filter(|(aid, _)| **aid != own);
    others
        .flat_map(|(aid, contract)| contract.provides.iter().map(|tokens| Row { other: *aid, tokens: *tokens }))
        .collect()
}

fn written(rows: &[Row]) -> Vec<write::Row> {
    rows.iter().map(|row| (row.other.bytes().to_vec(), pair(row.tokens))).collect()
}
