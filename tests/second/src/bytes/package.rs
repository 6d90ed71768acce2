//! Kinds 1, 2 and 11: loading, removing and replacing a whole contract. Each looks at everything before it writes.

use super::layout::*;
use super::record::{Contract, Row};
use super::relation::{Listed, Relation};

pub fn load<V: Version>(image: &mut Image, own: &[u8], contract: &Contract) -> Result<usize, u32> {
    if V::package(image, own).is_some() {
        return Err(4);
    }
    let number = V::used(image).trailing_ones() as usize;
    if number == V::SIZES.packages {
        return Err(7);
    }
    fits::<V>(image, number, own, contract, 0)?;
    V::set_used(image, V::used(image) | 1 << number);
    image[V::aid_at(number)..][..own.len()].copy_from_slice(own);
    let services = contract.provides.as_flattened();
    image[V::tokens_at(number, 0)..][..services.len()].copy_from_slice(services);
    V::set_entry(image, V::provides_at(number), (1 << contract.provides.len()) - 1);
    put_rows::<V>(image, number, contract);
    Ok(number)
}

pub fn replace<V: Version>(image: &mut Image, number: usize, own: &[u8], contract: &Contract) -> Result<(), u32> {
    let stays = |service: &usize| contract.provides.contains(&V::tokens(image, number, *service));
    let kept = V::numbers(V::provides(image, number)).filter(stays).fold(0, |kept, service| kept | 1 << service);
    let dropped = V::provides(image, number) & !kept;
    fits::<V>(image, number, own, contract, dropped)?;

    let left: Vec<_> = calls_on::<V>(image, number, dropped).collect();
    clear_rows::<V>(image, number);
    for caller in V::packages() {
        V::clear(image, V::cell(V::CALLS, caller, number), !kept);
    }
    V::set_entry(image, V::provides_at(number), kept);
    for service in V::numbers(dropped) {
        image[V::tokens_at(number, service)..][..TOKENS].fill(0);
    }
    for tokens in contract.provides {
        if V::service(image, number, *tokens).is_none() {
            V::open_service(image, number, *tokens);
        }
    }
    put_rows::<V>(image, number, contract);
    for (caller, tokens) in left {
        Relation::Calls.append::<V>(image, caller, Row { aid: own, tokens });
    }
    Ok(())
}

/// Causes 8 to 11 of a contract for the package with this number, which drops these services of its old one. A load has an
/// unused number, where nothing stands.
fn fits<V: Version>(image: &Image, number: usize, own: &[u8], contract: &Contract, dropped: Bits) -> Result<(), u32> {
    let Contract { provides: services, mut calls, grants: given, mut needs } = *contract;
    let on_card = |row: Row| V::provided(image, row.aid, row.tokens);
    // What is granted to the package is a bit, or waits while it is not installed.
    let granted = |callee: usize, service: usize, call: Row| {
        let grant = Row { aid: own, tokens: call.tokens };
        has(V::grants(image, callee, number), service)
            || Relation::Grants.rows::<V>(image).any(|row| row.is(callee, grant))
    };
    // Calls of others on what the package provides, which it must grant: those that become met, and those that stay so.
    let met = |row: &Listed| is_aid(row.other, own) && services.contains(&row.tokens);
    let met_now = Relation::Calls.rows::<V>(image).filter(met).map(|row| (row.own, row.tokens));
    let gives = |(caller, tokens): (usize, [u8; TOKENS])| {
        let grant = Row { aid: written(V::aid(image, caller)), tokens };
        given.into_iter().any(|given| given == grant)
    };
    if calls.any(|call| on_card(call).is_some_and(|(callee, service)| !granted(callee, service, call)))
        || !met_now.chain(calls_on::<V>(image, number, !dropped)).all(gives)
    {
        return Err(8);
    }
    if needs.any(|need| on_card(need).is_none()) || V::needed(image, number, dropped) {
        return Err(9);
    }
    let left = Relation::Calls.rows::<V>(image).filter(|row| row.own != number && !met(row)).count();
    let unmet = contract.calls.filter(|call| on_card(*call).is_none()).count();
    if left + unmet + calls_on::<V>(image, number, dropped).count() > V::SIZES.listed {
        return Err(10);
    }
    let settles = |row: &Listed| is_aid(row.other, own) && V::service(image, row.own, row.tokens).is_some();
    let left = Relation::Grants.rows::<V>(image).filter(|row| row.own != number && !settles(row)).count();
    let waits = |grant: &Row| !services.contains(&grant.tokens) || V::package(image, grant.aid).is_none();
    if left + given.filter(waits).count() > V::SIZES.listed {
        return Err(11);
    }
    Ok(())
}

/// The calls of others on these services of the package, by caller number and service number: each caller, and the tokens.
fn calls_on<V: Version>(
    image: &Image,
    number: usize,
    services: Bits,
) -> impl Iterator<Item = (usize, [u8; TOKENS])> + use<'_, V> {
    let called = move |caller: &usize| V::calls(image, *caller, number) & services != 0;
    V::packages().filter(called).flat_map(move |caller| {
        V::numbers(V::calls(image, caller, number) & services)
            .map(move |service| (caller, V::tokens(image, number, service)))
    })
}

/// Writes the rows of a contract that fits, of a package that has its services by now, and settles what they meet.
fn put_rows<V: Version>(image: &mut Image, number: usize, contract: &Contract) {
    Relation::Calls.settle::<V>(image);
    Relation::Grants.settle::<V>(image);
    for call in contract.calls {
        Relation::Calls.put::<V>(image, number, call);
    }
    for grant in contract.grants {
        Relation::Grants.put::<V>(image, number, grant);
    }
    for need in contract.needs {
        if let Some((callee, service)) = V::provided(image, need.aid, need.tokens) {
            V::set(image, V::cell(V::NEEDS, number, callee), 1 << service);
        }
    }
}

/// Takes the package's own calls, grants and needs out of tables and lists.
fn clear_rows<V: Version>(image: &mut Image, number: usize) {
    Relation::Calls.close_up::<V>(image, |_, row| row.own == number);
    Relation::Grants.close_up::<V>(image, |_, row| row.own == number);
    for table in [V::CALLS, V::GRANTS, V::NEEDS] {
        image[V::cell(table, number, 0)..V::cell(table, number + 1, 0)].fill(0);
    }
}

pub fn remove<V: Version>(image: &mut Image, number: usize) -> Result<(), u32> {
    if V::needed(image, number, Bits::MAX) {
        return Err(9);
    }
    let left = |relation: Relation| relation.rows::<V>(image).filter(|row| row.own != number).count();
    let sum = |services: fn(&Image, usize, usize) -> Bits| -> usize {
        V::packages().map(|other| services(image, other, number).count_ones() as usize).sum()
    };
    if left(Relation::Calls) + sum(V::calls) > V::SIZES.listed {
        return Err(10);
    }
    if left(Relation::Grants) + sum(V::grants) > V::SIZES.listed {
        return Err(11);
    }
    take_out::<V>(image, number);
    Ok(())
}

/// Writes a removal that fits.
fn take_out<V: Version>(image: &mut Image, number: usize) {
    clear_rows::<V>(image, number);
    let own = *V::aid(image, number);
    for other in V::packages() {
        for service in V::numbers(V::calls(image, other, number)) {
            let call = Row { aid: &own, tokens: V::tokens(image, number, service) };
            Relation::Calls.append::<V>(image, other, call);
        }
        for service in V::numbers(V::grants(image, other, number)) {
            let grant = Row { aid: &own, tokens: V::tokens(image, other, service) };
            Relation::Grants.append::<V>(image, other, grant);
        }
    }
    V::set_used(image, V::used(image) & !(1 << number));
    image[V::aid_at(number)..V::aid_at(number + 1)].fill(0);
    image[V::tokens_at(number, 0)..V::tokens_at(number + 1, 0)].fill(0);
    V::set_entry(image, V::provides_at(number), 0);
    for table in [V::CALLS, V::GRANTS, V::NEEDS] {
        for row in V::packages() {
            V::set_entry(image, V::cell(table, row, number), 0);
        }
    }
}
