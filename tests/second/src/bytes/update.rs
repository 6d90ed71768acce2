//! Kinds 3 to 10: updates of the package with this number. Each looks at everything before it
//! writes. `Err` has the cause.

use super::layout::*;
use super::record::{Aids, Row};
use super::relation::{Listed, Relation};
use crate::rules::Rules;

pub fn add_service<V: Version>(
    image: &mut Image,
    number: usize,
    wanted: [u8; TOKENS],
    callers: Aids,
) -> Result<(), u32> {
    if V::service(image, number, wanted).is_some() {
        return Err(6);
    }
    if V::provides(image, number).trailing_ones() as usize == V::SIZES.services {
        return Err(7);
    }
    let own = *V::aid(image, number);
    let waits = |caller: &[u8]| Relation::Grants.has::<V>(image, number, Row { aid: caller, tokens: wanted });
    let granted = |caller: &[u8]| callers.into_iter().any(|named| named == caller) || waits(caller);
    let fits = |row: &Listed| *row.other == own && row.tokens == wanted;
    if Relation::Calls.rows::<V>(image).filter(fits).any(|row| !granted(written(V::aid(image, row.own)))) {
        return Err(8);
    }
    let here = |caller: &[u8]| V::package(image, caller).is_some();
    let settles = |row: &Listed| row.own == number && row.tokens == wanted && here(written(row.other));
    let left = Relation::Grants.rows::<V>(image).filter(|row| !settles(row)).count();
    if left + callers.filter(|caller| !here(caller) && !waits(caller)).count() > V::SIZES.listed {
        return Err(11);
    }

    V::open_service(image, number, wanted);
    Relation::Calls.settle::<V>(image);
    Relation::Grants.settle::<V>(image);
    for caller in callers {
        let grant = Row { aid: caller, tokens: wanted };
        if !Relation::Grants.has::<V>(image, number, grant) {
            Relation::Grants.put::<V>(image, number, grant);
        }
    }
    Ok(())
}

pub fn remove_service<V: Version>(
    rules: Rules,
    image: &mut Image,
    number: usize,
    unwanted: [u8; TOKENS],
) -> Result<(), u32> {
    let service = V::service(image, number, unwanted).ok_or(6u32)?;
    let bit = 1 << service;
    if V::needed(image, number, bit) {
        return Err(9);
    }
    let callers = V::packages().filter(|&caller| V::calls(image, caller, number) & bit != 0).count();
    if Relation::Calls.count::<V>(image) + callers > V::SIZES.listed {
        return Err(10);
    }
    let granted = V::packages().filter(|&caller| V::grants(image, number, caller) & bit != 0).count();
    if rules.early_grants && Relation::Grants.count::<V>(image) + granted > V::SIZES.listed {
        return Err(11);
    }

    if !rules.early_grants {
        Relation::Grants.close_up::<V>(image, |_, row| row.own == number && row.tokens == unwanted);
    }
    let own = *V::aid(image, number);
    for caller in V::packages() {
        if V::calls(image, caller, number) & bit != 0 {
            Relation::Calls.append::<V>(image, caller, Row { aid: &own, tokens: unwanted });
        }
        if rules.early_grants && V::grants(image, number, caller) & bit != 0 {
            let aid = *V::aid(image, caller);
            Relation::Grants.append::<V>(image, number, Row { aid: &aid, tokens: unwanted });
        }
        V::clear(image, V::cell(V::CALLS, caller, number), bit);
        V::clear(image, V::cell(V::GRANTS, number, caller), bit);
    }
    V::clear(image, V::provides_at(number), bit);
    image[V::tokens_at(number, service)..][..TOKENS].fill(0);
    Ok(())
}

pub fn add_call<V: Version>(image: &mut Image, number: usize, call: Row) -> Result<(), u32> {
    if Relation::Calls.has::<V>(image, number, call) {
        return Err(6);
    }
    match V::provided(image, call.aid, call.tokens) {
        Some((callee, service)) if !has(V::grants(image, callee, number), service) => return Err(8),
        None if Relation::Calls.count::<V>(image) == V::SIZES.listed => return Err(10),
        _ => {}
    }
    Relation::Calls.put::<V>(image, number, call);
    Ok(())
}

pub fn remove_call<V: Version>(image: &mut Image, number: usize, call: Row) -> Result<(), u32> {
    if !Relation::Calls.has::<V>(image, number, call) {
        return Err(6);
    }
    Relation::Calls.take::<V>(image, number, call);
    if let Some((callee, service)) = V::provided(image, call.aid, call.tokens) {
        V::clear(image, V::cell(V::NEEDS, number, callee), 1 << service);
    }
    Ok(())
}

pub fn add_grant<V: Version>(rules: Rules, image: &mut Image, number: usize, grant: Row) -> Result<(), u32> {
    let too_early = !rules.early_grants && V::service(image, number, grant.tokens).is_none();
    if too_early || Relation::Grants.has::<V>(image, number, grant) {
        return Err(6);
    }
    if Relation::Grants.bit::<V>(image, number, grant).is_none()
        && Relation::Grants.count::<V>(image) == V::SIZES.listed
    {
        return Err(11);
    }
    Relation::Grants.put::<V>(image, number, grant);
    Ok(())
}

pub fn remove_grant<V: Version>(image: &mut Image, number: usize, grant: Row) -> Result<(), u32> {
    if !Relation::Grants.has::<V>(image, number, grant) {
        return Err(6);
    }
    let service = V::service(image, number, grant.tokens);
    let called = |caller| service.is_some_and(|service| has(V::calls(image, caller, number), service));
    if V::package(image, grant.aid).is_some_and(called) {
        return Err(8);
    }
    Relation::Grants.take::<V>(image, number, grant);
    Ok(())
}

pub fn add_need<V: Version>(image: &mut Image, number: usize, need: Row) -> Result<(), u32> {
    if !Relation::Calls.has::<V>(image, number, need) {
        return Err(6);
    }
    let (callee, service) = V::provided(image, need.aid, need.tokens).ok_or(9u32)?;
    let (at, bit) = (V::cell(V::NEEDS, number, callee), 1 << service);
    if V::entry(image, at) & bit != 0 {
        return Err(6);
    }
    V::set(image, at, bit);
    Ok(())
}

pub fn remove_need<V: Version>(image: &mut Image, number: usize, need: Row) -> Result<(), u32> {
    let (callee, service) = V::provided(image, need.aid, need.tokens).ok_or(6u32)?;
    let bit = 1 << service;
    if V::needs(image, number, callee) & bit == 0 {
        return Err(6);
    }
    V::clear(image, V::cell(V::NEEDS, number, callee), bit);
    Ok(())
}
