//! R-1 misread: engines that are wrong about kind 11.

use super::{tables_after, Entry, Fault};
use crate::card::{Card, Verdict, BYTES};
use crate::encode;
use crate::machine::record::{self, Change, Lists, Record};
use crate::machine::{Machine, Row, Tokens};
use crate::rules::Rules;
use crate::tables::{contracts, in_force, Tables};
use crate::write::Writer;

pub const TOO_EARLY: &str = "kind-11-too-early";
/// Before each change of the rules, the last change first, an engine that reads kind 11 already.
pub const READS_11: &[Fault; Rules::CHANGES] = &[reads_11(1), reads_11(2), reads_11(3), reads_11(4)];

const fn reads_11(changes: usize) -> Fault {
    let rules = Rules { kinds: Rules::R_1.kinds, ..Rules::before(changes) };
    Fault { name: TOO_EARLY, entry: Entry::Rules(rules) }
}

/// Judges rightly, and changes the tables after an accepted record of kind 11; or refuses it.
fn after(
    image: &mut [u8],
    bytes: &[u8],
    change: impl FnOnce(usize, &Tables, &mut Tables) -> Result<(), u32>,
) -> Verdict {
    tables_after(11, image, bytes, change)
}

/// A record of kind 11 on the contracts that an image stands for.
fn replacing(image: &[u8], bytes: &[u8]) -> Option<(Record, Lists, Machine)> {
    let record = record::read(in_force(image), bytes)?;
    let Change::Replace(lists) = record.change.clone() else { return None };
    Some((record, lists, contracts(in_force(image), image)?))
}

/// Gives the package's services other numbers.
fn renumber(tables: &mut Tables, package: usize, number: impl Fn(Tokens) -> usize) {
    let Some(services) = tables.at(package).map(|own| own.services.clone()) else { return };
    tables.renumber(package, |service| services[service].map_or(service, &number));
}

/// Services take 0, 1, 2 in record order, also those in both contracts.
pub fn renumbers(image: &mut [u8], bytes: &[u8]) -> Verdict {
    let provides = replacing(image, bytes).map(|(_, lists, _)| lists.provides).unwrap_or_default();
    let place = |tokens| provides.iter().position(|provided| *provided == tokens).expect("a service provided");
    after(image, bytes, |number, _, after| {
        renumber(after, number, place);
        Ok(())
    })
}

/// Dropped services keep their numbers for this record: what comes takes others, and there may be none left.
pub fn numbers_not_freed(image: &mut [u8], bytes: &[u8]) -> Verdict {
    after(image, bytes, |number, before, after| {
        let services = |tables: &Tables| tables.at(number).expect("the package").services.clone();
        let (old, new) = (services(before), services(after));
        let come: Vec<Tokens> = new.into_iter().flatten().filter(|tokens| !old.contains(&Some(*tokens))).collect();
        let free: Vec<usize> = (0..old.len()).filter(|service| old[*service].is_none()).collect();
        if come.len() > free.len() {
            return Err(7);
        }
        renumber(after, number, |tokens| match come.iter().position(|new| *new == tokens) {
            Some(n) => free[n],
            None => before.service(number, tokens).expect("a service in both"),
        });
        Ok(())
    })
}

/// Calls of others on dropped services come before the package's own unmet ones.
pub fn left_calls_first(image: &mut [u8], bytes: &[u8]) -> Verdict {
    after(image, bytes, |number, _, after| {
        after.unmet.sort_by_key(|call| call.caller == number);
        Ok(())
    })
}

/// They come by service number and caller number.
pub fn left_calls_by_service(image: &mut [u8], bytes: &[u8]) -> Verdict {
    after(image, bytes, |number, before, after| {
        let own = after.unmet.iter().rposition(|call| call.caller == number || before.unmet.contains(call));
        let left = own.map_or(0, |last| last + 1);
        after.unmet[left..].sort_by_key(|call| (before.service(number, call.tokens), call.caller));
        Ok(())
    })
}

/// A need of another package on a dropped service is let through.
pub fn others_needs_unseen(image: &mut [u8], bytes: &[u8]) -> Verdict {
    let verdict = BYTES.judge(image, bytes);
    let Some((record, _, _)) = replacing(image, bytes).filter(|_| verdict.answer == 9) else { return verdict };
    let mut without = Tables::in_force(image).expect("a sound image");
    let own = without.packages.iter().position(|package| package.as_ref().is_some_and(|own| own.aid == record.aid));
    without.needs.retain(|need| Some(need.callee) != own);
    judge_instead(image, without.write(in_force(image)), bytes, verdict)
}

/// A call of another package on a service in both contracts is not looked at.
pub fn kept_calls_unseen(image: &mut [u8], bytes: &[u8]) -> Verdict {
    let verdict = BYTES.judge(image, bytes);
    let Some((record, mut lists, held)) = replacing(image, bytes).filter(|_| verdict.answer == 8) else {
        return verdict;
    };
    let stays = |call: &Row| call.other == record.aid && held.met(call) && lists.provides.contains(&call.tokens);
    let calls: Vec<_> = held.calls().filter(|(_, call)| stays(call)).collect();
    add_grants(&mut lists, calls.into_iter().map(|(caller, call)| Row { other: *caller, tokens: call.tokens }));
    let more = encode::bytes(in_force(image).sizes, &Record { change: Change::Replace(lists), ..record });
    judge_instead(image, image.to_vec(), &more, verdict)
}

/// Takes what judging another image, or by another record, gives where that is accepted.
fn judge_instead(image: &mut [u8], mut other: Vec<u8>, bytes: &[u8], else_given: Verdict) -> Verdict {
    match BYTES.judge(&mut other, bytes) {
        accepted @ Verdict { answer: 0, .. } => {
            image.copy_from_slice(&other);
            accepted
        }
        _ => else_given,
    }
}

pub fn add_grants(lists: &mut Lists, grants: impl Iterator<Item = Row>) {
    let more: Vec<Row> = grants.filter(|grant| !lists.grants.contains(grant)).collect();
    lists.grants.extend(more);
}

/// The grants of the old contract stay.
pub fn old_grants_kept(image: &mut [u8], bytes: &[u8]) -> Verdict {
    let Some((record, mut lists, held)) = replacing(image, bytes) else { return BYTES.judge(image, bytes) };
    let old = held.contracts.get(&record.aid).into_iter().flat_map(|contract| contract.grants.iter().copied());
    add_grants(&mut lists, old);
    BYTES.judge(image, &encode::bytes(in_force(image).sizes, &Record { change: Change::Replace(lists), ..record }))
}

/// 9 comes before 8.
pub fn nine_before_eight(image: &mut [u8], bytes: &[u8]) -> Verdict {
    let verdict = BYTES.judge(image, bytes);
    let Some((record, lists, mut after)) = replacing(image, bytes).filter(|_| verdict.answer == 8) else {
        return verdict;
    };
    after.contracts.insert(record.aid, lists.contract());
    let unmet = after.contracts.values().flat_map(|contract| &contract.needs).any(|need| !after.met(need));
    if unmet {
        Verdict::new(9, 255)
    } else {
        verdict
    }
}

/// The package's own rows of the lists stay.
pub fn own_rows_kept(image: &mut [u8], bytes: &[u8]) -> Verdict {
    after(image, bytes, |number, before, after| {
        let unmet = before.unmet.iter().filter(|call| call.caller == number && !after.unmet.contains(call));
        let waiting = before.waiting.iter().filter(|grant| grant.callee == number && !after.waiting.contains(grant));
        after.unmet = unmet.chain(&after.unmet).copied().collect();
        after.waiting = waiting.chain(&after.waiting).copied().collect();
        Ok(())
    })
}

/// Own rows in both contracts keep their places.
pub fn own_rows_in_place(image: &mut [u8], bytes: &[u8]) -> Verdict {
    after(image, bytes, |_, before, after| {
        let place = |place: Option<usize>| place.unwrap_or(usize::MAX);
        after.unmet.sort_by_key(|call| place(before.unmet.iter().position(|old| old == call)));
        after.waiting.sort_by_key(|grant| place(before.waiting.iter().position(|old| old == grant)));
        Ok(())
    })
}

/// Unmet calls of others that become met stay in the list too.
pub fn met_rows_kept(image: &mut [u8], bytes: &[u8]) -> Verdict {
    after(image, bytes, |number, before, after| {
        let met = before.unmet.iter().filter(|call| call.caller != number && !after.unmet.contains(call));
        after.unmet = met.chain(&after.unmet).copied().collect();
        Ok(())
    })
}

/// The package's own waiting grants come before those of others.
pub fn own_grants_first(image: &mut [u8], bytes: &[u8]) -> Verdict {
    after(image, bytes, |number, _, after| {
        after.waiting.sort_by_key(|grant| grant.callee != number);
        Ok(())
    })
}

/// Waiting grants of others to the package leave, as if it were new.
pub fn given_grants_taken(image: &mut [u8], bytes: &[u8]) -> Verdict {
    after(image, bytes, |number, _, after| {
        let own = after.packages[number].as_ref().map(|package| package.aid);
        after.waiting.retain(|grant| Some(grant.caller) != own);
        Ok(())
    })
}

/// A list that passes its limit on the way does not fit.
pub fn limits_on_the_way(image: &mut [u8], bytes: &[u8]) -> Verdict {
    let most = in_force(image).sizes.listed;
    after(image, bytes, |number, before, after| {
        let unmet = after.unmet.iter().filter(|call| call.caller == number || !before.unmet.contains(call));
        let waiting = after.waiting.iter().filter(|grant| grant.callee == number);
        let past = |rows: usize| rows > most;
        match (past(before.unmet.len() + unmet.count()), past(before.waiting.len() + waiting.count())) {
            (true, _) => Err(10),
            (false, true) => Err(11),
            (false, false) => Ok(()),
        }
    })
}

/// An absent package is loaded.
pub fn loads_absent(image: &mut [u8], bytes: &[u8]) -> Verdict {
    match (BYTES.judge(image, bytes), bytes.get(3)) {
        (Verdict { answer: 5, .. }, Some(11)) => BYTES.judge(image, &as_load(bytes)),
        (verdict, _) => verdict,
    }
}

/// The package is removed and loaded.
pub fn removes_and_loads(image: &mut [u8], bytes: &[u8]) -> Verdict {
    let right = BYTES.judge(&mut image.to_vec(), bytes);
    if bytes.get(3) != Some(&11) || (1..=5).contains(&right.answer) {
        return BYTES.judge(image, bytes);
    }
    let mut stepwise = image.to_vec();
    let removed = BYTES.judge(&mut stepwise, &Writer(in_force(image).sizes).remove(BYTES.aid(bytes)));
    let last = if removed.answer == 0 { BYTES.judge(&mut stepwise, &as_load(bytes)) } else { removed };
    if last.answer == 0 {
        image.copy_from_slice(&stepwise);
    }
    last
}

/// The record as a load.
fn as_load(bytes: &[u8]) -> Vec<u8> {
    let mut load = bytes.to_vec();
    load[3] = 1;
    load
}
