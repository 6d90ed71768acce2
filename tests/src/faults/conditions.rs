//! R-3 misread: engines that work the report's conditions for a load otherwise.

use super::replace::add_grants;
use crate::card::{Card, Verdict, BYTES};
use crate::conditions::{called_and_granted, Conditions};
use crate::encode;
use crate::machine::record::{Change, Lists, Record};
use crate::machine::{Aid, Machine, Row, Tokens};
use crate::rules::Sizes;
use crate::tables::{contracts, in_force};
use std::collections::BTreeSet;

/// A load that is free of causes 2 to 7 on the contracts that an image stands for.
struct Load {
    sizes: &'static Sizes,
    own: Aid,
    lists: Lists,
    held: Machine,
    conditions: Conditions,
}

fn loading(image: &[u8], bytes: &[u8]) -> Option<Load> {
    let rules = in_force(image);
    let held = contracts(rules, image)?;
    let Record { aid: own, change: Change::Load(lists) } = held.to_try(rules, bytes).ok()? else { return None };
    let conditions = Conditions::of(&held, own, &lists.contract());
    Some(Load { sizes: rules.sizes, own, lists, held, conditions })
}

/// Refuses a load with the cause where this holds of it.
fn refused_if(cause: u32, image: &mut [u8], bytes: &[u8], holds: impl Fn(&Load) -> bool) -> Verdict {
    match loading(image, bytes).is_some_and(|load| holds(&load)) {
        true => Verdict::new(cause, 255),
        false => BYTES.judge(image, bytes),
    }
}

/// Judges a load where this holds of it as one for which the first and the third condition hold.
fn let_through(image: &mut [u8], bytes: &[u8], holds: impl Fn(&Load) -> bool) -> Verdict {
    match loading(image, bytes).filter(holds) {
        Some(load) => BYTES.judge(image, &load.granted()),
        None => BYTES.judge(image, bytes),
    }
}

impl Load {
    /// What it calls of each package on the card, and what that grants to it.
    fn rights(&self) -> Vec<[BTreeSet<Tokens>; 2]> {
        let new = self.lists.contract();
        self.held.contracts.iter().map(|callee| called_and_granted(callee, (&self.own, &new))).collect()
    }

    /// What each package on the card calls of it, and what it grants to that.
    fn others(&self) -> Vec<[BTreeSet<Tokens>; 2]> {
        let new = self.lists.contract();
        self.held.contracts.iter().map(|caller| called_and_granted((&self.own, &new), caller)).collect()
    }

    /// The record without the calls that are met and not granted, and with a grant of each of its services that is called.
    fn granted(&self) -> Vec<u8> {
        let mut lists = self.lists.clone();
        let fine = |call: &Row| !self.held.met(call) || self.held.granted(self.own, call);
        lists.calls.retain(fine);
        lists.needs.retain(fine);
        let on_it = self.held.calls().filter(|(_, call)| call.other == self.own);
        let called = on_it.filter(|(_, call)| self.lists.provides.contains(&call.tokens));
        add_grants(&mut lists, called.map(|(caller, call)| Row { other: *caller, tokens: call.tokens }));
        encode::bytes(self.sizes, &Record { aid: self.own, change: Change::Load(lists) })
    }
}

/// 9 as soon as the second fails: the third is not worked.
pub fn stops_at_needs(image: &mut [u8], bytes: &[u8]) -> Verdict {
    refused_if(9, image, bytes, |load| load.conditions.rights && !load.conditions.needs)
}

/// The third is left out: no listing of the report works it.
pub fn third_left_out(image: &mut [u8], bytes: &[u8]) -> Verdict {
    let_through(image, bytes, |load| load.conditions.rights && !load.conditions.others)
}

/// 8 only where the first and the third both fail.
pub fn eight_takes_both(image: &mut [u8], bytes: &[u8]) -> Verdict {
    let_through(image, bytes, |load| load.conditions.rights != load.conditions.others)
}

/// "If S1 ≠ S2 then return false", as the report's steps for the first have it.
pub fn equal_sets(image: &mut [u8], bytes: &[u8]) -> Verdict {
    refused_if(8, image, bytes, |load| load.rights().into_iter().any(|[called, granted]| called != granted))
}

/// secrules over a set has the callers that it has on any of its services, not on each.
pub fn any_grant_will_do(image: &mut [u8], bytes: &[u8]) -> Verdict {
    let_through(image, bytes, |load| {
        let mut sets = load.rights().into_iter().chain(load.others());
        sets.all(|[called, granted]| called.is_empty() || !called.is_disjoint(&granted))
    })
}

/// The first is worked on the table of grants, in which those that wait for the newcomer are not.
pub fn waiting_grants_unseen(image: &mut [u8], bytes: &[u8]) -> Verdict {
    refused_if(8, image, bytes, |load| load.rights().into_iter().any(|[called, _]| !called.is_empty()))
}

/// The second is worked on the calls: 9 for one that is unmet, and no need.
pub fn calls_for_needs(image: &mut [u8], bytes: &[u8]) -> Verdict {
    refused_if(9, image, bytes, |load| {
        let unmet = load.lists.calls.iter().any(|call| !load.held.met(call));
        load.conditions.rights && load.conditions.others && unmet
    })
}
