//! R-6 broken: engines that show B what other packages call, need and grant among themselves, how services are numbered, or how
//! the rows of a list are ordered.

use super::tables_after;
use crate::card::{Card, Verdict, BYTES};
use crate::tables::{in_force, Bit, Tables};

/// The first of these bits that those have not.
fn new(bits: &[Bit], those: &[Bit]) -> Option<Bit> {
    bits.iter().find(|bit| !those.contains(bit)).copied()
}

/// One of these bits on the service of this one, of another caller.
fn another(bits: &[Bit], bit: Bit) -> Option<Bit> {
    let caller =
        |other: &&Bit| (other.callee, other.service) == (bit.callee, bit.service) && other.caller != bit.caller;
    bits.iter().find(caller).copied()
}

fn refused_if(cause: u32, holds: bool) -> Result<(), u32> {
    if holds {
        Err(cause)
    } else {
        Ok(())
    }
}

/// A service has one caller: kind 5 gives 8 where another package calls it.
pub fn one_caller(image: &mut [u8], bytes: &[u8]) -> Verdict {
    tables_after(5, image, bytes, |_, before, after| {
        let call = new(&after.calls, &before.calls);
        refused_if(8, call.is_some_and(|call| another(&before.calls, call).is_some()))
    })
}

/// A load gives 9 where it calls a service that another package needs.
pub fn needed_by_another(image: &mut [u8], bytes: &[u8]) -> Verdict {
    tables_after(1, image, bytes, |number, before, after| {
        let mut calls = after.calls.iter().filter(|call| call.caller == number);
        refused_if(9, calls.any(|call| another(&before.needs, *call).is_some()))
    })
}

/// With kind 6 comes the number of another package that calls the service, where there is one.
pub fn next_callers_number(image: &mut [u8], bytes: &[u8]) -> Verdict {
    let before = Tables::in_force(image);
    let verdict = BYTES.judge(image, bytes);
    let (0, Some(6), Some(before), Some(after)) = (verdict.answer, bytes.get(3), before, Tables::in_force(image))
    else {
        return verdict;
    };
    let next = new(&before.calls, &after.calls).and_then(|call| another(&after.calls, call));
    next.map_or(verdict, |next| Verdict::new(0, next.caller as u32))
}

/// A removal counts every met call as one that it leaves unmet, not those on the package alone.
pub fn every_call_counted(image: &mut [u8], bytes: &[u8]) -> Verdict {
    let most = in_force(image).sizes.listed;
    tables_after(2, image, bytes, |number, before, _| {
        let unmet = before.unmet.iter().filter(|call| call.caller != number).count();
        refused_if(10, unmet + before.calls.iter().filter(|call| call.caller != number).count() > most)
    })
}

/// A removal counts every grant as one that it leaves waiting, not those to the package alone.
pub fn every_grant_counted(image: &mut [u8], bytes: &[u8]) -> Verdict {
    let most = in_force(image).sizes.listed;
    tables_after(2, image, bytes, |number, before, _| {
        let waiting = before.waiting.iter().filter(|grant| grant.callee != number).count();
        refused_if(11, waiting + before.grants.iter().filter(|grant| grant.callee != number).count() > most)
    })
}

/// Kind 6 does not find an unmet call in the list's last row, if others stand before it.
pub fn last_row_unsearched(image: &mut [u8], bytes: &[u8]) -> Verdict {
    tables_after(6, image, bytes, |_, before, after| {
        let last = before.unmet.last().filter(|_| before.unmet.len() > 1);
        refused_if(6, last.is_some_and(|last| !after.unmet.contains(last)))
    })
}

/// Kind 5 does not find the grant of a service that has the last number.
pub fn seventh_ungranted(image: &mut [u8], bytes: &[u8]) -> Verdict {
    let last = in_force(image).sizes.services - 1;
    tables_after(5, image, bytes, |_, before, after| {
        refused_if(8, new(&after.calls, &before.calls).is_some_and(|call| call.service == last))
    })
}

/// Kind 5 takes another package's unmet call for the one that it adds.
pub fn caller_not_compared(image: &mut [u8], bytes: &[u8]) -> Verdict {
    tables_after(5, image, bytes, |_, before, after| {
        let added = after.unmet.get(before.unmet.len());
        let same = |call| before.unmet.iter().any(|row| (row.callee, row.tokens) == call);
        refused_if(6, added.is_some_and(|row| same((row.callee, row.tokens))))
    })
}

/// Kind 7 takes another package's waiting grant for the one that it adds.
pub fn callee_not_compared(image: &mut [u8], bytes: &[u8]) -> Verdict {
    tables_after(7, image, bytes, |_, before, after| {
        let added = after.waiting.get(before.waiting.len());
        let same = |grant| before.waiting.iter().any(|row| (row.caller, row.tokens) == grant);
        refused_if(6, added.is_some_and(|row| same((row.caller, row.tokens))))
    })
}

/// A grant goes with the call that kind 6 removes, where no other package calls the service: the answers are right.
pub fn grant_goes_with_last_call(image: &mut [u8], bytes: &[u8]) -> Verdict {
    tables_after(6, image, bytes, |_, before, after| {
        let last = new(&before.calls, &after.calls).filter(|call| another(&after.calls, *call).is_none());
        after.grants.retain(|grant| Some(*grant) != last);
        Ok(())
    })
}
