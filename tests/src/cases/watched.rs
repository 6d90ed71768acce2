//! R-6, "Suppliers must not watch each other": pairs of cards that are alike for B and differ in what H and C call, need and grant
//! between themselves, and B's records, which get the same on both.

use super::*;
use crate::write::{load, remove, replace, update, Row, Tokens};

const S: Tokens = (0, 0);
const T: Tokens = (0, 1);

/// Two cards, each with its name, and B's records.
pub struct Pair {
    names: [&'static str; 2],
    pub cards: [Vec<Step>; 2],
    pub own: Vec<Step>,
}

pub fn cases() -> Vec<Case> {
    let each = |Pair { names, cards, own }: Pair| {
        let on = move |(name, card): (_, Vec<Step>)| case(name, card.into_iter().chain(own.clone()).collect());
        names.into_iter().zip(cards).map(on)
    };
    pairs().into_iter().flat_map(each).collect()
}

/// H, which provides a service and grants it to both others, C, which has these calls and needs, and B, if it has calls.
fn callers(calls: &[Row], needs: &[Row], own: Option<&[Row]>) -> Vec<Step> {
    let server = yes(0, load(H, &[S], &[], &[row(B, S), row(C, S)], &[]));
    let caller = yes(1, load(C, &[], calls, &[], needs));
    [server, caller].into_iter().chain(own.map(|own| yes(2, load(B, &[], own, &[], &[])))).collect()
}

/// Eight services, S first or last.
fn eight(last: bool) -> Vec<Tokens> {
    let mut services: Vec<Tokens> = (0..8).map(|n| (0, n)).collect();
    if last {
        services.reverse();
    }
    services
}

/// C with these unmet calls and these waiting grants, and B without any rows.
fn lists(calls: &[Row], grants: &[Row]) -> Vec<Step> {
    vec![yes(0, load(C, &[S, T], calls, grants, &[])), yes(1, load(B, &[S], &[], &[], &[]))]
}

pub fn pairs() -> Vec<Pair> {
    let on_h = &[row(H, S)][..];
    let strangers = |count: u8| -> Vec<Row> { (0..count).map(|n| row(&[0xEE, 0, 0, 0, n], S)).collect() };
    let to_c: Vec<Row> = eight(false).into_iter().map(|service| row(C, service)).collect();
    let of_h: Vec<Row> = eight(false).into_iter().map(|service| row(H, service)).collect();
    let granting = |grants: &[Row], calls: &[Row]| {
        vec![
            yes(0, load(C, &[], &unmet(9), &[], &[])),
            yes(1, load(H, &eight(false), &[], &[grants, &strangers(9)].concat(), &[])),
            yes(2, load(B, &[], &[], &[], &[])),
            yes(0, replace(C, &[], &[calls, &unmet(9)].concat(), &[], &[])),
        ]
    };
    let numbered =
        |last| vec![yes(0, load(H, &eight(last), &[], &[row(B, S)], &[])), yes(1, load(B, &[], &[], &[], &[]))];
    let listed = |b_first: bool| {
        let call = |n, own: &[u8]| yes(n, update(5, own, X, S));
        let calls = if b_first { [call(1, B), call(0, C)] } else { [call(0, C), call(1, B)] };
        lists(&[], &[]).into_iter().chain(calls).collect()
    };
    vec![
        Pair {
            names: ["R-6: B's call, and C calls the service too", "R-6: B's call, and C does not"],
            cards: [callers(on_h, &[], Some(&[])), callers(&[], &[], Some(&[]))],
            own: vec![yes(2, update(5, B, H, S)), no(6, update(5, B, H, S))],
        },
        Pair {
            names: [
                "R-6: B's load with a call on what C needs",
                "R-6: B's load with a call on what C calls and needs not",
            ],
            cards: [callers(on_h, on_h, None), callers(on_h, &[], None)],
            own: vec![no(9, load(B, &[], &unmet(1), &[], &unmet(1))), yes(2, load(B, &[], on_h, &[], &[]))],
        },
        Pair {
            names: ["R-6: B's call goes, and C has one", "R-6: B's call goes, and C has none"],
            cards: [callers(on_h, &[], Some(on_h)), callers(&[], &[], Some(on_h))],
            own: vec![yes(2, update(6, B, H, S)), yes(2, update(5, B, H, S))],
        },
        Pair {
            names: ["R-6: B goes, and others have eight calls met", "R-6: B goes, and others have none met"],
            cards: [granting(&to_c, &of_h), granting(&to_c, &[])],
            own: vec![yes(2, remove(B)), no(5, remove(B))],
        },
        Pair {
            names: ["R-6: B goes, and others have eight grants", "R-6: B goes, and others have none"],
            cards: [granting(&to_c, &[]), granting(&[], &[])],
            own: vec![yes(2, remove(B)), no(5, remove(B))],
        },
        Pair {
            names: [
                "R-6: B's unmet call goes that stands before C's",
                "R-6: B's unmet call goes that stands after C's",
            ],
            cards: [listed(true), listed(false)],
            own: vec![yes(1, update(6, B, X, S)), no(6, update(6, B, X, S))],
        },
        Pair {
            names: ["R-6: B's call on a service with number 7", "R-6: B's call on a service with number 0"],
            cards: [numbered(true), numbered(false)],
            own: vec![no(8, update(5, B, H, T)), yes(1, update(5, B, H, S))],
        },
        Pair {
            names: ["R-6: B's unmet call, and C has it too", "R-6: B's unmet call, and C has another"],
            cards: [lists(&[row(X, S)], &[]), lists(&[row(X, T)], &[])],
            own: vec![yes(1, update(5, B, X, S)), no(6, update(5, B, X, S))],
        },
        Pair {
            names: ["R-6: B's waiting grant, and C gives the same", "R-6: B's waiting grant, and C gives another"],
            cards: [lists(&[], &[row(X, S)]), lists(&[], &[row(X, T)])],
            own: vec![yes(1, update(7, B, X, S)), no(6, update(7, B, X, S))],
        },
        Pair {
            names: ["R-6: both lists are full, of rows on one AID", "R-6: both lists are full, of rows on many"],
            cards: [
                lists(&unmet(16), &(0..16).map(|n| row(X, (7, n))).collect::<Vec<_>>()),
                lists(&strangers(16), &strangers(16)),
            ],
            own: vec![no(10, update(5, B, X, T)), no(11, update(7, B, X, S)), yes(1, remove(B))],
        },
    ]
}
