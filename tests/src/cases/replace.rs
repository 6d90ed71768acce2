//! R-1, "An applet's new release brings its whole contract": kind 11 on cards that it fits and does not fit, and cards over
//! the change that it begins with.

use super::*;
use crate::write::{add_service, load, remove, remove_service, replace, update, Row, Tokens};

const S: Tokens = (0, 0);
const T: Tokens = (0, 1);
const U: Tokens = (0, 2);
const V: Tokens = (0, 3);

pub fn cases() -> Vec<Case> {
    [form(), services(), rows(), causes(), limits(), over_the_change()].into_iter().flatten().collect()
}

/// A package that has nothing.
fn bare(aid: &[u8]) -> Vec<u8> {
    load(aid, &[], &[], &[], &[])
}

/// A contract that provides services alone.
fn provides(aid: &[u8], services: &[Tokens]) -> Vec<u8> {
    replace(aid, services, &[], &[], &[])
}

/// So many grants, of a service to AIDs that are never installed.
fn strangers(count: u8, tokens: Tokens) -> Vec<Row> {
    (0..count).map(|n| row(&[0xEE, 0, 0, 0, n], tokens)).collect()
}

/// "Kind 11 has a load's layout and its causes 2 and 3", "with 5 for an absent package".
fn form() -> Vec<Case> {
    let services = |interface: u8, count: u8| (0..count).map(|method| (interface, method)).collect::<Vec<_>>();
    vec![
        case(
            "R-1: a package that is not installed",
            vec![
                no(5, provides(H, &[S])),
                yes(0, bare(H)),
                no(5, provides(C, &[S])),
                // 2 and 3 come before.
                no(2, [provides(C, &[S]), vec![0]].concat()),
                no(3, provides(C, &[S, S])),
                yes(0, provides(H, &[S])),
                yes(0, remove(H)),
                no(5, provides(H, &[S])),
            ],
        ),
        case("R-1: a load's form", {
            let long = unmet(73);
            vec![
                yes(0, bare(H)),
                no(2, provides(H, &services(0, 9))),
                no(2, replace(H, &[], &long, &[], &[])),
                no(2, replace(H, &[], &[], &long, &[])),
                no(2, replace(H, &[], &[], &[], &long)),
                no(2, replace(H, &[], &[row(&[0xF0; 4], S)], &[], &[])),
                no(10, replace(H, &[], &long[..72], &[], &[])),
                yes(0, provides(H, &services(0, 8))),
            ]
        }),
        case(
            "R-1: a contract that contradicts itself",
            vec![
                yes(0, bare(H)),
                no(3, provides(H, &[S, T, S])),
                no(3, replace(H, &[], &[row(X, S), row(X, S)], &[], &[])),
                no(3, replace(H, &[], &[], &[row(X, S), row(X, S)], &[])),
                no(3, replace(H, &[], &[row(X, S)], &[], &[row(X, S), row(X, S)])),
                no(3, replace(H, &[], &[row(H, S)], &[], &[])),
                no(3, replace(H, &[S], &[], &[row(H, S)], &[])),
                no(3, replace(H, &[], &[row(X, S)], &[], &[row(X, T)])),
                // Since R-2 a grant may come before its service.
                yes(0, replace(H, &[S], &[], &[row(X, T)], &[])),
            ],
        ),
        case("R-1: on a full card, with every service number used, and the same again", {
            let aid = |n: u8| [0xF0, 0, 0, 1, n];
            let mut steps: Vec<Step> = (0..8).map(|n| yes(u32::from(n), bare(&aid(n)))).collect();
            let (old, new) = (services(1, 8), services(2, 8));
            steps.extend([&old, &new, &new, &old].map(|services| yes(3, provides(&aid(3), services))));
            steps.push(no(7, bare(&aid(8))));
            steps.push(no(7, add_service(&aid(3), S, &[])));
            steps
        }),
        case(
            "R-1: the package keeps its number",
            vec![
                yes(0, bare(H)),
                yes(1, bare(C)),
                yes(0, remove(H)),
                yes(1, provides(C, &[S])),
                yes(0, bare(B)),
                yes(1, provides(C, &[])),
            ],
        ),
    ]
}

/// "Services in both contracts keep theirs; dropped ones free theirs, then the others take the lowest unused in record order."
fn services() -> Vec<Case> {
    vec![
        case(
            "R-1: services stay, go and come, in another order",
            vec![
                yes(0, load(H, &[S, T, U], &[], &[row(C, T), row(C, U)], &[])),
                yes(1, load(C, &[], &[row(H, T), row(H, U)], &[], &[row(H, U)])),
                yes(0, replace(H, &[V, U, T], &[], &[row(C, U), row(C, T)], &[])),
                no(9, replace(H, &[T], &[], &[row(C, T)], &[])),
                no(8, update(8, H, C, T)),
                yes(0, replace(H, &[U, S], &[], &[row(C, U)], &[])),
                yes(1, update(6, C, H, T)),
                yes(0, remove_service(H, S)),
            ],
        ),
        case(
            "R-1: calls of two packages on two services that are dropped",
            vec![
                yes(0, load(C, &[], &[row(H, T), row(H, S), row(X, S)], &[], &[])),
                yes(1, load(H, &[S, T], &[row(X, T)], &[row(C, S), row(C, T), row(B, S), row(B, T)], &[])),
                yes(2, load(B, &[], &[row(H, T), row(H, S)], &[], &[])),
                yes(1, replace(H, &[U], &[row(X, U), row(X, T)], &[row(C, S)], &[])),
                no(6, update(5, C, H, T)),
                // They are met again, when they are granted.
                no(8, replace(H, &[S], &[], &[row(C, S)], &[])),
                yes(1, replace(H, &[S, U], &[], &[row(C, S), row(B, S)], &[])),
                no(8, add_service(H, T, &[])),
                yes(1, add_service(H, T, &[C.to_vec(), B.to_vec()])),
            ],
        ),
    ]
}

/// "The package's own list rows and rows now met leave; its unmet calls follow .. its waiting grants follow in record order."
fn rows() -> Vec<Case> {
    vec![
        case(
            "R-1: the old calls, grants and needs are gone",
            vec![
                yes(0, load(H, &[S], &[], &[row(C, S)], &[])),
                yes(1, load(C, &[T], &[row(H, S), row(X, S)], &[row(H, T), row(X, T)], &[row(H, S)])),
                no(9, remove(H)),
                yes(1, provides(C, &[T])),
                no(6, update(6, C, H, S)),
                no(6, update(6, C, X, S)),
                no(6, update(8, C, H, T)),
                no(6, update(8, C, X, T)),
                yes(0, remove(H)),
            ],
        ),
        case(
            "R-1: own rows that stay move behind those of others",
            vec![
                yes(0, load(H, &[], &[row(X, S), row(X, T)], &[row(X, S), row(B, S)], &[])),
                yes(1, load(C, &[], &[row(X, S)], &[row(H, S), row(X, T)], &[])),
                yes(0, replace(H, &[], &[row(X, T), row(X, S)], &[row(B, S), row(X, S)], &[])),
                no(6, update(5, H, X, S)),
                no(6, update(7, H, X, S)),
                // What another gives to the package goes on waiting for its service.
                no(6, update(7, C, H, S)),
                yes(1, add_service(C, S, &[])),
                yes(0, update(5, H, C, S)),
            ],
        ),
        case(
            "R-1: a grant waits as its service goes, and settles as it comes",
            vec![
                yes(0, bare(C)),
                yes(1, load(H, &[S], &[], &[row(C, S), row(C, T), row(X, U)], &[])),
                yes(1, replace(H, &[T], &[], &[row(C, T), row(C, S), row(X, T)], &[])),
                no(6, update(8, H, X, U)),
                yes(0, update(5, C, H, T)),
                no(8, update(8, H, C, T)),
                // Unmet, and granted when it comes.
                yes(0, update(5, C, H, S)),
                yes(1, add_service(H, S, &[])),
                no(8, update(8, H, C, S)),
            ],
        ),
    ]
}

/// "Verdicts follow from the state it leaves": 8 and 9, in this order.
fn causes() -> Vec<Case> {
    vec![
        case(
            "R-1: a met call would stand without its grant",
            vec![
                yes(0, load(H, &[S], &[], &[row(C, S)], &[])),
                yes(1, load(C, &[T], &[row(H, S), row(H, U)], &[], &[])),
                // On a service that stays, on one that comes, and its own.
                no(8, provides(H, &[S])),
                no(8, replace(H, &[S, U], &[], &[row(C, S)], &[])),
                no(8, replace(H, &[S], &[row(C, T)], &[row(C, S)], &[])),
                yes(0, replace(H, &[S, U], &[row(X, T)], &[row(C, S), row(C, U)], &[])),
                yes(1, replace(C, &[T], &[row(H, U)], &[row(H, T)], &[row(H, U)])),
                yes(0, replace(H, &[U], &[row(C, T)], &[row(C, U)], &[row(C, T)])),
            ],
        ),
        case(
            "R-1: a need would be unmet, also with a call ungranted",
            vec![
                yes(0, load(H, &[S, T], &[], &[row(C, S), row(B, S)], &[])),
                yes(1, load(C, &[V], &[row(H, S)], &[], &[row(H, S)])),
                // Another's, its own, and both with a call of its own that is not granted.
                no(9, provides(H, &[T])),
                no(9, replace(H, &[S], &[row(X, S)], &[row(C, S)], &[row(X, S)])),
                no(8, replace(H, &[T], &[row(C, V)], &[], &[])),
                no(8, replace(H, &[S], &[row(X, S)], &[], &[row(X, S)])),
                yes(0, replace(H, &[S], &[], &[row(C, S)], &[])),
                // The need goes with the caller's old contract.
                yes(1, replace(C, &[], &[row(H, S)], &[], &[])),
                yes(0, provides(H, &[T])),
                no(9, replace(C, &[], &[row(H, S)], &[], &[row(H, S)])),
            ],
        ),
    ]
}

/// "A list that would pass 16 on the way and ends at 16 fits."
fn limits() -> Vec<Case> {
    let own = |count: u8| (0..count).map(|method| row(X, (8, method))).collect::<Vec<_>>();
    vec![
        case("R-1: unmet calls pass 16 on the way and end at 16, or at 17", {
            let calls = [unmet(12), vec![row(H, S), row(H, T)]].concat();
            vec![
                yes(0, load(C, &[], &calls, &[], &[])),
                yes(1, load(H, &[S], &own(3), &[row(C, S)], &[])),
                // 13 of C stay, and the call on the service that goes comes to them.
                no(10, replace(H, &[], &own(3), &[], &[])),
                yes(1, replace(H, &[], &own(2), &[], &[])),
                no(10, update(5, C, X, V)),
                // Two of 14 are met.
                no(10, replace(H, &[S, T], &own(5), &[row(C, S), row(C, T)], &[])),
                yes(1, replace(H, &[S, T], &own(4), &[row(C, S), row(C, T)], &[])),
            ]
        }),
        case(
            "R-1: waiting grants pass 16 on the way and end at 16, or at 17",
            vec![
                yes(0, load(C, &[], &[], &strangers(13, T), &[])),
                yes(1, load(H, &[S], &[], &strangers(3, S), &[])),
                no(11, replace(H, &[S], &[], &strangers(4, S), &[])),
                no(10, replace(H, &[S], &unmet(17), &strangers(4, S), &[])),
                yes(1, replace(H, &[T], &[], &strangers(3, T), &[])),
                no(11, update(7, H, X, T)),
                // A grant to an installed package waits too while its service is not there.
                no(11, replace(H, &[T], &[], &[strangers(3, T), vec![row(C, S)]].concat(), &[])),
                yes(1, replace(H, &[S], &[], &[strangers(3, T), vec![row(C, S)]].concat(), &[])),
            ],
        ),
    ]
}

/// Kind 11 by earlier rules, where it is not known, and since.
fn over_the_change() -> Vec<Case> {
    let release = || replace(H, &[T, S], &[row(X, S)], &[row(C, S), row(C, T)], &[]);
    let server = || load(H, &[U, S], &[], &[row(C, S), row(B, S)], &[]);
    let caller = || load(C, &[], &[row(H, S), row(X, S)], &[], &[row(H, S)]);
    vec![
        over(
            "R-1: kind 11 before its rules, and since",
            Rules::R_2,
            vec![vec![no(2, release()), yes(0, server()), yes(1, caller()), no(2, release()), no(2, provides(B, &[]))]],
            vec![
                yes(0, release()),
                no(6, update(8, H, B, S)),
                yes(1, update(5, C, H, T)),
                no(9, replace(H, &[T], &[], &[row(C, T)], &[])),
            ],
        ),
        over(
            "R-1: a card that R-7 left out",
            Rules::DOCUMENT_01,
            vec![vec![yes(0, server()), yes(0, add_service(H, (0, 128), &[])), no(2, release())]],
            vec![no(1, release()), no(1, provides(H, &[]))],
        ),
        over(
            "R-1: a card of document 01's rules goes on over three changes",
            Rules::DOCUMENT_01,
            vec![
                vec![yes(0, server()), no(2, release())],
                vec![no(2, release()), yes(1, caller())],
                vec![no(2, release()), yes(0, update(7, H, C, T))],
            ],
            vec![yes(0, release()), yes(1, provides(C, &[])), yes(0, provides(H, &[]))],
        ),
    ]
}
