//! R-7, "Method tokens stop at 127": every place where tokens can stand, at 127 and at 128, and cards over the change.
//! Interface tokens stay 0 to 255.

use super::*;
use crate::write::{add_service, contract, load, remove, remove_service, update, Row, Tokens};

/// The highest tokens, and the first whose method is too high.
const LAST: Tokens = (255, 127);
const PAST: Tokens = (255, 128);
const HIGHEST: Tokens = (0, 255);

pub fn cases() -> Vec<Case> {
    let loads = [
        "R-7: provided by a load, 127 and 128",
        "R-7: called by a load, 127 and 128",
        "R-7: granted by a load, 127 and 128",
        "R-7: needed by a load, 127 and 128",
    ];
    let replaced = [
        "R-7: provided by kind 11, 127 and 128",
        "R-7: called by kind 11, 127 and 128",
        "R-7: granted by kind 11, 127 and 128",
        "R-7: needed by kind 11, 127 and 128",
    ];
    let contracts = [in_contracts(1, loads), in_contracts(11, replaced)];
    contracts.into_iter().chain([in_updates(), over_the_change()]).flatten().collect()
}

/// The four lists of a whole contract: of a load, or of kind 11, which finds its package there. The other rows of the record
/// are right.
fn in_contracts(kind: u8, names: [&'static str; 4]) -> Vec<Case> {
    let whole = |own: &[u8], provides: &[Tokens], calls: &[Row], grants: &[Row], needs: &[Row]| {
        contract(kind, own, provides, calls, grants, needs)
    };
    let bare = |number, own| yes(number, load(own, &[], &[], &[], &[]));
    let begun = || if kind == 11 { vec![bare(0, H), bare(1, C)] } else { Vec::new() };
    let steps = [
        vec![
            no(2, whole(H, &[PAST], &[], &[], &[])),
            no(2, whole(H, &[(0, 0), HIGHEST], &[], &[], &[])),
            yes(0, whole(H, &[(0, 0), LAST], &[], &[], &[])),
        ],
        vec![
            no(2, whole(H, &[], &[row(X, PAST)], &[], &[])),
            no(2, whole(H, &[], &[row(X, LAST), row(X, HIGHEST)], &[], &[])),
            yes(0, whole(H, &[], &[row(X, LAST)], &[], &[])),
        ],
        vec![
            no(2, whole(H, &[LAST], &[], &[row(X, PAST)], &[])),
            no(2, whole(H, &[LAST], &[], &[row(C, LAST), row(X, HIGHEST)], &[])),
            yes(0, whole(H, &[LAST], &[], &[row(C, LAST), row(X, LAST)], &[])),
        ],
        vec![
            yes(0, whole(H, &[LAST], &[], &[row(C, LAST)], &[])),
            no(2, whole(C, &[], &[row(H, LAST)], &[], &[row(H, PAST)])),
            no(2, whole(C, &[], &[row(H, LAST)], &[], &[row(H, LAST), row(H, HIGHEST)])),
            yes(1, whole(C, &[], &[row(H, LAST)], &[], &[row(H, LAST)])),
            no(9, remove(H)),
        ],
    ];
    let cases = names.into_iter().zip(steps);
    cases.map(|(name, steps)| case(name, begun().into_iter().chain(steps).collect())).collect()
}

/// Kinds 3 to 10, each accepted at 127.
fn in_updates() -> Vec<Case> {
    // A server whose service is granted, and a caller of it and of one that is not there.
    let card = || {
        let calls = [row(H, LAST), row(X, LAST)];
        vec![
            yes(0, load(H, &[LAST], &[], &[row(C, LAST), row(X, LAST)], &[])),
            yes(1, load(C, &[], &calls, &[], &[row(H, LAST)])),
        ]
    };
    let after = |steps: Vec<Step>| card().into_iter().chain(steps).collect();
    let both = |kind: u8, own: &[u8], other: &[u8]| {
        vec![no(2, update(kind, own, other, PAST)), no(2, update(kind, own, other, HIGHEST))]
    };
    let then = |mut steps: Vec<Step>, last: Step| {
        steps.push(last);
        steps
    };
    vec![
        case(
            "R-7: kind 3, 127 and 128",
            after(vec![
                no(2, add_service(H, PAST, &[])),
                no(2, add_service(H, HIGHEST, &[C.to_vec()])),
                yes(0, add_service(H, (0, 127), &[C.to_vec()])),
            ]),
        ),
        case(
            "R-7: kind 4, 127 and 128",
            vec![
                yes(0, load(H, &[LAST], &[], &[row(C, LAST)], &[])),
                no(2, remove_service(H, PAST)),
                no(2, remove_service(H, HIGHEST)),
                yes(0, remove_service(H, LAST)),
            ],
        ),
        case("R-7: kind 5, 127 and 128", after(then(both(5, C, X), yes(1, update(5, C, X, (0, 127)))))),
        case("R-7: kind 6, 127 and 128", after(then(both(6, C, X), yes(1, update(6, C, X, LAST))))),
        case("R-7: kind 7, 127 and 128", after(then(both(7, H, B), yes(0, update(7, H, B, LAST))))),
        case("R-7: kind 8, 127 and 128", after(then(both(8, H, X), yes(0, update(8, H, X, LAST))))),
        before_r_13("R-7: kind 9, 127 and 128", {
            let mut steps = then(both(9, C, H), yes(1, update(10, C, H, LAST)));
            steps.push(yes(1, update(9, C, H, LAST)));
            after(steps)
        }),
        before_r_13("R-7: kind 10, 127 and 128", after(then(both(10, C, H), yes(1, update(10, C, H, LAST))))),
        case(
            "R-7: a method past 127 comes before every other cause of the record and the card",
            after(vec![
                // With 127 they get 3, 3, 4, 5 and 6.
                no(2, update(5, H, H, PAST)),
                no(2, load(B, &[PAST, PAST], &[], &[], &[])),
                no(2, load(H, &[PAST], &[], &[], &[])),
                no(2, update(5, B, X, PAST)),
                no(2, update(6, C, X, (1, 128))),
                no(3, update(5, H, H, LAST)),
                no(3, load(B, &[LAST, LAST], &[], &[], &[])),
                no(4, load(H, &[LAST], &[], &[], &[])),
                no(5, update(5, B, X, LAST)),
                no(6, update(6, C, X, (1, 127))),
            ]),
        ),
    ]
}

/// Cards of document 01's rules at the change. One that still holds a method past 127 is unsound from then on.
fn over_the_change() -> Vec<Case> {
    let server = |tokens: Tokens| load(H, &[tokens], &[], &[row(C, tokens), row(X, tokens)], &[]);
    let caller = |tokens: Tokens| load(C, &[], &[row(H, tokens)], &[], &[]);
    // Records of every sort: none is judged, and none takes the token off the card.
    let all_refused = || {
        let mut records = vec![load(B, &[], &[], &[], &[]), remove(H), remove(C), remove(B)];
        records.extend([add_service(H, (0, 0), &[]), remove_service(H, PAST), remove_service(H, (0, 0))]);
        records.extend((5..=10).flat_map(|kind| [update(kind, H, C, PAST), update(kind, C, H, (0, 0))]));
        records.extend([Vec::new(), vec![0], load(&[0xF1; 4], &[], &[], &[], &[])]);
        records.into_iter().map(|record| no(1, record)).collect::<Vec<_>>()
    };
    vec![
        over_r_7("R-7: a card that provides 128 at the change", vec![yes(0, server(PAST))], all_refused()),
        over_r_7("R-7: a card with an unmet call of 128 at the change", vec![yes(0, caller(PAST))], all_refused()),
        over_r_7(
            "R-7: a card that provides 128, which is called, and 255, which is not, at the change",
            vec![yes(0, server(PAST)), yes(1, caller(PAST)), yes(1, add_service(C, HIGHEST, &[]))],
            all_refused(),
        ),
        over_r_7(
            "R-7: 128 and 255 are taken off the card before the change",
            vec![
                yes(0, server(PAST)),
                yes(1, caller(PAST)),
                yes(1, update(5, C, X, HIGHEST)),
                yes(1, update(6, C, X, HIGHEST)),
                yes(1, update(6, C, H, PAST)),
                yes(0, remove_service(H, PAST)),
            ],
            vec![
                no(2, add_service(H, PAST, &[])),
                yes(0, add_service(H, LAST, &[C.to_vec()])),
                yes(1, update(5, C, H, LAST)),
                yes(1, remove(C)),
            ],
        ),
        over_r_7(
            "R-7: a package with 128 is removed before the change",
            vec![yes(0, server(PAST)), yes(1, load(B, &[], &[], &[], &[])), yes(0, remove(H))],
            vec![no(2, server(PAST)), yes(0, server(LAST)), yes(1, remove(B))],
        ),
        over_r_7(
            "R-7: a card that holds 127 goes on over the change",
            vec![yes(0, server(LAST)), yes(1, caller(LAST)), yes(1, update(5, C, X, LAST))],
            vec![
                yes(1, contract(11, C, &[], &[row(H, LAST), row(X, LAST)], &[], &[row(H, LAST)])),
                no(9, remove(H)),
                no(2, update(5, C, X, PAST)),
                yes(1, remove(C)),
                yes(0, remove_service(H, LAST)),
            ],
        ),
        over_r_7(
            "R-7: what is refused before the change leaves no token",
            vec![yes(0, load(H, &[(0, 0)], &[], &[], &[])), no(8, load(C, &[PAST], &[row(H, (0, 0))], &[], &[]))],
            vec![yes(1, load(C, &[LAST], &[], &[], &[]))],
        ),
    ]
}

/// A case of kinds 9 and 10, by the last rules that have them; by those in force both get 2.
fn before_r_13(name: &'static str, before: Vec<Step>) -> Case {
    let retired = |kind: u8| [LAST, PAST].map(|tokens| no(2, update(kind, C, H, tokens)));
    over(name, Rules::R_1, vec![before], [9, 10].into_iter().flat_map(retired).collect())
}

/// A case over R-7's change, and at once over those since.
fn over_r_7(name: &'static str, before: Vec<Step>, steps: Vec<Step>) -> Case {
    over(name, Rules::DOCUMENT_01, vec![before], steps)
}
