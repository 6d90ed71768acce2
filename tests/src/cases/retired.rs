//! R-13, "Needs only with the contract": kinds 9 and 10 retired, and needs that they set before, on cards over the change.

use super::*;
use crate::write::{load, record, remove, remove_service, replace, row as written, update, Tokens};

const S: Tokens = (0, 0);
const T: Tokens = (0, 1);

pub fn cases() -> Vec<Case> {
    [in_force(), over_the_change()].into_iter().flatten().collect()
}

/// A server, and a caller of its two services and of one that is not there.
fn card() -> Vec<Step> {
    vec![
        yes(0, load(H, &[S, T], &[], &[row(C, S), row(C, T)], &[])),
        yes(1, load(C, &[], &[row(H, S), row(H, T), row(X, S)], &[], &[])),
    ]
}

fn then(steps: Vec<Step>, more: Vec<Step>) -> Vec<Step> {
    steps.into_iter().chain(more).collect()
}

/// By the rules in force from the start: "Kinds 9 and 10 are retired and get 2."
fn in_force() -> Vec<Case> {
    let retired = |kind: u8| {
        // Before: 0, 6, 9, 3 and 5 of kind 9, and 6, 6, 6, 3 and 5 of kind 10; of the others 2.
        let records = [
            update(kind, C, H, S),
            update(kind, C, B, T),
            update(kind, C, X, S),
            update(kind, C, C, S),
            update(kind, B, H, S),
            update(kind, C, H, (0, 128)),
            record(kind, &[]),
            record(kind, &[&[5], C]),
            record(kind, &[&[4], &C[..4], &written(H, S)]),
            record(kind, &[&load(C, &[], &[], &[], &[])[4..]]),
        ];
        records.map(|record| no(2, record))
    };
    vec![
        case(
            "R-13: kinds 9 and 10 get 2, whatever the rest of the record is",
            then(card(), [9, 10].into_iter().flat_map(retired).collect()),
        ),
        case(
            "R-13: a need comes with a load, and goes with its call",
            vec![
                yes(0, load(H, &[S], &[], &[row(C, S)], &[])),
                yes(1, load(C, &[], &[row(H, S)], &[], &[row(H, S)])),
                no(2, update(10, C, H, S)),
                no(9, remove(H)),
                yes(1, update(6, C, H, S)),
                yes(0, remove(H)),
            ],
        ),
        case(
            "R-13: a need comes with a whole contract, and goes with the next",
            then(
                card(),
                vec![
                    no(2, update(9, C, H, S)),
                    yes(1, replace(C, &[], &[row(H, S)], &[], &[row(H, S)])),
                    no(9, remove_service(H, S)),
                    yes(0, remove_service(H, T)),
                    yes(1, replace(C, &[], &[row(H, S)], &[], &[])),
                    yes(0, remove_service(H, S)),
                ],
            ),
        ),
    ]
}

/// "Needs set by them stay in force, are read out, and go with their call or with the next whole contract." "Histories from
/// before keep the old kinds up to the change."
fn over_the_change() -> Vec<Case> {
    let needed = || then(card(), vec![yes(1, update(9, C, H, S))]);
    let calls = || [row(H, S), row(X, S)];
    vec![
        over(
            "R-13: kinds 9 and 10 up to the change, and since",
            Rules::R_1,
            vec![then(
                card(),
                vec![
                    no(3, update(9, C, C, S)),
                    no(5, update(9, B, H, S)),
                    no(6, update(9, C, B, T)),
                    no(9, update(9, C, X, S)),
                    yes(1, update(9, C, H, S)),
                    no(6, update(9, C, H, S)),
                    no(9, remove(H)),
                    // Kind 6 takes the need with its call.
                    yes(1, update(6, C, H, S)),
                    no(6, update(10, C, H, S)),
                    no(6, update(9, C, H, S)),
                    yes(1, update(5, C, H, S)),
                    no(6, update(10, C, H, S)),
                    yes(1, update(9, C, H, S)),
                    no(3, update(10, C, C, S)),
                    no(5, update(10, B, H, S)),
                    no(6, update(10, C, H, T)),
                    yes(1, update(10, C, H, S)),
                    no(6, update(10, C, H, S)),
                ],
            )],
            vec![no(2, update(9, C, H, S)), no(2, update(10, C, H, S)), yes(0, remove(H))],
        ),
        over(
            "R-13: a need of before stays in force, and goes with its call",
            Rules::R_1,
            vec![needed()],
            vec![
                no(2, update(9, C, H, S)),
                no(2, update(10, C, H, S)),
                no(9, remove(H)),
                no(9, remove_service(H, S)),
                no(9, replace(H, &[T], &[], &[row(C, T)], &[])),
                yes(0, remove_service(H, T)),
                yes(1, update(6, C, H, S)),
                yes(1, update(5, C, H, S)),
                yes(0, remove(H)),
            ],
        ),
        over(
            "R-13: a need of before goes with the next whole contract",
            Rules::R_1,
            vec![needed()],
            vec![yes(1, replace(C, &[], &calls(), &[], &[])), yes(0, remove_service(H, S)), yes(0, remove(H))],
        ),
        over(
            "R-13: a need of before is in the next whole contract, and goes with the one behind it",
            Rules::R_1,
            vec![needed()],
            vec![
                yes(1, replace(C, &[], &calls(), &[], &[row(H, S)])),
                no(9, remove(H)),
                yes(1, replace(C, &[], &calls(), &[], &[])),
                yes(0, remove(H)),
            ],
        ),
        over(
            "R-13: a need of before goes with its package",
            Rules::R_1,
            vec![needed()],
            vec![no(9, remove(H)), yes(1, remove(C)), yes(1, load(C, &[], &[row(H, S)], &[], &[])), yes(0, remove(H))],
        ),
        over(
            "R-13: a need that kind 9 sets on a card of version 01",
            Rules::R_7,
            vec![needed(), vec![no(9, remove(H)), no(6, update(9, C, H, S))], vec![yes(1, update(9, C, H, T))]],
            vec![
                no(9, remove_service(H, S)),
                no(9, remove_service(H, T)),
                no(2, update(10, C, H, T)),
                yes(1, update(6, C, H, S)),
                no(9, remove(H)),
                yes(1, update(6, C, H, T)),
                yes(0, remove(H)),
            ],
        ),
        over(
            "R-13: needs of kind 9 and of a load by document 01's rules",
            Rules::DOCUMENT_01,
            vec![
                vec![
                    yes(0, load(H, &[S, T], &[], &[row(C, S), row(C, T)], &[])),
                    yes(1, load(C, &[], &[row(H, S), row(H, T)], &[], &[row(H, S)])),
                    yes(1, update(9, C, H, T)),
                ],
                vec![yes(1, update(10, C, H, S))],
            ],
            vec![yes(0, remove_service(H, S)), no(9, remove_service(H, T)), yes(1, remove(C)), yes(0, remove(H))],
        ),
    ]
}
