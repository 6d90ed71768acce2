//! R-3, "Load conditions in the report's order": the three conditions of the report's definition 7.1 for a newcomer, B.

use super::*;
use crate::conditions::Conditions;
use crate::write::{load, Row, Tokens};

const S: Tokens = (0, 0);
const T: Tokens = (0, 1);

pub fn cases() -> Vec<Case> {
    [combinations(), readings(), limits()].into_iter().flatten().collect()
}

/// A server that grants B one of its two services, and a caller of B's.
fn card() -> Vec<Step> {
    vec![yes(0, load(H, &[S, T], &[], &[row(B, S)], &[])), yes(1, load(C, &[], &[row(B, S)], &[], &[]))]
}

/// B, for which these conditions hold on that card. It calls a service that is granted and one that is absent.
fn newcomer(conditions: Conditions) -> Vec<u8> {
    let (mut calls, mut grants, mut needs) = (vec![row(H, S), row(X, S)], vec![row(C, S)], vec![row(H, S)]);
    if !conditions.rights {
        calls.push(row(H, T));
    }
    if !conditions.needs {
        needs.push(row(X, S));
    }
    if !conditions.others {
        grants.clear();
    }
    load(B, &[S], &calls, &grants, &needs)
}

/// "8 comes exactly when the first or third fails, and 9 exactly when the second alone does." A refusal leaves nothing behind.
fn combinations() -> Vec<Case> {
    let names = [
        ("R-3: all three conditions hold", 0),
        ("R-3: the first condition fails", 8),
        ("R-3: the second fails alone", 9),
        ("R-3: the third fails", 8),
        ("R-3: the first and the second fail", 8),
        ("R-3: the first and the third fail", 8),
        ("R-3: the second and the third fail: the third is worked all the same", 8),
        ("R-3: all three fail", 8),
    ];
    let case = |((name, answer), conditions)| {
        let accepted = yes(2, newcomer(Conditions::ALL[0]));
        let refused = (answer > 0).then(|| no(answer, newcomer(conditions)));
        case(name, card().into_iter().chain(refused).chain([accepted]).collect())
    };
    names.into_iter().zip(Conditions::ALL).map(case).collect()
}

/// What the definition says, where the report's text or its listings say something else, or where it can be misread.
fn readings() -> Vec<Case> {
    vec![
        case(
            "R-3: a grant of a service that the newcomer does not call, or that is not provided",
            vec![
                yes(0, load(H, &[S, T], &[], &[row(B, S), row(B, T), row(B, (9, 9))], &[])),
                yes(1, load(B, &[], &[row(H, S)], &[], &[])),
            ],
        ),
        case(
            "R-3: the newcomer's grant of a service that is not called",
            vec![
                yes(0, load(C, &[], &[row(B, S)], &[], &[])),
                yes(1, load(B, &[S, T], &[], &[row(C, S), row(C, T)], &[])),
            ],
        ),
        case(
            "R-3: a call on an absent service asks for nothing, whether its package is there or not",
            vec![yes(0, load(H, &[S], &[], &[], &[])), yes(1, load(B, &[], &[row(H, T), row(X, S)], &[], &[]))],
        ),
        case(
            "R-3: each service that is called is to be granted, by its own package",
            vec![
                yes(0, load(H, &[S, T], &[], &[row(B, S)], &[])),
                yes(1, load(C, &[T], &[], &[row(B, T)], &[])),
                no(8, load(B, &[], &[row(H, S), row(H, T)], &[], &[])),
                no(8, load(B, &[], &[row(H, T), row(C, T)], &[], &[])),
                yes(2, load(B, &[], &[row(H, S), row(C, T)], &[], &[])),
            ],
        ),
        case("R-3: the newcomer is to grant each service that is called, to each caller", {
            let calls = [row(B, S), row(B, T)];
            vec![
                yes(0, load(H, &[], &calls, &[], &[])),
                yes(1, load(C, &[], &calls[..1], &[], &[])),
                no(8, load(B, &[S, T], &[], &[row(H, S), row(C, S), row(C, T)], &[])),
                no(8, load(B, &[S, T], &[], &[row(H, S), row(H, T)], &[])),
                yes(2, load(B, &[S, T], &[], &[row(H, S), row(H, T), row(C, S)], &[])),
            ]
        }),
        case(
            "R-3: a need is met by the service of its own package alone",
            vec![
                yes(0, load(H, &[S], &[], &[row(B, S)], &[])),
                yes(1, load(C, &[], &[], &[], &[])),
                no(9, load(B, &[S], &[row(H, S), row(C, S)], &[], &[row(C, S)])),
                yes(2, load(B, &[S], &[row(H, S), row(C, S)], &[], &[row(H, S)])),
            ],
        ),
    ]
}

/// A list that would run over is looked at where all three hold.
fn limits() -> Vec<Case> {
    let strangers: Vec<Row> = (0..17).map(|n| row(&[0xEE, 0, 0, 0, n], S)).collect();
    let with = |more: Row, rows: &[Row]| [&[more], rows].concat();
    let caller = || yes(0, load(C, &[], &[row(B, S)], &[], &[]));
    let granted = with(row(C, S), &strangers);
    vec![
        case(
            "R-3: all three hold, and the unmet calls run over",
            vec![
                caller(),
                no(10, load(B, &[S], &unmet(17), &granted, &[])),
                yes(1, load(B, &[S], &unmet(16), &granted[..17], &[])),
            ],
        ),
        case(
            "R-3: all three hold, and the waiting grants run over",
            vec![
                caller(),
                no(11, load(B, &[S], &unmet(16), &granted, &[])),
                yes(1, load(B, &[S], &unmet(16), &granted[..17], &[])),
            ],
        ),
        case(
            "R-3: the third fails, and a list would run over",
            vec![
                caller(),
                no(8, load(B, &[S], &unmet(17), &[], &[])),
                no(8, load(B, &[S], &[], &strangers, &[])),
                no(8, load(B, &[S], &unmet(17), &strangers, &unmet(1))),
            ],
        ),
        case(
            "R-3: the second fails alone, and a list would run over",
            vec![caller(), no(9, load(B, &[S], &unmet(17), &granted, &unmet(1)))],
        ),
    ]
}
