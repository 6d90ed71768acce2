//! "Misreadings of the report": what an engine that followed its listings would get wrong.

use super::*;
use crate::write::{add_service, load, remove, update};

const S: write::Tokens = (0, 0);

pub fn cases() -> Vec<Case> {
    vec![
        case(
            "adding a service is refused when the grant is missing",
            vec![
                yes(0, load(H, &[], &[], &[], &[])),
                yes(1, load(C, &[], &[row(H, S)], &[], &[])),
                no(8, add_service(H, S, &[B.to_vec()])),
                yes(0, add_service(H, S, &[C.to_vec()])),
            ],
        ),
        case(
            "adding a call is refused when the grant is missing",
            vec![
                yes(0, load(H, &[S], &[], &[row(C, S)], &[])),
                yes(1, load(B, &[], &[], &[], &[])),
                yes(2, load(C, &[], &[], &[], &[])),
                no(8, update(5, B, H, S)),
                yes(2, update(5, C, H, S)),
            ],
        ),
        case(
            "loading a server, the calls of installed packages count",
            vec![
                yes(0, load(C, &[], &[row(H, S)], &[], &[])),
                no(8, load(H, &[S], &[], &[], &[])),
                yes(1, load(H, &[S], &[], &[row(C, S)], &[])),
            ],
        ),
        case(
            "grants to a removed package wait",
            vec![
                yes(0, load(H, &[S], &[], &[row(C, S)], &[])),
                yes(1, load(C, &[], &[row(H, S)], &[], &[])),
                yes(1, remove(C)),
                yes(1, load(C, &[], &[row(H, S)], &[], &[])),
                yes(1, remove(C)),
                yes(0, update(8, H, C, S)),
            ],
        ),
        case("a row is not left behind by a refusal", {
            let grants: Vec<write::Row> = (0..17).map(|n| row(&[0xF3, 0, 0, 0, n], S)).collect();
            vec![
                no(11, load(H, &[S], &unmet(16), &grants, &[])),
                yes(0, load(C, &[], &unmet(16), &[], &[])),
                yes(1, load(H, &[S], &[], &grants[..16], &[])),
            ]
        }),
    ]
}
