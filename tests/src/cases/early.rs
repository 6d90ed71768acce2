//! R-2, "Grants given before the service exists": grants that wait for their service, and cards over the conversion.

use super::*;
use crate::write::{add_service, load, remove, remove_service, replace, update, Tokens};

const S: Tokens = (0, 0);
const T: Tokens = (0, 1);
/// A service that nobody provides.
const NEVER: Tokens = (9, 127);

pub fn cases() -> Vec<Case> {
    [given_early(), services(), loads(), limits(), over_the_conversion()].into_iter().flatten().collect()
}

/// A package that has nothing.
fn bare(aid: &[u8]) -> Vec<u8> {
    load(aid, &[], &[], &[], &[])
}

/// A package that calls services of H.
fn caller(aid: &[u8], services: &[Tokens]) -> Vec<u8> {
    let calls: Vec<_> = services.iter().map(|tokens| row(H, *tokens)).collect();
    load(aid, &[], &calls, &[], &[])
}

/// The contract of a package that calls services of H and needs the last of them.
fn needing(aid: &[u8], services: &[Tokens]) -> Vec<u8> {
    let calls: Vec<_> = services.iter().map(|tokens| row(H, *tokens)).collect();
    replace(aid, &[], &calls, &[], &calls[calls.len() - 1..])
}

/// So many AIDs that are never installed.
fn strangers(count: u8) -> Vec<Vec<u8>> {
    (0..count).map(|n| vec![0xEE, 0, 0, 0, n]).collect()
}

/// A grant of the service to each.
fn grants(callers: &[Vec<u8>], tokens: Tokens) -> Vec<write::Row> {
    callers.iter().map(|caller| row(caller, tokens)).collect()
}

/// "A grant may name a service its package does not yet provide": kinds 1, 7 and 8.
fn given_early() -> Vec<Case> {
    vec![
        case(
            "R-2: a load grants a service that it does not provide",
            vec![
                yes(0, load(H, &[S], &[], &[row(C, T), row(C, S)], &[])),
                no(3, load(B, &[], &[], &[row(C, T), row(C, T)], &[])),
                no(3, load(B, &[], &[], &[row(B, T)], &[])),
                no(6, update(7, H, C, T)),
                yes(0, update(8, H, C, T)),
            ],
        ),
        case(
            "R-2: kind 7 for a service not provided",
            vec![
                yes(0, bare(H)),
                yes(1, bare(C)),
                yes(0, update(7, H, C, S)),
                no(6, update(7, H, C, S)),
                yes(0, update(7, H, X, S)),
                no(6, update(7, H, X, S)),
                no(3, update(7, H, H, S)),
            ],
        ),
        case(
            "R-2: kind 8 for a service not provided, to an installed caller and to another",
            vec![
                yes(0, load(H, &[], &[], &[row(C, S), row(X, S)], &[])),
                yes(1, bare(C)),
                no(6, update(8, H, C, T)),
                no(6, update(8, H, B, S)),
                yes(0, update(8, H, C, S)),
                no(6, update(8, H, C, S)),
                yes(0, update(8, H, X, S)),
                no(6, update(8, H, X, S)),
            ],
        ),
        case(
            "R-2: a grant of a service not provided lets nobody call it before it comes",
            vec![
                yes(0, load(H, &[], &[], &[row(C, S)], &[])),
                // Unmet, and it cannot be needed.
                yes(1, caller(C, &[S])),
                no(9, needing(C, &[S])),
                yes(0, add_service(H, S, &[])),
                yes(1, needing(C, &[S])),
                no(8, update(8, H, C, S)),
            ],
        ),
    ]
}

/// "Kind 4 keeps the grants"; "Kind 3 takes once a grant that is in both places".
fn services() -> Vec<Case> {
    vec![
        case(
            "R-2: a service comes after its grants, without callers of its own",
            vec![
                yes(0, bare(H)),
                yes(1, caller(C, &[S])),
                no(8, add_service(H, S, &[])),
                yes(0, update(7, H, C, S)),
                yes(0, add_service(H, S, &[])),
                no(6, update(7, H, C, S)),
                no(6, update(5, C, H, S)),
            ],
        ),
        case(
            "R-2: a service comes after its grants, with callers of its own",
            vec![
                yes(0, load(H, &[], &[], &[row(C, S), row(X, S)], &[])),
                yes(1, caller(C, &[S])),
                yes(2, caller(B, &[S])),
                no(8, add_service(H, S, &[X.to_vec()])),
                yes(0, add_service(H, S, &[B.to_vec(), C.to_vec(), X.to_vec()])),
                // Each was taken once.
                no(8, update(8, H, C, S)),
                yes(1, update(6, C, H, S)),
                yes(0, update(8, H, C, S)),
                no(6, update(8, H, C, S)),
                yes(0, update(8, H, X, S)),
                no(6, update(8, H, X, S)),
            ],
        ),
        case(
            "R-2: a service goes and comes again, and its grants hold",
            vec![
                yes(0, load(H, &[S, T], &[], &[row(C, S), row(X, S)], &[])),
                yes(1, caller(C, &[S])),
                yes(0, remove_service(H, S)),
                no(6, update(7, H, C, S)),
                no(6, update(7, H, X, S)),
                yes(0, add_service(H, S, &[])),
                no(6, update(5, C, H, S)),
                yes(0, remove_service(H, S)),
                yes(0, update(8, H, C, S)),
                no(8, add_service(H, S, &[])),
            ],
        ),
        case(
            "R-2: a removed package's own grants go with it",
            vec![
                yes(0, load(H, &[], &[], &[row(C, S)], &[])),
                yes(1, caller(C, &[S])),
                yes(0, remove(H)),
                no(8, load(H, &[S], &[], &[], &[])),
                yes(0, bare(H)),
                no(6, update(8, H, C, S)),
            ],
        ),
    ]
}

/// "A load or added service turns waiting grants into bits."
fn loads() -> Vec<Case> {
    vec![
        case(
            "R-2: a load settles what is provided, and leaves the rest waiting",
            vec![
                yes(0, load(H, &[S], &[], &[row(C, S), row(C, T)], &[])),
                no(8, caller(B, &[S])),
                yes(1, caller(C, &[S, T])),
                no(8, update(8, H, C, S)),
                no(6, update(7, H, C, T)),
                yes(0, update(8, H, C, T)),
                no(8, add_service(H, T, &[])),
                yes(0, add_service(H, T, &[C.to_vec()])),
            ],
        ),
        case(
            "R-2: a removed package's grants wait again, the early ones as before",
            vec![
                yes(0, load(H, &[S], &[], &[row(C, T), row(C, S)], &[])),
                yes(1, caller(C, &[S])),
                yes(1, remove(C)),
                yes(0, add_service(H, T, &[])),
                yes(1, caller(C, &[S, T])),
                no(8, update(8, H, C, T)),
                no(8, update(8, H, C, S)),
            ],
        ),
        case(
            "R-2: a load's own early grant does not let an unmet call be met",
            vec![
                yes(0, caller(C, &[S, T])),
                no(8, load(H, &[S, T], &[], &[row(C, S), row(C, NEVER)], &[])),
                yes(1, load(H, &[S], &[], &[row(C, S), row(C, T)], &[])),
                yes(1, add_service(H, T, &[])),
                yes(0, needing(C, &[S, T])),
                no(9, remove_service(H, T)),
            ],
        ),
    ]
}

/// "More than 16 waiting grants afterwards", with rows that wait for their service.
fn limits() -> Vec<Case> {
    vec![
        case(
            "R-2: a 17th waiting grant, of a service not provided",
            vec![
                no(11, load(H, &[], &[], &grants(&strangers(17), S), &[])),
                yes(0, load(H, &[], &[], &grants(&strangers(16), S), &[])),
                yes(1, bare(C)),
                no(11, update(7, H, C, T)),
                no(11, update(7, H, X, T)),
                // Nobody waits more: the grants are there already.
                yes(0, add_service(H, S, &strangers(16))),
                no(11, add_service(H, T, &[X.to_vec()])),
                yes(0, add_service(H, T, &[C.to_vec()])),
            ],
        ),
        case("R-2: kind 4 would make a 17th waiting grant", {
            let early = [grants(&strangers(15), T), vec![row(C, S), row(B, S)]].concat();
            vec![
                yes(0, bare(C)),
                yes(1, bare(B)),
                yes(2, load(H, &[S], &[], &early, &[])),
                no(11, remove_service(H, S)),
                yes(2, update(8, H, &strangers(1)[0], T)),
                yes(2, remove_service(H, S)),
                no(11, update(7, H, X, S)),
            ]
        }),
        case("R-2: with 16 waiting, a service that settles one and adds one", {
            let mut early = grants(&strangers(15), T);
            early.push(row(C, S));
            vec![
                yes(0, bare(C)),
                yes(1, load(H, &[], &[], &early, &[])),
                no(11, add_service(H, S, &[X.to_vec(), B.to_vec()])),
                yes(1, add_service(H, S, &[X.to_vec()])),
                no(11, update(7, H, B, S)),
            ]
        }),
    ]
}

/// Records by R-7's rules, the conversion, and records since; or by document 01's rules, R-7's, and since.
fn over_the_conversion() -> Vec<Case> {
    let server = || load(H, &[S, T], &[row(X, NEVER)], &[row(X, T), row(C, S), row(B, T)], &[]);
    vec![
        over(
            "R-2: a card goes on over the conversion",
            Rules::R_7,
            vec![vec![
                no(3, load(C, &[], &[], &[row(B, S)], &[])),
                yes(0, server()),
                yes(1, caller(C, &[S])),
                no(6, update(7, H, C, NEVER)),
                yes(0, add_service(H, NEVER, &[B.to_vec()])),
                yes(0, remove_service(H, NEVER)),
            ]],
            vec![
                // What kind 4 took out before is gone.
                no(6, update(8, H, B, NEVER)),
                yes(0, update(7, H, C, NEVER)),
                yes(2, caller(B, &[T])),
                yes(0, remove_service(H, S)),
                no(6, update(7, H, C, S)),
                yes(0, add_service(H, S, &[])),
                no(8, update(8, H, C, S)),
                yes(0, remove(H)),
            ],
        ),
        over(
            "R-2: an empty card is converted",
            Rules::R_7,
            vec![Vec::new()],
            vec![no(5, remove(H)), yes(0, load(H, &[], &[], &[row(C, S)], &[]))],
        ),
        over(
            "R-2: a full list is converted in order, and stays full",
            Rules::R_7,
            vec![vec![
                yes(
                    0,
                    load(H, &[S, T], &unmet(16), &[grants(&strangers(8), T), grants(&strangers(8), S)].concat(), &[]),
                ),
                no(11, update(7, H, X, S)),
            ]],
            vec![
                no(11, update(7, H, X, NEVER)),
                no(10, update(5, H, X, NEVER)),
                yes(0, update(8, H, &strangers(1)[0], T)),
                yes(0, update(7, H, X, NEVER)),
                yes(0, remove_service(H, T)),
                yes(0, add_service(H, T, &strangers(8)[1..])),
                no(11, add_service(H, (5, 5), &strangers(1))),
            ],
        ),
        over(
            "R-2: a card of document 01's rules goes on over both changes",
            Rules::DOCUMENT_01,
            vec![
                vec![yes(0, server()), yes(0, add_service(H, (0, 128), &[])), yes(0, remove_service(H, (0, 128)))],
                vec![no(2, add_service(H, (0, 128), &[])), yes(1, caller(C, &[S])), no(6, update(7, H, C, NEVER))],
            ],
            vec![no(2, update(7, H, C, (0, 128))), yes(0, update(7, H, C, NEVER)), yes(1, remove(C))],
        ),
        over(
            "R-2: a card that R-7 left out is not converted",
            Rules::DOCUMENT_01,
            vec![
                vec![yes(0, load(H, &[(0, 128)], &[], &[], &[]))],
                vec![no(1, remove(H)), no(1, remove_service(H, (0, 128)))],
            ],
            vec![no(1, remove(H)), no(1, update(7, H, C, S)), no(1, Vec::new())],
        ),
    ]
}
