//! R-9, "A card with sixteen packages": the large card's limits and records, and cards over its converter.

use super::*;
use crate::rules::Sizes;
use crate::write::{load, remove, remove_service, update, Row, Tokens, Writer};

/// Writes the large card's records. The functions of the same names write the small card's.
const L: Writer = Writer(&Sizes::LARGE);
const S: Tokens = (0, 0);
const T: Tokens = (0, 1);

pub fn cases() -> Vec<Case> {
    [limits(), counts(), versions(), high_bits(), over_the_conversion()].into_iter().flatten().collect()
}

fn package(n: u8) -> [u8; 5] {
    [0xF0, 0, 0, 1, n]
}

/// A package that has nothing, on the large card.
fn bare(aid: &[u8]) -> Vec<u8> {
    L.load(aid, &[], &[], &[], &[])
}

fn services(count: u8) -> Vec<Tokens> {
    (0..count).map(|method| (1, method)).collect()
}

/// So many rows on different services of the AID that is never installed.
fn rows(count: u16) -> Vec<Row> {
    (0..count).map(|n| row(X, ((n >> 7) as u8, (n & 127) as u8))).collect()
}

/// So many AIDs that are never installed.
fn strangers(count: u8) -> Vec<Vec<u8>> {
    (0..count).map(|n| vec![0xEE, 0, 0, 0, n]).collect()
}

/// "16 packages of 16 services", "32 rows in each list".
fn limits() -> Vec<Case> {
    vec![
        on_large("R-9: a 17th package", {
            let mut steps: Vec<Step> = (0..16).map(|n| yes(u32::from(n), bare(&package(n)))).collect();
            steps.extend([no(7, bare(&package(16))), yes(9, L.remove(&package(9))), yes(9, bare(&package(16)))]);
            steps
        }),
        on_large(
            "R-9: 17 services",
            vec![
                no(2, L.load(H, &services(17), &[], &[], &[])),
                yes(0, L.load(H, &services(16), &[], &[], &[])),
                no(2, L.replace(H, &services(17), &[], &[], &[])),
                no(7, L.add_service(H, S, &[])),
                yes(0, L.remove_service(H, (1, 12))),
                yes(0, L.add_service(H, S, &[])),
                no(7, L.add_service(H, T, &[])),
            ],
        ),
        on_large(
            "R-9: a 33rd unmet call",
            vec![
                no(10, L.load(H, &[], &rows(33), &[], &[])),
                yes(0, L.load(H, &[], &rows(32), &[], &[])),
                no(10, L.update(5, H, X, (7, 7))),
                yes(0, L.update(6, H, X, S)),
                yes(0, L.update(5, H, X, (7, 7))),
            ],
        ),
        on_large(
            "R-9: a 33rd waiting grant",
            vec![
                no(11, L.load(H, &[], &[], &rows(33), &[])),
                yes(0, L.load(H, &[], &[], &rows(32), &[])),
                no(11, L.update(7, H, X, (7, 7))),
                yes(0, L.update(8, H, X, S)),
                yes(0, L.update(7, H, X, (7, 7))),
            ],
        ),
        on_large(
            "R-9: a service with 32 callers, and with 33",
            vec![
                yes(0, bare(H)),
                no(2, L.add_service(H, S, &strangers(33))),
                yes(0, L.add_service(H, S, &strangers(32))),
                no(11, L.add_service(H, T, &strangers(1))),
            ],
        ),
        on_large("R-9: with 32 unmet calls standing, a granted load that meets one and adds one", {
            let calls = [rows(31), vec![row(H, S)]].concat();
            vec![
                yes(0, L.load(C, &[], &calls, &[], &[])),
                yes(1, L.load(H, &[S], &[row(X, (9, 9))], &[row(C, S)], &[])),
                no(10, L.update(5, H, X, (9, 8))),
            ]
        }),
        on_large("R-9: removing a server whose callers' calls would make 33 unmet", {
            let calls = |more: u16| [rows(more), vec![row(H, S)]].concat();
            vec![
                yes(0, L.load(H, &[S], &[], &[row(C, S), row(B, S)], &[])),
                yes(1, L.load(C, &[], &calls(16), &[], &[])),
                yes(2, L.load(B, &[], &calls(15), &[], &[])),
                no(10, L.remove(H)),
                yes(2, L.update(6, B, X, S)),
                yes(0, L.remove(H)),
            ]
        }),
    ]
}

/// "Two-byte counts, big-endian too and up to 272, for calls, grants and needs alone."
fn counts() -> Vec<Case> {
    // What a whole contract with so many rows in a list gets; nothing of it fits.
    let lists = |kind: u8| {
        let whole = move |calls: u16, grants: u16, needs: u16| {
            L.contract(kind, H, &[], &rows(calls), &rows(grants), &rows(needs))
        };
        let read = [255, 256, 272].into_iter();
        let of_each = read.flat_map(move |count| {
            [no(10, whole(count, 0, 0)), no(11, whole(0, count, 0)), no(9, whole(272, 0, count))]
        });
        of_each.chain([no(2, whole(273, 0, 0)), no(2, whole(0, 273, 0)), no(2, whole(272, 0, 273))])
    };
    let head = [&[5], H, &[0]].concat();
    let one_row = [&[5], X, &[0, 0]].concat();
    let lists_of = |counts: [[u8; 2]; 3]| {
        let [calls, grants, needs] = counts;
        L.record(1, &[&head, &calls, &one_row, &grants, &needs])
    };
    vec![
        on_large("R-9: loads with 255, 256, 272 and 273 rows in each list", lists(1).collect()),
        on_large(
            "R-9: whole contracts with 255, 256, 272 and 273 rows in each list",
            [yes(0, bare(H))].into_iter().chain(lists(11)).collect(),
        ),
        on_large(
            "R-9: counts whose bytes stand the other way round, or lack",
            vec![
                no(2, lists_of([[1, 0], [0, 0], [0, 0]])),
                no(2, lists_of([[0, 1], [1, 0], [0, 0]])),
                no(2, lists_of([[0, 1], [0, 0], [1, 0]])),
                no(2, lists_of([[1, 1], [0, 0], [0, 0]])),
                no(2, L.record(1, &[&head, &[0, 0, 0]])),
                no(2, L.record(1, &[&head, &[0, 0, 0, 0, 0]])),
                yes(0, lists_of([[0, 1], [0, 0], [0, 0]])),
            ],
        ),
    ]
}

/// One record of each kind that is read, as a card's writer has it.
fn every_kind(card: Writer) -> Vec<Vec<u8>> {
    let mut records = vec![
        card.load(B, &[], &[], &[], &[]),
        card.remove(H),
        card.add_service(H, T, &[C.to_vec()]),
        card.remove_service(H, S),
        card.replace(H, &[S], &[], &[row(C, S)], &[]),
    ];
    records.extend((5..=8).map(|kind| card.update(kind, C, H, S)));
    records
}

/// "A record of the other card's version gets 2."
fn versions() -> Vec<Case> {
    let card = |writer: Writer| {
        vec![yes(0, writer.load(H, &[S], &[], &[row(C, S)], &[])), yes(1, writer.load(C, &[], &[row(H, S)], &[], &[]))]
    };
    let small = Writer(&Sizes::SMALL);
    let refused = |records: Vec<Vec<u8>>| records.into_iter().map(|record| no(2, record)).collect::<Vec<_>>();
    let versions = [0, 3, 255].map(|version| {
        let mut record = L.remove(C);
        record[2] = version;
        no(2, record)
    });
    vec![
        case("R-9: the large card's records on the small card", [card(small), refused(every_kind(L))].concat()),
        on_large(
            "R-9: the small card's records, and those of no card, on the large card",
            [card(L), refused(every_kind(small)), versions.to_vec()].concat(),
        ),
    ]
}

/// "A used field and table entries of two bytes, big-endian": numbers 8 to 15 at both ends.
fn high_bits() -> Vec<Case> {
    let (p14, p15) = (&package(14), &package(15));
    let (s7, s8, s9, s15) = ((1, 7), (1, 8), (1, 9), (1, 15));
    let granted = [s7, s8, s15].map(|service| row(p14, service));
    let called = [s7, s8, s15].map(|service| row(p15, service));
    let mut steps: Vec<Step> = (0..15).map(|n| yes(u32::from(n), bare(&package(n)))).collect();
    steps.extend([
        yes(15, L.load(p15, &services(16), &[], &granted, &[])),
        yes(14, L.replace(p14, &[], &called, &[], &called[2..])),
        no(8, L.update(5, p14, p15, s9)),
        no(9, L.remove_service(p15, s15)),
        no(8, L.update(8, p15, p14, s7)),
        yes(15, L.remove_service(p15, s8)),
        yes(15, L.add_service(p15, s8, &[])),
        no(6, L.update(5, p14, p15, s8)),
        no(9, L.remove(p15)),
        yes(14, L.update(6, p14, p15, s15)),
        yes(14, L.update(5, p14, p15, s15)),
        yes(15, L.remove(p15)),
        yes(15, L.load(p15, &services(16), &[], &granted, &[])),
        no(8, L.update(8, p15, p14, s8)),
    ]);
    vec![on_large("R-9: packages and services with numbers 8 to 15", steps)]
}

/// "A converter carries sound version 02 images over with contracts, numbers and list order kept."
fn over_the_conversion() -> Vec<Case> {
    let grants =
        |count: u8, tokens: Tokens| -> Vec<Row> { strangers(count).iter().map(|caller| row(caller, tokens)).collect() };
    vec![
        case("R-9: an empty card is enlarged", vec![no(2, bare(H))]).enlarged(vec![
            no(5, L.remove(H)),
            no(2, load(H, &[], &[], &[], &[])),
            yes(0, bare(H)),
        ]),
        case(
            "R-9: a card goes on over the conversion, with its numbers",
            vec![
                yes(0, load(X, &[], &[], &[], &[])),
                yes(1, load(H, &[(5, 5), S, T], &[row(X, T)], &[row(C, S), row(C, T), row(B, T)], &[])),
                yes(2, load(C, &[], &[row(H, S), row(H, T)], &[], &[row(H, T)])),
                yes(0, remove(X)),
                yes(1, remove_service(H, (5, 5))),
            ],
        )
        .enlarged(vec![
            no(2, remove(C)),
            no(9, L.remove_service(H, T)),
            no(8, L.update(8, H, C, S)),
            no(6, L.update(5, H, X, T)),
            // The lowest unused numbers are those that went before.
            yes(1, L.add_service(H, (5, 6), &[])),
            yes(0, L.load(B, &[], &[row(H, T)], &[], &[])),
            yes(3, L.load(X, &[T], &[], &[row(H, T)], &[])),
            yes(2, L.remove(C)),
            yes(1, L.remove_service(H, S)),
        ]),
        case("R-9: a full card is enlarged", {
            let mut steps: Vec<Step> =
                (0..8).map(|n| yes(u32::from(n), load(&package(n), &services(8), &[], &[], &[]))).collect();
            steps.push(no(7, load(H, &[], &[], &[], &[])));
            steps.push(no(7, crate::write::add_service(&package(7), S, &[])));
            steps
        })
        .enlarged(vec![
            yes(7, L.add_service(&package(7), S, &[])),
            yes(8, L.load(H, &services(9), &[], &[], &[])),
            yes(3, L.remove(&package(3))),
            yes(3, bare(C)),
        ]),
        case(
            "R-9: full lists are enlarged in order, and go on",
            vec![
                yes(0, load(H, &[S, T], &unmet(16), &[grants(8, T), grants(8, S)].concat(), &[])),
                no(10, update(5, H, X, S)),
                no(11, update(7, H, X, S)),
            ],
        )
        .enlarged(vec![
            yes(0, L.update(6, H, X, (7, 3))),
            yes(0, L.update(8, H, &strangers(3)[2], S)),
            yes(0, L.update(5, H, X, S)),
            yes(0, L.update(5, H, X, T)),
            yes(0, L.update(7, H, X, S)),
            yes(0, L.update(7, H, X, T)),
            yes(1, L.load(C, &[], &rows(15), &grants(15, T), &[])),
            no(10, L.update(5, C, X, (7, 7))),
            no(11, L.update(7, C, X, (7, 7))),
        ]),
        over(
            "R-9: a card of document 01's rules goes on over every change and is enlarged, with a need that kind 9 set",
            Rules::DOCUMENT_01,
            vec![vec![
                yes(0, load(H, &[S, T], &[], &[row(C, S), row(X, T)], &[])),
                yes(1, load(C, &[], &[row(H, S)], &[], &[])),
                yes(1, update(9, C, H, S)),
            ]],
            vec![no(9, remove(H))],
        )
        .enlarged(vec![
            no(9, L.remove(H)),
            no(2, L.update(9, C, H, S)),
            no(2, L.update(10, C, H, S)),
            yes(1, L.update(6, C, H, S)),
            yes(0, L.remove(H)),
        ]),
        over(
            "R-9: a card that R-7 left out is not enlarged",
            Rules::DOCUMENT_01,
            vec![vec![yes(0, load(H, &[(0, 128)], &[], &[], &[]))]],
            vec![no(1, remove(H))],
        )
        .enlarged(vec![no(1, remove(H)), no(1, L.remove(H)), no(1, bare(C))]),
    ]
}
