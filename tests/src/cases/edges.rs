//! "At the edges".

use super::*;
use crate::hex::from_hex;
use crate::write::{add_service, load, remove, update};

const S: write::Tokens = (0, 0);

pub fn cases() -> Vec<Case> {
    let hex = |text: &str| from_hex(text).expect("hexadecimal");
    let long = |length: usize| vec![0xF1; length];
    let package = |n: u8| load(&[0xF0, 0, 0, 1, n], &[], &[], &[], &[]);
    let services = |count: u8| (0..count).map(|method| (1, method)).collect::<Vec<_>>();
    vec![
        marked(
            "the four records of the session",
            vec![
                yes(0, hex("00 18 01 01 05 F0 00 00 00 01 01 00 00 00 01 05 F0 00 00 00 02 00 00 00")),
                no(8, hex("00 16 01 01 05 F0 00 00 00 03 00 01 05 F0 00 00 00 01 00 00 00 00")),
                yes(
                    1,
                    hex("00 1E 01 01 05 F0 00 00 00 02 00 01 05 F0 00 00 00 01 00 00 00 01 05 F0 00 00 00 01 00 00"),
                ),
                no(9, hex("00 0A 01 02 05 F0 00 00 00 01")),
            ],
        ),
        marked("a record of no bytes", vec![no(2, Vec::new())]),
        marked("removal on the empty image", vec![no(5, remove(H))]),
        marked(
            "an AID of 4 or 17 bytes",
            vec![
                no(2, load(&long(4), &[], &[], &[], &[])),
                no(2, load(&long(17), &[], &[], &[], &[])),
                no(2, load(H, &[], &[row(&long(4), S)], &[], &[])),
                no(2, load(H, &[], &[row(&long(17), S)], &[], &[])),
                no(2, remove(&long(4))),
                no(2, remove(&long(17))),
            ],
        ),
        marked(
            "an AID of 5 or 16 bytes is read",
            vec![
                yes(0, load(&long(5), &[], &[], &[], &[])),
                yes(1, load(&long(16), &[], &[row(&[0xF2; 5], S), row(&[0xF2; 16], S)], &[], &[])),
                yes(0, remove(&long(5))),
                yes(1, remove(&long(16))),
            ],
        ),
        case(
            "nine provided services",
            vec![
                no(2, load(H, &services(9), &[], &[], &[])),
                yes(0, load(H, &services(8), &[], &[], &[])),
                no(7, add_service(H, (2, 0), &[])),
            ],
        ),
        marked("a ninth package", {
            let mut steps: Vec<Step> = (0..8).map(|n| yes(u32::from(n), package(n))).collect();
            steps.push(no(7, package(8)));
            steps
        }),
        marked(
            "a 17th unmet call",
            vec![
                no(10, load(H, &[], &unmet(17), &[], &[])),
                yes(0, load(H, &[], &unmet(16), &[], &[])),
                no(10, update(5, H, X, S)),
            ],
        ),
        marked("with 16 unmet calls standing, a granted load that meets one and adds one", {
            let calls = [unmet(15), vec![row(H, S)]].concat();
            vec![
                yes(0, load(C, &[], &calls, &[], &[])),
                yes(1, load(H, &[S], &[row(X, (9, 9))], &[row(C, S)], &[])),
                no(10, update(5, H, X, (9, 8))),
            ]
        }),
        marked("removing a server whose callers' calls would make 17 unmet", {
            let calls = |more: u8| [unmet(more), vec![row(H, S)]].concat();
            vec![
                yes(0, load(H, &[S], &[], &[row(C, S), row(B, S)], &[])),
                yes(1, load(C, &[], &calls(8), &[], &[])),
                yes(2, load(B, &[], &calls(7), &[], &[])),
                no(10, remove(H)),
                yes(2, update(6, B, X, (7, 0))),
                yes(0, remove(H)),
            ]
        }),
        marked(
            "a load failing on grant and on need",
            vec![
                yes(0, load(H, &[S], &[], &[], &[])),
                no(8, load(C, &[], &[row(H, S), row(X, S)], &[], &[row(X, S)])),
                no(9, load(C, &[], &[row(X, S)], &[], &[row(X, S)])),
            ],
        ),
        case(
            "kind 8 for an absent caller",
            vec![
                yes(0, load(H, &[S], &[], &[row(C, S)], &[])),
                no(6, update(8, H, B, S)),
                yes(0, update(8, H, C, S)),
                no(6, update(8, H, C, S)),
            ],
        ),
        case(
            "kind 6 on a needed call",
            vec![
                yes(0, load(H, &[S], &[], &[row(C, S)], &[])),
                yes(1, load(C, &[], &[row(H, S)], &[], &[row(H, S)])),
                no(9, remove(H)),
                yes(1, update(6, C, H, S)),
                yes(1, update(5, C, H, S)),
                yes(0, remove(H)),
            ],
        ),
    ]
}
