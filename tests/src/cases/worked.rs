//! The report's worked example: EMV and ePurse of the bank, jTicket of the transport company.
//!
//! AIDs are those of its Example 5 (Example 1 has shorter ones for the packages) and tokens those
//! of its Example 2. The bank lets EMV and ePurse, and ePurse and jTicket, exchange data, but not
//! EMV and jTicket. The report's Example 8 has ePurse grant its service to itself too, which the
//! paper excludes.

use super::*;
use crate::write::{load, remove, update};

pub const EMV: &[u8] = &[1, 1, 1, 1, 1, 1];
pub const EPURSE: &[u8] = &[1, 1, 1, 1, 1, 2];
pub const JTICKET: &[u8] = &[2, 2, 2, 2, 2, 1];
const TRANSACTION: write::Tokens = (0, 0);
const PAYMENT: write::Tokens = (0, 0);

pub fn cases() -> Vec<Case> {
    let emv = || load(EMV, &[TRANSACTION], &[], &[row(EPURSE, TRANSACTION)], &[]);
    let epurse = || load(EPURSE, &[PAYMENT], &[], &[row(EMV, PAYMENT), row(JTICKET, PAYMENT)], &[]);
    let jticket = || load(JTICKET, &[], &[row(EPURSE, PAYMENT)], &[], &[row(EPURSE, PAYMENT)]);
    let card = || vec![yes(0, emv()), yes(1, epurse()), yes(2, jticket())];
    let after = |steps: Vec<Step>| card().into_iter().chain(steps).collect();
    vec![
        case("worked example: EMV, ePurse and jTicket are loaded", card()),
        case(
            "worked example: jTicket before ePurse lacks what it needs",
            vec![yes(0, emv()), no(9, jticket()), yes(1, epurse()), yes(2, jticket())],
        ),
        case(
            "worked example: ePurse stays while jTicket needs it",
            after(vec![
                no(9, remove(EPURSE)),
                no(9, write::remove_service(EPURSE, PAYMENT)),
                yes(2, remove(JTICKET)),
                yes(1, remove(EPURSE)),
            ]),
        ),
        case(
            "worked example: EMV and jTicket may not exchange data",
            after(vec![no(8, update(5, JTICKET, EMV, TRANSACTION)), yes(1, update(5, EPURSE, EMV, TRANSACTION))]),
        ),
        case(
            "worked example: the bank may not take back a grant in use",
            after(vec![
                no(8, update(8, EPURSE, JTICKET, PAYMENT)),
                yes(2, update(6, JTICKET, EPURSE, PAYMENT)),
                yes(1, update(8, EPURSE, JTICKET, PAYMENT)),
                no(8, update(5, JTICKET, EPURSE, PAYMENT)),
            ]),
        ),
        // The need comes by kind 9, which R-13 retires, and stays in force.
        over(
            "worked example: ePurse must grant what jTicket calls already",
            Rules::R_1,
            vec![vec![
                yes(0, load(JTICKET, &[], &[row(EPURSE, PAYMENT)], &[], &[])),
                no(9, update(9, JTICKET, EPURSE, PAYMENT)),
                no(8, load(EPURSE, &[PAYMENT], &[], &[row(EMV, PAYMENT)], &[])),
                yes(1, epurse()),
                yes(0, update(9, JTICKET, EPURSE, PAYMENT)),
            ]],
            vec![no(9, remove(EPURSE)), no(2, update(10, JTICKET, EPURSE, PAYMENT))],
        ),
    ]
}
