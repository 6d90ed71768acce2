//! The bytes of a record.

use crate::machine::record::{Change, Lists, Record};
use crate::machine::{Row, Tokens};
use crate::rules::Sizes;
use crate::write::{self, Writer};

/// As it is written for the card of these sizes.
pub fn bytes(sizes: &'static Sizes, record: &Record) -> Vec<u8> {
    let (own, writer) = (record.aid.bytes(), Writer(sizes));
    let contract = |kind: u8, lists: &Lists| {
        let provides: Vec<write::Tokens> = lists.provides.iter().map(pair).collect();
        writer.contract(kind, own, &provides, &rows(&lists.calls), &rows(&lists.grants), &rows(&lists.needs))
    };
    let update = |kind: u8, row: &Row| writer.update(kind, own, row.other.bytes(), pair(&row.tokens));
    match &record.change {
        Change::Load(lists) => contract(1, lists),
        Change::Remove => writer.remove(own),
        Change::AddService(tokens, callers) => {
            let callers: Vec<Vec<u8>> = callers.iter().map(|caller| caller.bytes().to_vec()).collect();
            writer.add_service(own, pair(tokens), &callers)
        }
        Change::RemoveService(tokens) => writer.remove_service(own, pair(tokens)),
        Change::AddCall(row) => update(5, row),
        Change::RemoveCall(row) => update(6, row),
        Change::AddGrant(row) => update(7, row),
        Change::RemoveGrant(row) => update(8, row),
        Change::AddNeed(_) | Change::RemoveNeed(_) => unreachable!("a record of a retired kind"),
        Change::Replace(lists) => contract(11, lists),
    }
}

fn pair(tokens: &Tokens) -> write::Tokens {
    (tokens.interface, tokens.method)
}

fn rows(rows: &[Row]) -> Vec<write::Row> {
    rows.iter().map(|row| (row.other.bytes().to_vec(), pair(&row.tokens))).collect()
}
