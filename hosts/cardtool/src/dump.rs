//! Dumps: the bytes of an image or a record, a part on each line, with its offset and what it is.

use crate::contract::{Aid, Row, Tokens};
use crate::hex::to_hex;
use crate::layout::{Image, Layout, Table, AID, USED};
use crate::names::Names;
use crate::record::{Change, Lists, Record};
use crate::tables::aid as stored;

/// An image part by part. Parts after the used field that are zero throughout are left out.
pub fn image(image: Image, names: &Names) -> String {
    let layout = image.layout;
    let numbers = || 0..layout.packages;
    let package = |n: usize| {
        let own = stored(image.aid_place(layout.aid_at(n))).and_then(|aid| names.name(aid));
        own.map_or(format!("package {n}"), |name| format!("package {n} ({name})"))
    };
    let (used, bits) = (layout.used_bytes(), layout.bit_bytes());
    let each = if bits == 1 { "a byte".to_string() } else { format!("{bits} bytes") };
    let mut parts = vec![(USED, "length, version".to_string()), (used, "used package numbers, bit by bit".to_string())];
    parts.extend(numbers().map(|n| (AID, format!("AID of {}: length, bytes, fill", package(n)))));
    let tokens = |n: usize| format!("tokens of {}, two bytes for each service", package(n));
    parts.extend(numbers().map(|n| (2 * layout.services, tokens(n))));
    parts.push((bits * layout.packages, format!("services provided, {each} for each package")));
    for table in Table::ALL {
        let other = if table == Table::Grants { "caller" } else { "callee" };
        let words = |n: usize| format!("{} of {}, {each} for each {other}", table.name(), package(n));
        parts.extend(numbers().map(|n| (bits * layout.packages, words(n))));
    }
    parts.push((1, "count of unmet calls".to_string()));
    parts.extend((0..layout.rows).map(|n| (layout.unmet_row(), format!("unmet call {n}: callee AID, tokens, caller"))));
    parts.push((1, "count of waiting grants".to_string()));
    let service = if layout.tokens_wait { "tokens" } else { "service" };
    let waiting = |n| (layout.waiting_row(), format!("waiting grant {n}: caller AID, callee, {service}"));
    parts.extend((0..layout.rows).map(waiting));
    lines(image.bytes, &parts, |at, part| at <= USED || part.iter().any(|byte| *byte != 0))
}

/// A record of a card part by part.
pub fn record(card: &Layout, record: &Record) -> String {
    let bytes = record.bytes(card);
    let mut parts = vec![
        (2, format!("length {}", bytes.len())),
        (1, format!("version: a record of the {} card", card.name)),
        (1, format!("kind {}: {}", bytes[3], kind(&record.change))),
        aid("AID", &record.aid),
    ];
    let other = match &record.change {
        Change::AddGrant(_) | Change::RemoveGrant(_) => "caller AID",
        _ => "callee AID",
    };
    match &record.change {
        Change::Load(lists) | Change::Replace(lists) => {
            let Lists { provides, calls, grants, needs } = lists;
            parts.push((1, "count of services provided".to_string()));
            parts.extend(provides.iter().map(tokens));
            for (list, name, other) in
                [(calls, "calls", "callee AID"), (grants, "grants", "caller AID"), (needs, "needs", "callee AID")]
            {
                parts.push((card.count_bytes, format!("count of {name}")));
                parts.extend(list.iter().flat_map(|each| row(other, each)));
            }
        }
        Change::Remove => {}
        Change::AddService(service, callers) => {
            parts.push(tokens(service));
            parts.push((1, "count of callers".to_string()));
            parts.extend(callers.iter().map(|caller| aid("caller AID", caller)));
        }
        Change::RemoveService(service) => parts.push(tokens(service)),
        Change::AddCall(each) | Change::RemoveCall(each) | Change::AddGrant(each) | Change::RemoveGrant(each) => {
            parts.extend(row(other, each))
        }
    }
    lines(&bytes, &parts, |_, _| true)
}

/// What a part is: its count of bytes, and words.
type Part = (usize, String);

fn aid(what: &str, aid: &Aid) -> Part {
    (1 + aid.bytes().len(), format!("{what}: length, bytes"))
}

fn tokens(tokens: &Tokens) -> Part {
    (2, format!("service {tokens}"))
}

fn row(other: &str, row: &Row) -> [Part; 2] {
    [aid(other, &row.other), tokens(&row.tokens)]
}

fn kind(change: &Change) -> &'static str {
    match change {
        Change::Load(_) => "load",
        Change::Remove => "remove the package",
        Change::AddService(..) => "add a service",
        Change::RemoveService(_) => "remove a service",
        Change::AddCall(_) => "add a call",
        Change::RemoveCall(_) => "remove a call",
        Change::AddGrant(_) => "add a grant",
        Change::RemoveGrant(_) => "remove a grant",
        Change::Replace(_) => "replace the contract",
    }
}

/// A line for each part that is shown, and one with the offset after the last byte.
fn lines(bytes: &[u8], parts: &[Part], shown: impl Fn(usize, &[u8]) -> bool) -> String {
    let (mut text, mut at) = (String::new(), 0);
    for (length, words) in parts {
        let part = &bytes[at..at + length];
        if shown(at, part) {
            text.push_str(&format!("{at:>4}: {:<59} # {words}\n", to_hex(part)));
        }
        at += length;
    }
    text + &format!("{at:>4}:\n")
}
