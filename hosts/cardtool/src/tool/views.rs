//! Records, contracts and tables as JSON: AIDs and services in full, and names where they have some.

use crate::contract::{Aid, Contract, Row, Tokens};
use crate::hex::to_hex;
use crate::json::{list, object, Json};
use crate::layout::Layout;
use crate::names::Names;
use crate::record::{Change, Lists, Record};
use crate::tables::Tables;

/// A package that is named.
pub fn package(aid: Aid, names: &Names) -> Json {
    object([("aid", aid.to_string().into()), ("name", names.name(aid).into())])
}

/// A service of a package.
pub fn service(own: Aid, tokens: Tokens, names: &Names) -> Json {
    object([("service", tokens.to_string().into()), ("name", names.service_name(own, tokens).into())])
}

/// A row of calls or needs.
pub fn callee(row: &Row, names: &Names) -> Json {
    object([
        ("callee", package(row.other, names)),
        ("service", row.tokens.to_string().into()),
        ("name", names.service_name(row.other, row.tokens).into()),
    ])
}

/// A row of grants of a package.
pub fn caller(own: Aid, row: &Row, names: &Names) -> Json {
    object([
        ("caller", package(row.other, names)),
        ("service", row.tokens.to_string().into()),
        ("name", names.service_name(own, row.tokens).into()),
    ])
}

/// Four lists, whose rows come as they stand.
fn lists<'a>(
    own: Aid,
    provides: impl IntoIterator<Item = &'a Tokens>,
    [calls, grants, needs]: [Vec<&Row>; 3],
    names: &Names,
) -> [(&'static str, Json); 4] {
    [
        ("provides", list(provides.into_iter().map(|tokens| service(own, *tokens, names)))),
        ("calls", list(calls.into_iter().map(|row| callee(row, names)))),
        ("grants", list(grants.into_iter().map(|row| caller(own, row, names)))),
        ("needs", list(needs.into_iter().map(|row| callee(row, names)))),
    ]
}

/// A contract's four sets.
pub fn contract(own: Aid, contract: &Contract, names: &Names) -> [(&'static str, Json); 4] {
    let rows = [&contract.calls, &contract.grants, &contract.needs].map(|set| set.iter().collect());
    lists(own, &contract.provides, rows, names)
}

/// A record of a card.
pub fn record(card: &Layout, record: &Record, names: &Names) -> Json {
    let own = record.aid;
    let kind = u32::from(record.change.kind());
    let mut members = vec![("card", card.name.into()), ("kind", kind.into()), ("package", package(own, names))];
    match &record.change {
        Change::Load(Lists { provides, calls, grants, needs })
        | Change::Replace(Lists { provides, calls, grants, needs }) => {
            let rows = [calls, grants, needs].map(|list| list.iter().collect());
            members.extend(lists(own, provides, rows, names));
        }
        Change::Remove => {}
        Change::AddService(tokens, callers) => {
            members.push(("provides", service(own, *tokens, names)));
            members.push(("to", list(callers.iter().map(|caller| package(*caller, names)))));
        }
        Change::RemoveService(tokens) => members.push(("provides", service(own, *tokens, names))),
        Change::AddCall(row) | Change::RemoveCall(row) => members.push(("calls", callee(row, names))),
        Change::AddGrant(row) | Change::RemoveGrant(row) => members.push(("grants", caller(own, row, names))),
    }
    members.push(("bytes", to_hex(&record.bytes(card)).into()));
    Json::Object(members)
}

/// A card's packages with their contracts, and both lists.
pub fn tables(tables: &Tables, names: &Names) -> Json {
    let contracts = tables.contracts();
    let packages = tables.installed().map(|(number, installed)| {
        let services = installed.numbered().map(|(number, tokens)| {
            object([
                ("number", number.into()),
                ("service", tokens.to_string().into()),
                ("name", names.service_name(installed.aid, tokens).into()),
            ])
        });
        let mut members = vec![
            ("number", number.into()),
            ("aid", installed.aid.to_string().into()),
            ("name", names.name(installed.aid).into()),
            ("services", list(services)),
        ];
        let rows = contracts.get(&installed.aid).map(|held| contract(installed.aid, held, names));
        members.extend(rows.into_iter().flatten().filter(|(name, _)| *name != "provides"));
        Json::Object(members)
    });
    let unmet = tables.unmet.iter().filter_map(|row| {
        let call = Row { other: row.callee, tokens: row.tokens };
        Some(object([("caller", package(tables.at(row.caller)?.aid, names)), ("calls", callee(&call, names))]))
    });
    let waiting = tables.waiting.iter().filter_map(|row| {
        let (own, grant) = (tables.at(row.callee)?.aid, Row { other: row.caller, tokens: row.tokens });
        Some(object([("callee", package(own, names)), ("grants", caller(own, &grant, names))]))
    });
    object([
        ("card", tables.layout.name.into()),
        ("version", tables.layout.version.into()),
        ("packages", list(packages)),
        ("unmet", list(unmet)),
        ("waiting", list(waiting)),
    ])
}
