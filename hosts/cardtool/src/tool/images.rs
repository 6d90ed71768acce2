//! Images: shown, built, dumped, converted, read out, compared, drawn, and asked who gets at a service.

use super::call::{on_command_line, Call};
use super::{disagreement, records, views, Done, Trouble};
use crate::cause;
use crate::contract::{Aid, Contract, Tokens};
use crate::engines::{answering, Verdict};
use crate::fault::Fault;
use crate::hex::to_hex;
use crate::json::{list, object, Json};
use crate::layout::{Layout, VERSION_02, VERSION_03};
use crate::names::Names;
use crate::program::Failure;
use crate::record;
use crate::record_text;
use crate::tables::Tables;
use crate::words::utf8;
use crate::{changes, draw, dump, image_text, unsound, who};

pub fn show(call: &Call) -> Result<Done, Trouble> {
    let input = &call.inputs[0];
    let image = call.image_bytes(input)?;
    let tables = Tables::of(&image, &call.names);
    held_to_check(&image, tables.is_ok())?;
    let tables = tables.map_err(|faults| Trouble::Input(input.name.clone(), faults))?;
    let old = if tables.layout.judged() { String::new() } else { format!("# {}\n", unsound::OLD) };
    let text = old + &call.with_names(image_text::write(&tables, &call.names));
    Ok(Done::new(text, views::tables(&tables, &call.names)))
}

/// What the tool finds of an image's soundness is what the engine says of it.
fn held_to_check(image: &[u8], sound: bool) -> Result<(), Failure> {
    let judged = Layout::sized(image.len()).is_some_and(Layout::judged);
    let answer = answering().check(image).answer;
    match judged && (answer == 0) != sound {
        false => Ok(()),
        true => {
            let found = if sound { "finds nothing wrong with it" } else { "finds it not to be sound" };
            let words = format!("{} answers {answer} to the image, and the tool {found}", answering().name());
            Err(Failure::failed(disagreement(words)))
        }
    }
}

pub fn build(call: &Call) -> Result<Done, Trouble> {
    let input = &call.inputs[0];
    let image = utf8(&input.bytes).and_then(|text| image_text::read(call.card(), text, &call.names));
    let image = image.map_err(|fault| input.bad(fault))?;
    held_to_check(&image, true)?;
    let json = object([("bytes", to_hex(&image).into())]);
    Ok(Done::new(call.image_out(&image), json))
}

pub fn dump(call: &Call) -> Result<Done, Trouble> {
    let input = &call.inputs[0];
    if call.record {
        let records = records::read(call, input)?;
        let dumps: Vec<String> = records.iter().map(|(card, record)| dump::record(card, record)).collect();
        return Ok(Done::new(dumps.join("\n"), object([("records", list(dumps.iter().map(|text| lines_of(text))))])));
    }
    let image = call.image_bytes(input)?;
    let text = dump::image(unsound::sized(&image).map_err(|fault| input.bad(fault))?, &call.names);
    let json = object([("image", lines_of(&text))]);
    Ok(Done::new(text, json))
}

/// The parts of a dump: the offset, the bytes and what they are.
fn lines_of(text: &str) -> Json {
    let parts = text.lines().filter_map(|line| {
        let (offset, rest) = line.split_once(':')?;
        let (bytes, words) = rest.split_once('#')?;
        let offset: usize = offset.trim().parse().ok()?;
        Some(object([("offset", offset.into()), ("bytes", bytes.trim().into()), ("words", words.trim().into())]))
    });
    list(parts)
}

pub fn convert(call: &Call) -> Result<Done, Trouble> {
    let input = &call.inputs[0];
    let (tables, old) = call.tables(input)?;
    if tables.layout.judged() {
        let words = format!("the image has version {}: there is nothing to convert", tables.layout.version);
        return Err(input.bad(Fault::byte(2, words)));
    }
    carried(call, "converted", &tables.on(&VERSION_02), |image| answering().convert(&old, image))
}

pub fn enlarge(call: &Call) -> Result<Done, Trouble> {
    let input = &call.inputs[0];
    let (card, small) = call.judgeable(input)?;
    let tables = call.sound(input, &small)?;
    if card.is_large() {
        return Err(input.bad(Fault::byte(2, "the card is large: there is nothing to enlarge")));
    }
    carried(call, "enlarged", &tables.on(&VERSION_03), |large| answering().enlarge(&small, large))
}

/// A sound image that the engine carries over to another layout, where it is to have these tables.
fn carried(
    call: &Call,
    carried: &'static str,
    tables: &Tables,
    carry: impl Fn(&mut [u8]) -> Verdict,
) -> Result<Done, Trouble> {
    let (name, mut image) = (answering().name(), vec![0; tables.layout.size()]);
    let answer = carry(&mut image).answer;
    if answer != 0 || image != tables.image() {
        let words = match answer {
            0 => format!("{name} makes other tables of the image than it has"),
            _ => format!("{name} answers {answer} to a sound image: {}", cause::words(answer)),
        };
        return Err(Failure::failed(disagreement(words)).into());
    }
    let (version, counts) = (tables.layout.version, image_text::counts(tables));
    let text = format!("# {carried} by {name}\n{carried} to version {version}: {counts}\n");
    let json = object([
        ("engine", name.into()),
        (carried, views::tables(tables, &call.names)),
        ("bytes", to_hex(&image).into()),
    ]);
    let saved = call.save.iter().map(|file| (file.clone(), call.image_out(&image))).collect();
    Ok(Done { saved, ..Done::new(text, json) })
}

/// The package that a word of the command line means: a number, a name or an AID.
fn aid(call: &Call, tables: &Tables, word: &str) -> Result<Aid, Trouble> {
    let number = word.parse().ok().filter(|_| word.len() <= 2);
    match number.map(|number: usize| (number, tables.at(number))) {
        Some((_, Some(package))) => Ok(package.aid),
        Some((number, None)) => {
            let there: Vec<String> = tables.installed().map(|(number, _)| number.to_string()).collect();
            Err(Failure::failed(format!("no package has the number {number}; there are: {}", there.join(", "))).into())
        }
        None => on_command_line(word, |word| call.names.aid(word)),
    }
}

pub fn readout(call: &Call) -> Result<Done, Trouble> {
    let input = &call.inputs[0];
    let (card, image) = call.judgeable(input)?;
    let tables = call.sound(input, &image)?;
    let aid = aid(call, &tables, &call.words[0])?;
    let Some(number) = tables.number(aid) else {
        return Err(Failure::failed(format!("{} is not on the card", call.names.word(aid))).into());
    };
    let mut buffer = vec![0; card.longest_record];
    let verdict = answering().read_out(&image, number as u32, &mut buffer);
    let read = record::read(card, &buffer[..(verdict.second as usize).min(buffer.len())]);
    let held = tables.contracts().remove(&aid);
    let record = match (verdict.answer, read) {
        (0, Ok(record)) if held == loaded(&record) => record,
        _ => {
            let words = format!("{} reads out another contract than the image has", answering().name());
            return Err(Failure::failed(disagreement(words)).into());
        }
    };
    let of_large = if card.is_large() { " of a large card" } else { "" };
    let first = format!("# package {number}{of_large}, read out by {}\n", answering().name());
    let json = object([
        ("engine", answering().name().into()),
        ("number", number.into()),
        ("record", views::record(card, &record, &call.names)),
    ]);
    Ok(Done::new(first + &call.with_names(record_text::write(&record, &call.names)), json))
}

/// The contract that a load brings.
fn loaded(record: &record::Record) -> Option<Contract> {
    match &record.change {
        record::Change::Load(lists) => Some(lists.contract()),
        _ => None,
    }
}

pub fn who(call: &Call) -> Result<Done, Trouble> {
    let (tables, _) = call.tables(&call.inputs[0])?;
    let aid = aid(call, &tables, &call.words[0])?;
    let services = match call.words.get(1) {
        Some(word) => vec![on_command_line(word, |word| call.names.service(Some(aid), word))?],
        None => who::services(&tables, aid),
    };
    if services.is_empty() {
        let words = format!("{} has no services on this card, and nobody calls any", call.names.word(aid));
        return Ok(Done::new(words + "\n", object([("services", list(Vec::<Json>::new()))])));
    }
    let found: Vec<who::Access> = services.iter().map(|tokens| who::access(&tables, aid, *tokens)).collect();
    let text = found.iter().map(|access| access.text(&call.names)).collect::<Vec<_>>().join("\n");
    let json = object([("services", list(found.iter().map(|access| access_json(access, &call.names))))]);
    Ok(Done::new(text, json))
}

fn access_json(access: &who::Access, names: &Names) -> Json {
    let service = |own: Aid, tokens: Tokens| views::service(own, tokens, names);
    let granted = access
        .granted
        .iter()
        .map(|grant| object([("caller", views::package(grant.caller, names)), ("waits", grant.waits_for.into())]));
    let calls = access.calls.iter().map(|call| {
        object([
            ("caller", views::package(call.caller, names)),
            ("met", access.number.is_some().into()),
            ("needed", call.needed.into()),
        ])
    });
    let step = |step: &who::Step| {
        object([
            ("caller", views::package(step.caller, names)),
            ("callee", views::package(step.callee, names)),
            ("service", step.tokens.to_string().into()),
            ("name", names.service_name(step.callee, step.tokens).into()),
        ])
    };
    object([
        ("package", views::package(access.package, names)),
        ("service", service(access.package, access.tokens)),
        ("installed", access.installed.is_some().into()),
        ("provided", access.number.is_some().into()),
        ("granted", list(granted)),
        ("calls", list(calls)),
        ("chains", list(access.chains.iter().map(|chain| list(chain.iter().map(step))))),
    ])
}

pub fn diff(call: &Call) -> Result<Done, Trouble> {
    let [(before, old), (after, new)] = [call.tables(&call.inputs[0])?, call.tables(&call.inputs[1])?];
    let changes = changes::between(&before, &after);
    let json = object([("same", changes.is_empty().into()), ("changes", changes_json(&changes, &call.names))]);
    if changes.is_empty() {
        let words = match (old == new, before.layout == after.layout) {
            (true, _) => "the images are the same\n",
            (false, true) => "the contracts are the same; numbers or the order of the lists are not\n",
            (false, false) => "the contracts are the same; the versions of the images are not\n",
        };
        return Ok(Done::new(words, json));
    }
    let failed = changes.iter().any(|change| change.differs()).then(|| "the contracts differ".to_string());
    Ok(Done { failed, ..Done::new(changes::text(&changes, &call.names), json) })
}

fn changes_json(changes: &[changes::Change], names: &Names) -> Json {
    list(changes.iter().map(|change| {
        object([
            ("package", views::package(change.package, names)),
            ("change", change.sort().into()),
            ("row", change.row_words(names).into()),
        ])
    }))
}

pub fn draw(call: &Call) -> Result<Done, Trouble> {
    let (tables, _) = call.tables(&call.inputs[0])?;
    let svg = match call.reach {
        true => draw::reach(&tables, &call.names),
        false => draw::card(&tables, &call.names),
    };
    let json = object([("svg", svg.as_str().into())]);
    Ok(Done::new(svg, json))
}
