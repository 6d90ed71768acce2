//! Records: `encode` and `decode`.

use super::call::{Call, Input};
use super::{views, Done, Trouble};
use crate::fault::Fault;
use crate::hex::to_hex;
use crate::hexadecimal;
use crate::json::{list, object};
use crate::layout::Layout;
use crate::record::{self, Record};
use crate::record_text;
use crate::words::utf8;

pub fn encode(call: &Call) -> Result<Done, Trouble> {
    let (input, card) = (&call.inputs[0], call.card());
    let text = input.text(card, &call.names)?;
    if !call.as_is {
        let faults: Vec<Fault> = text.records.iter().filter_map(|placed| placed.consistent().err()).collect();
        if !faults.is_empty() {
            return Err(Trouble::Input(input.name.clone(), faults));
        }
    }
    let records: Vec<Vec<u8>> = text.records.iter().map(|placed| placed.bytes(card)).collect();
    let lines = text.records.iter().map(|placed| {
        let (line, words) = (placed.place.line, placed.first_line(&text.names));
        object([("line", line.into()), ("record", words.into()), ("bytes", to_hex(&placed.bytes(card)).into())])
    });
    let json = object([("records", list(lines))]);
    Ok(match call.raw {
        true => Done::new(records.concat(), json),
        false => Done::new(records.iter().map(|bytes| to_hex(bytes) + "\n").collect::<String>(), json),
    })
}

pub fn decode(call: &Call) -> Result<Done, Trouble> {
    let records = read(call, &call.inputs[0])?;
    let text: String = records.iter().map(|(_, record)| record_text::write(record, &call.names)).collect();
    let views = records.iter().map(|(card, record)| views::record(card, record, &call.names));
    let json = object([("records", list(views))]);
    let large = records.iter().filter(|(card, _)| card.is_large()).count();
    let first = match large {
        0 => "",
        _ if large == records.len() => "# of the large card: 'cardtool encode --large' makes these bytes again\n",
        _ => "# of both cards: 'cardtool encode' writes all for the small card, 'cardtool encode --large' for the large one\n",
    };
    Ok(Done::new(first.to_string() + &call.with_names(text), json))
}

/// The records of an input, each with the card that it is for; all are well formed.
pub fn read(call: &Call, input: &Input) -> Result<Vec<(&'static Layout, Record)>, Trouble> {
    let read = match call.raw {
        true => raw(&input.bytes),
        false => utf8(&input.bytes).and_then(|text| {
            let lines = hexadecimal::records(text)?;
            lines.iter().map(|digits| digits.record()).collect()
        }),
    };
    read.map_err(|fault| match call.raw {
        true => input.bad(fault),
        false => input.no_text(fault, "of records' own bytes say --raw"),
    })
}

/// Records one after another, each as long as its length field says.
fn raw(bytes: &[u8]) -> Result<Vec<(&'static Layout, Record)>, Fault> {
    let (mut records, mut at) = (Vec::new(), 0);
    for frame in frames(bytes) {
        let ordinal = records.len() + 1;
        let part = frame.map_err(|words| Fault::byte(at, format!("record {ordinal}: {words}")))?;
        let fault = |bad: record::Malformed| Fault::byte(at + bad.at, format!("record {ordinal}: {}", bad.why));
        records.push(record::read_either(part).map_err(fault)?);
        at += part.len();
    }
    Ok(records)
}

/// The parts of raw bytes, each as long as its length field says; last why the rest is no such part, if there is one.
pub fn frames(bytes: &[u8]) -> impl Iterator<Item = Result<&[u8], String>> {
    let mut left = bytes;
    std::iter::from_fn(move || {
        if left.is_empty() {
            return None;
        }
        let rest = std::mem::take(&mut left);
        let Some(field) = rest.first_chunk() else {
            return Some(Err("one byte is left, and a length has two".to_string()));
        };
        let length = usize::from(u16::from_be_bytes(*field));
        match rest.split_at_checked(length).filter(|_| length >= 4) {
            None => Some(Err(format!("the length field says {length}, {} bytes are left", rest.len()))),
            Some((part, after)) => {
                left = after;
                Some(Ok(part))
            }
        }
    })
}
