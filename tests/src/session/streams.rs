//! The inputs that the session program is run on: its edges, and random histories.

use super::frames;
use crate::card::LONGEST_RECORD;
use crate::cases::{self, named, Case, C, H};
use crate::generate::Source;
use crate::machine::{Aid, Machine};
use crate::random::Random;
use crate::rules::{Rules, Sizes};
use crate::write::{add_service, load, record, replace, update, Row, VERSION};
use std::ops::RangeInclusive;

/// An input, and what it is.
#[derive(Clone)]
pub struct Stream {
    pub name: String,
    pub input: Vec<u8>,
}

impl Stream {
    fn new(name: impl Into<String>, input: Vec<u8>) -> Stream {
        Stream { name: name.into(), input }
    }

    /// The first bytes of it.
    fn cut(&self, bytes: usize) -> Stream {
        let bytes = bytes.min(self.input.len());
        Stream::new(format!("{}, cut off after {bytes} bytes", self.name), self.input[..bytes].to_vec())
    }
}

/// Every input.
pub fn all() -> Vec<Stream> {
    [edges(), histories()].concat()
}

/// The paper's four records.
pub fn paper() -> Vec<Vec<u8>> {
    named("the four records of the session").steps.into_iter().map(|step| step.record).collect()
}

/// What the paper says of lengths, of kinds, of the longest record, and of the end; what requests change; and ordinals of every
/// width.
pub fn edges() -> Vec<Stream> {
    let one = vec![Stream::new("the paper's four records", paper().concat()), Stream::new("no bytes", Vec::new())];
    [one, single_bytes(), lengths(), kinds(), requests(), longest(), counts()].concat()
}

/// A single byte, alone and behind records.
fn single_bytes() -> Vec<Stream> {
    let alone = [0, 1, 4, 255].map(|byte| Stream::new(format!("the byte {byte}"), vec![byte]));
    let behind = [0, 255].map(|byte| {
        let input = [paper().concat(), vec![byte]].concat();
        Stream::new(format!("the byte {byte} behind four records"), input)
    });
    alone.into_iter().chain(behind).collect()
}

/// Good and bad lengths, with as many bytes as they say, with more and with less; alone, behind records and before them.
fn lengths() -> Vec<Stream> {
    let mut streams = Vec::new();
    let longest = LONGEST_RECORD as u16;
    let around = [longest - 1, longest, longest + 1, longest + 2];
    for length in [&[0, 1, 2, 3, 4, 5, 255, 256, 257, 4096][..], &around, &[8192, 32_768, 65_535]].concat() {
        let said = usize::from(length);
        let mut sizes = vec![2, 3, 4, said, said + 1, said.saturating_sub(1), said / 2];
        sizes.retain(|size| *size >= 2);
        sizes.sort();
        sizes.dedup();
        for size in sizes {
            let frame = junk(length, size);
            for (before, after) in [(0, 0), (4, 0), (0, 4), (3, 1)] {
                let name = format!("{before} records, a length of {said} with {size} bytes, {after} records");
                let around = |records: usize| paper()[..records].concat();
                streams.push(Stream::new(name, [around(before), frame.clone(), around(after)].concat()));
            }
        }
    }
    streams
}

/// So many bytes, two at least: a length field, the version, kind 1 and junk.
fn junk(length: u16, size: usize) -> Vec<u8> {
    let mut bytes = vec![0x5A; size.max(4)];
    bytes[..2].copy_from_slice(&length.to_be_bytes());
    bytes[2..4].copy_from_slice(&[VERSION, 1]);
    bytes.truncate(size);
    bytes
}

/// Every kind, known or not: as a record of four bytes, and before an AID.
fn kinds() -> Vec<Stream> {
    let aid = [&[5], H].concat();
    let rest: [&[u8]; 2] = [&[], &aid];
    let each = rest.map(|rest| (0..=255).flat_map(|kind| record(kind, &[rest])).collect::<Vec<_>>());
    let mut streams: Vec<_> = each.map(|input| Stream::new("every kind", input)).into();
    for kind in [0, 12, 13, 99, 255] {
        let input = [paper()[0].clone(), record(kind, &[&aid]), paper()[1].clone()].concat();
        streams.push(Stream::new(format!("kind {kind} between records"), input));
    }
    // Retired, as they were written. The paper's third record sets the need.
    for kind in [9, 10] {
        let [server, _, caller, removal] = &paper()[..] else { panic!("the paper has four records") };
        let input = [server, caller, &update(kind, C, H, (0, 0)), removal].map(Vec::as_slice).concat();
        streams.push(Stream::new(format!("kind {kind} between records"), input));
    }
    streams
}

/// Method tokens of 127 and 128 in every place, grants before their service, whole contracts, retired kinds, the conditions of
/// a load, pairs of cards alike for B, a case on each card, and the large card's records, which get 2; and every method, in one
/// record each.
fn requests() -> Vec<Stream> {
    let cases = cases::requests().filter(|case| case.before.is_empty());
    let steps = |case: &Case| case.steps.iter().chain(case.large.iter().flatten()).cloned().collect::<Vec<_>>();
    let records = |case: &Case| steps(case).into_iter().flat_map(|step| step.record).collect();
    let mut streams: Vec<_> = cases.map(|case| Stream::new(case.name, records(&case))).collect();
    let called = (0..=255).flat_map(|method| [update(5, C, H, (method, method)), update(6, C, H, (method, method))]);
    let input = [load(C, &[], &[], &[], &[])].into_iter().chain(called).flatten().collect();
    streams.push(Stream::new("every method token, called", input));
    streams
}

/// The longest records, a load and one that replaces a contract, and the longest that adds a service: all read to the end.
fn longest() -> Vec<Stream> {
    let Sizes { services, rows, callers, .. } = *Rules::IN_FORCE.sizes;
    let aid = |n: usize| [vec![n as u8; *Aid::LENGTHS.end() - 1], vec![(n + (n >> 8)) as u8]].concat();
    let services: Vec<_> = (0..services as u8).map(|method| (1, method)).collect();
    let rows: Vec<Row> = (1..=rows).map(|n| (aid(n), services[0])).collect();
    let loaded = load(&aid(0), &services, &rows, &rows, &rows);
    assert_eq!(loaded.len(), LONGEST_RECORD);
    let replaced = [load(&aid(0), &[], &[], &[], &[]), replace(&aid(0), &services, &rows, &rows, &rows)].concat();
    let callers: Vec<_> = (1..=callers).map(aid).collect();
    let added = [load(&aid(0), &[], &[], &[], &[]), add_service(&aid(0), (1, 0), &callers)].concat();
    let four = paper().concat();
    let mut byte_more = loaded.clone();
    byte_more.push(0);
    vec![
        Stream::new("the longest load", loaded.clone()),
        Stream::new("the longest load twice, between records", [&four[..], &loaded, &loaded, &four].concat()),
        Stream::new("the longest load, a byte short", loaded[..LONGEST_RECORD - 1].to_vec()),
        Stream::new("the longest load and a byte", byte_more),
        Stream::new("a load, and a service with as many grants as it may bring", added),
        Stream::new("a load, and the longest contract in its place", replaced),
    ]
}

/// So many records that ordinals have one to five digits and pass 16 bits; the last line is a record's or a bad frame's.
fn counts() -> Vec<Stream> {
    let mut streams = Vec::new();
    for count in [9, 10, 99, 100, 300, 999, 1_000, 9_999, 65_600] {
        let records: Vec<u8> = paper().into_iter().cycle().take(count).flatten().collect();
        let ended = [&records[..], &[0, 0, 1, 1]].concat();
        streams.push(Stream::new(format!("{count} records"), records));
        streams.push(Stream::new(format!("{count} records and a length of 0"), ended));
    }
    streams
}

/// The seeds of the random histories.
pub const SEEDS: RangeInclusive<u64> = 1..=12;

/// Random histories: whole, cut off at random places, and with a byte changed.
pub fn histories() -> Vec<Stream> {
    let mut streams = Vec::new();
    for seed in SEEDS {
        let framed = history(seed, true);
        let mut random = Random::new(seed);
        let ends = ends(&framed.input);
        for _ in 0..6 {
            streams.push(framed.cut(random.below(framed.input.len())));
            let end = *random.pick(&ends).expect("a record");
            streams.push(framed.cut(end + random.below(4)));
            let mut input = framed.input.clone();
            let at = random.below(input.len());
            input[at] = random.byte();
            streams.push(Stream::new(format!("{}, byte {at} changed", framed.name), input));
        }
        streams.push(framed);
        streams.push(history(seed, false));
    }
    streams
}

/// 400 records of one card's history. `framed`: those alone that are as long as they say, good or spoiled; else all, so
/// that sooner or later a length is wrong.
pub fn history(seed: u64, framed: bool) -> Stream {
    let (mut source, mut held) = (Source::new(seed, 0), Machine::default());
    let mut records = Vec::new();
    while records.len() < 400 {
        let record = source.record(&held);
        if !framed || frames(&record).records == [&record[..]] {
            held.judge(Rules::IN_FORCE, &record);
            records.push(record);
        }
    }
    let sort = if framed { "framed" } else { "any" };
    Stream::new(format!("history {seed}, {sort}"), records.concat())
}

/// Where each record ends.
fn ends(input: &[u8]) -> Vec<usize> {
    let ends = frames(input).records.into_iter().scan(0, |end, record| {
        *end += record.len();
        Some(*end)
    });
    ends.collect()
}
