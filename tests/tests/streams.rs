//! The streams that the session program is run on tell it from programs that are wrong in one way each.

use comparison::card::LONGEST_RECORD;
use comparison::machine;
use comparison::methods::{self, Place};
use comparison::pairs::{self, Kind};
use comparison::rules::Rules;
use comparison::session::streams::{all, edges, history, SEEDS};
use comparison::session::{frames, transcript, Frames};
use std::collections::BTreeSet;

/// A wrong program: what it makes of the frames and of the right lines.
type Wrong = fn(&Frames, Vec<String>) -> Vec<String>;

const WRONG: [(&str, Wrong); 21] = [
    ("goes on after a bad frame", |frames, lines| [lines, behind(frames.rest)].concat()),
    ("the line of a bad frame has the ordinal 7", |frames, lines| {
        if_bad(frames, lines, |_| Some("7 - 2 -\n".to_string()))
    }),
    ("a single byte is the end", |frames, lines| if_bad(frames, lines, |line| (frames.rest.len() > 1).then_some(line))),
    ("stops after four records", |_, lines| lines.into_iter().take(4).collect()),
    ("a bad frame has no line", |frames, lines| if_bad(frames, lines, |_| None)),
    ("the end has a line", |frames, mut lines| {
        if frames.rest.is_empty() {
            lines.push(format!("{} - 2 -\n", lines.len() + 1));
        }
        lines
    }),
    ("a record that is cut off is the end", |frames, lines| {
        if_bad(frames, lines, |line| (said(frames.rest) < frames.rest.len()).then_some(line))
    }),
    ("a byte that lacks is taken for 0", |frames, lines| {
        let padded = [frames.rest, &[0]].concat();
        if_bad(frames, lines, |line| Some(read(&padded, line)))
    }),
    ("a byte more than the longest record is read", |frames, lines| {
        let read = |line| if said(frames.rest) == LONGEST_RECORD + 1 { read(frames.rest, line) } else { line };
        if_bad(frames, lines, |line| Some(read(line)))
    }),
    ("the longest record is not read", |frames, lines| bad_at(frames, lines, LONGEST_RECORD)),
    ("4 bytes are not read", |frames, lines| bad_at(frames, lines, 4)),
    ("a kind that is not known is -", |frames, mut lines| {
        for (record, line) in frames.records.iter().zip(&mut lines) {
            if !Rules::IN_FORCE.reads(record[3]) {
                *line = line.replace(&format!(" {} ", record[3]), " - ");
            }
        }
        lines
    }),
    ("a method token of 128 is read", |frames, _| frames.lines_by(Rules::DOCUMENT_01).expect("no difference")),
    ("a grant of a service not provided is refused", |frames, _| frames.lines_by(Rules::R_7).expect("no difference")),
    ("kind 11 is not read", |frames, _| frames.lines_by(Rules::R_2).expect("no difference")),
    ("kinds 9 and 10 are read", |frames, _| frames.lines_by(Rules::R_1).expect("no difference")),
    ("a method token of 127 is not read", |frames, mut lines| {
        for (record, line) in frames.records.iter().zip(&mut lines) {
            if methods::of_record(record).iter().any(|(_, at)| record[*at] == 127) {
                let ordinal = line.split(' ').next().expect("an ordinal");
                *line = format!("{ordinal} {} 2 -\n", record[3]);
            }
        }
        lines
    }),
    ("a refusal has 255", |_, lines| lines.into_iter().map(|line| line.replace(" -\n", " 255\n")).collect()),
    ("ordinals begin with 0", |_, lines| renumbered(lines, |ordinal| ordinal - 1)),
    ("an ordinal has a byte", |_, lines| renumbered(lines, |ordinal| ordinal % 256)),
    ("an ordinal has 16 bits", |_, lines| renumbered(lines, |ordinal| ordinal % 65_536)),
];

/// The lines, with another in place of a bad frame's, or none.
fn if_bad(frames: &Frames, mut lines: Vec<String>, other: impl FnOnce(String) -> Option<String>) -> Vec<String> {
    let bad = if frames.rest.is_empty() { None } else { lines.pop() };
    lines.extend(bad.and_then(other));
    lines
}

/// The lines of the records behind a bad length.
fn behind(rest: &[u8]) -> Vec<String> {
    frames(rest.get(2..).unwrap_or_default()).lines().expect("no difference")
}

/// What the length field says.
fn said(bytes: &[u8]) -> usize {
    bytes.iter().take(2).fold(0, |length, byte| length * 256 + usize::from(*byte))
}

/// The line of a bad frame as that of a malformed record, where the bytes are as many as they say.
fn read(bytes: &[u8], line: String) -> String {
    match bytes.len() >= 4 && said(bytes) == bytes.len() {
        true => line.replace(" - 2", &format!(" {} 2", bytes[3])),
        false => line,
    }
}

/// The lines of a program that ends at the first record of this length.
fn bad_at(frames: &Frames, mut lines: Vec<String>, length: usize) -> Vec<String> {
    if let Some(at) = frames.records.iter().position(|record| record.len() == length) {
        lines.truncate(at);
        lines.push(format!("{} - 2 -\n", at + 1));
    }
    lines
}

fn renumbered(lines: Vec<String>, other: impl Fn(usize) -> usize) -> Vec<String> {
    let rest = |line: String| line.split_once(' ').expect("an ordinal").1.to_string();
    (1..).zip(lines).map(|(ordinal, line)| format!("{} {}", other(ordinal), rest(line))).collect()
}

#[test]
fn the_streams_tell_wrong_programs_from_the_right_one() {
    let mut left = WRONG.to_vec();
    for stream in all() {
        let frames = frames(&stream.input);
        let right = frames.lines().expect("no difference");
        left.retain(|(_, wrong)| wrong(&frames, right.clone()) == right);
        if left.is_empty() {
            return;
        }
    }
    panic!("not told: {:?}", left.iter().map(|(name, _)| *name).collect::<Vec<_>>());
}

/// Every answer that the paper makes possible for a kind is in a history's lines, but for 1: no session's image is unsound.
#[test]
fn the_histories_have_every_pair() {
    let lines: String = SEEDS.map(|seed| transcript(&history(seed, true).input)).collect();
    for (kind, answer) in pairs::all(Rules::IN_FORCE) {
        let seen = lines.contains(&format!(" {kind} {answer} "));
        assert!(seen || !matches!(kind, Kind::Known(_)) || answer == 1, "kind {kind} never has answer {answer}");
    }
}

/// Method tokens of 127 and of 128 are in every place, in a record that is read but for the 128.
#[test]
fn the_edges_have_method_tokens_in_every_place() {
    let mut seen = BTreeSet::new();
    let any_method = Rules { most_method: 255, ..Rules::IN_FORCE };
    for stream in edges() {
        for record in frames(&stream.input).records.iter().filter(|record| read_by(any_method, record)) {
            seen.extend(methods::of_record(record).into_iter().map(|(place, at)| (place, record[at])));
        }
    }
    for place in Place::all() {
        assert!([127, 128].into_iter().all(|method| seen.contains(&(place, method))), "{place}");
    }
}

fn read_by(rules: Rules, record: &[u8]) -> bool {
    machine::record::read(rules, record).is_some()
}
