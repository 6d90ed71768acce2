//! Damaged, truncated and random records.

use crate::machine::Aid;
use crate::methods;
use crate::random::Random;
use crate::write::{self, set_length};

/// Random bytes, half of them behind a right length, version and kind.
pub fn noise(version: u8, random: &mut Random) -> Vec<u8> {
    let mut record: Vec<u8> = (0..random.below(48)).map(|_| random.byte()).collect();
    if record.len() >= 4 && random.percent(50) {
        record[2] = version;
        record[3] = random.between(1, 11) as u8;
        set_length(&mut record);
    }
    record
}

/// A record with something about it changed.
pub fn spoiled(mut record: Vec<u8>, random: &mut Random) -> Vec<u8> {
    match random.below(12) {
        0..=2 => {
            let at = random.below(record.len());
            record[at] = changed(record[at], random);
        }
        // The first four bytes, the first AID's length and what follows it.
        3 => {
            let at = random.below(record.len().min(6));
            record[at] = changed(record[at], random);
        }
        4 | 5 => {
            record.truncate(random.below(record.len()));
            right_length(&mut record, random);
        }
        6 => {
            record.extend((0..random.between(1, 20)).map(|_| if random.percent(50) { 0 } else { random.byte() }));
            right_length(&mut record, random);
        }
        7 => {
            let at = random.below(record.len());
            record.remove(at);
            right_length(&mut record, random);
        }
        8 => wrong_aid(&mut record, random),
        _ => wrong_method(&mut record, random),
    }
    record
}

/// An AID too short or too long, in a record that is right otherwise: the first one, or the one
/// that follows it in kinds 5 to 10.
fn wrong_aid(record: &mut Vec<u8>, random: &mut Random) {
    let second = 5 + usize::from(record[4]);
    let at = if (5..=10).contains(&record[3]) && random.percent(50) { second } else { 4 };
    let (end, wrong) = (at + 1 + usize::from(record[at]), [0, *Aid::LENGTHS.start() - 1, *Aid::LENGTHS.end() + 1]);
    let aid = write::aid(&vec![0xF0; wrong[random.below(wrong.len())]]);
    record.splice(at..end, aid);
    set_length(record);
}

/// A method token of 128 or more, in a record that is right otherwise: in any of its parts that have tokens. Seldom the
/// token is the highest that is right.
fn wrong_method(record: &mut [u8], random: &mut Random) {
    let found = methods::of_record(record);
    let mut places: Vec<_> = found.iter().map(|(place, _)| place).collect();
    places.dedup();
    if let Some(place) = random.pick(&places) {
        let own: Vec<_> = found.iter().filter(|(other, _)| other == *place).collect();
        let (_, at) = own[random.below(own.len())];
        record[*at] = [128, 128, 128, 129, 255, 127][random.below(6)];
    }
}

fn changed(byte: u8, random: &mut Random) -> u8 {
    match random.below(3) {
        0 => byte.wrapping_add(1),
        1 => byte.wrapping_sub(1),
        _ => random.byte(),
    }
}

/// Mostly the length field is put right, so that what comes after it is looked at.
fn right_length(record: &mut [u8], random: &mut Random) {
    if record.len() >= 2 && random.percent(75) {
        set_length(record);
    }
}
