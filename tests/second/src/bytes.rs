//! The byte engine: judges records on an image, in place, by the placing rules.
//! It shares no code with `machine`. Every entry gives the answer and the second number. Records and images are read by
//! the rules that are handed over, on the card that has the image's length: the engine is built for each version of images.

pub mod layout;
mod package;
mod read_out;
mod record;
pub mod relation;
mod sound;
mod update;

use crate::rules::{Rules, Sizes};
use layout::{has, Image, Version, Version01, Version02, Version03, AID, HEADER_BYTES};
use record::Change;
use relation::Relation;
use sound::sound;

const REFUSED: u32 = 255;

/// 0 with the count of used package numbers, or 1.
pub fn check(rules: Rules, image: &[u8]) -> (u32, u32) {
    engine(rules, image).check(rules, image)
}

/// Writes the empty image into a buffer of a card's size.
pub fn empty(rules: Rules, image: &mut [u8]) -> (u32, u32) {
    engine(rules, image).empty(image)
}

/// R-2's converter: takes version 01 images, sound by the last rules that had them, into a buffer of version 02's size.
pub fn convert(old: &[u8], image: &mut [u8]) -> (u32, u32) {
    carry_over::<Version01, Version02>(Rules::R_7, old, image)
}

/// R-9's converter: takes version 02 images, sound by the rules in force, into a buffer of the large card's size.
pub fn enlarge(image: &[u8], large: &mut [u8]) -> (u32, u32) {
    carry_over::<Version02, Version03>(Rules::IN_FORCE, image, large)
}

/// Judges a record: 0 with the package number and the image changed, or the cause with 255 and
/// nothing changed.
pub fn judge(rules: Rules, image: &mut [u8], record: &[u8]) -> (u32, u32) {
    engine(rules, image).judge(rules, image, record)
}

/// Writes a package's contract as a record of kind 1: 0 with its length, or 1, 5 or 12 with 0.
pub fn read_out(rules: Rules, image: &[u8], number: u32, out: &mut [u8]) -> (u32, u32) {
    engine(rules, image).read_out(rules, image, number, out)
}

/// The part of the record that is its first AID's bytes; an empty part of a malformed record. It takes records of each card.
pub fn aid(rules: Rules, record: &[u8]) -> &[u8] {
    match Sizes::ALL.into_iter().find_map(|sizes| record::read(rules.on(sizes), record)) {
        Some(read) => &read.aid[1..],
        None => &record[..0],
    }
}

/// The engine for the images of the card that has this length; for another length, of the small card.
fn engine(rules: Rules, image: &Image) -> &'static dyn Engine {
    match rules.early_grants {
        _ if image.len() == Version03::SIZE => &Version03,
        true => &Version02,
        false => &Version01,
    }
}

/// What both converters do: takes an image of one version, sound by the rules, into a buffer of the other's size. Contracts,
/// numbers and list order are kept. Else 1, and the buffer is as it was.
fn carry_over<From: Version, To: Version>(rules: Rules, old: &Image, image: &mut Image) -> (u32, u32) {
    if image.len() != To::SIZE || !sound::<From>(rules, old) {
        return (1, REFUSED);
    }
    write_empty::<To>(image);
    To::set_used(image, From::used(old));
    for number in From::packages() {
        let services = &old[From::tokens_at(number, 0)..From::tokens_at(number + 1, 0)];
        image[To::aid_at(number)..][..AID].copy_from_slice(From::aid(old, number));
        image[To::tokens_at(number, 0)..][..services.len()].copy_from_slice(services);
        To::set_entry(image, To::provides_at(number), From::provides(old, number));
        for other in From::packages() {
            To::set_entry(image, To::cell(To::CALLS, number, other), From::calls(old, number, other));
            To::set_entry(image, To::cell(To::GRANTS, number, other), From::grants(old, number, other));
            To::set_entry(image, To::cell(To::NEEDS, number, other), From::needs(old, number, other));
        }
    }
    for relation in [Relation::Calls, Relation::Grants] {
        for listed in relation.rows::<From>(old) {
            relation.append::<To>(image, listed.own, listed.row());
        }
    }
    (0, 0)
}

fn write_empty<V: Version>(image: &mut Image) {
    image.fill(0);
    image[..HEADER_BYTES].copy_from_slice(&V::HEADER);
}

/// The entries that take an image of a version.
trait Engine {
    fn check(&self, rules: Rules, image: &[u8]) -> (u32, u32);
    fn empty(&self, image: &mut [u8]) -> (u32, u32);
    fn judge(&self, rules: Rules, image: &mut [u8], record: &[u8]) -> (u32, u32);
    fn read_out(&self, rules: Rules, image: &[u8], number: u32, out: &mut [u8]) -> (u32, u32);
}

impl<V: Version> Engine for V {
    fn check(&self, rules: Rules, image: &[u8]) -> (u32, u32) {
        match sound::<V>(rules, image) {
            true => (0, V::used(image).count_ones()),
            false => (1, REFUSED),
        }
    }

    fn empty(&self, image: &mut [u8]) -> (u32, u32) {
        if image.len() != V::SIZE {
            return (1, REFUSED);
        }
        write_empty::<V>(image);
        (0, 0)
    }

    fn judge(&self, rules: Rules, image: &mut [u8], record: &[u8]) -> (u32, u32) {
        if !sound::<V>(rules, image) {
            return (1, REFUSED);
        }
        match judge_sound::<V>(rules, image, record) {
            Ok(number) => (0, number as u32),
            Err(cause) => (cause, REFUSED),
        }
    }

    fn read_out(&self, rules: Rules, image: &[u8], number: u32, out: &mut [u8]) -> (u32, u32) {
        if !sound::<V>(rules, image) {
            return (1, 0);
        }
        let number = number as usize;
        if !V::packages().contains(&number) || !has(V::used(image), number) {
            return (5, 0);
        }
        match read_out::read_out::<V>(image, number, out) {
            Ok(length) => (0, length as u32),
            Err(cause) => (cause, 0),
        }
    }
}

fn judge_sound<V: Version>(rules: Rules, image: &mut Image, bytes: &[u8]) -> Result<usize, u32> {
    let record = record::read(rules.on(V::SIZES), bytes).ok_or(2u32)?;
    if record::contradicts(rules, &record) {
        return Err(3);
    }
    if let Change::Load(contract) = &record.change {
        return package::load::<V>(image, record.aid, contract);
    }
    let number = V::package(image, record.aid).ok_or(5u32)?;
    match record.change {
        Change::Load(_) => {}
        Change::Remove => package::remove::<V>(image, number)?,
        Change::AddService(tokens, callers) => update::add_service::<V>(image, number, tokens, callers)?,
        Change::RemoveService(tokens) => update::remove_service::<V>(rules, image, number, tokens)?,
        Change::AddCall(row) => update::add_call::<V>(image, number, row)?,
        Change::RemoveCall(row) => update::remove_call::<V>(image, number, row)?,
        Change::AddGrant(row) => update::add_grant::<V>(rules, image, number, row)?,
        Change::RemoveGrant(row) => update::remove_grant::<V>(image, number, row)?,
        Change::AddNeed(row) => update::add_need::<V>(image, number, row)?,
        Change::RemoveNeed(row) => update::remove_need::<V>(image, number, row)?,
        Change::Replace(contract) => package::replace::<V>(image, number, record.aid, &contract)?,
    }
    Ok(number)
}
