//! R-9 misread: engines that are wrong on the large card, about its records, or about what the converter keeps.

use crate::card::{Card, Verdict, BYTES, IMAGE, LARGE_IMAGE, OLD_IMAGE, ON_LARGE};
use crate::machine::record::{self, Change};
use crate::machine::Aid;
use crate::rules::{Rules, Sizes};
use crate::tables::{in_force, Form, Tables};

const FORM: Form = Form::of(ON_LARGE);
/// The limits of the small card.
const SMALL: &Sizes = &Sizes::SMALL;

fn is_large(image: &[u8]) -> bool {
    image.len() == LARGE_IMAGE
}

/// Judges rightly, and changes the bytes of the large card after an accepted record of the kind, by the package's number.
fn after(kind: u8, image: &mut [u8], bytes: &[u8], change: impl FnOnce(usize, &mut [u8])) -> Verdict {
    let verdict = BYTES.judge(image, bytes);
    if verdict.answer == 0 && bytes[3] == kind && is_large(image) {
        change(verdict.second as usize, image);
    }
    verdict
}

/// The used field is little-endian.
pub fn used_swapped(image: &mut [u8], bytes: &[u8]) -> Verdict {
    after(1, image, bytes, |_, image| image.swap(FORM.used, FORM.used + 1))
}

/// A row of the services that a package provides is little-endian.
pub fn provides_swapped(image: &mut [u8], bytes: &[u8]) -> Verdict {
    after(1, image, bytes, |number, image| image.swap(FORM.provides + 2 * number, FORM.provides + 2 * number + 1))
}

/// The rows of calls are little-endian.
pub fn calls_swapped(image: &mut [u8], bytes: &[u8]) -> Verdict {
    after(5, image, bytes, |_, image| image[FORM.calls..FORM.grants].chunks_mut(2).for_each(<[u8]>::reverse))
}

/// A record of the other card's version is let in, but for whole contracts.
fn other_version(large: bool, image: &mut [u8], bytes: &[u8]) -> Verdict {
    let mut patched = bytes.to_vec();
    if is_large(image) == large && bytes.len() > 3 && ![1, 11].contains(&bytes[3]) {
        patched[2] = in_force(image).sizes.record_version;
    }
    BYTES.judge(image, &patched)
}

pub fn version_01_on_large(image: &mut [u8], bytes: &[u8]) -> Verdict {
    other_version(true, image, bytes)
}

pub fn version_02_on_small(image: &mut [u8], bytes: &[u8]) -> Verdict {
    other_version(false, image, bytes)
}

/// The AID entry takes the small card's records alone.
pub fn aid_of_version_01_alone(record: &[u8]) -> &[u8] {
    match record.get(2) {
        Some(2) => &record[..0],
        _ => BYTES.aid(record),
    }
}

/// A row more than a list has is let in, where a record brings one.
pub fn thirty_third_row(image: &mut [u8], bytes: &[u8]) -> Verdict {
    let verdict = BYTES.judge(image, bytes);
    let number = Tables::in_force(image).and_then(|tables| tables.number(Aid::new(BYTES.aid(bytes))));
    match (verdict.answer, bytes.get(3), number) {
        (10, Some(5), Some(number)) | (11, Some(7), Some(number)) if is_large(image) => Verdict::new(0, number as u32),
        _ => verdict,
    }
}

/// Refuses with the cause what leaves tables of the large card of which this holds, and those before it do not.
fn refused_if(cause: u32, image: &mut [u8], bytes: &[u8], holds: impl Fn(&Tables) -> bool) -> Verdict {
    let mut own = image.to_vec();
    let verdict = BYTES.judge(&mut own, bytes);
    let [before, after] = [&image[..], &own].map(|image| Tables::of(ON_LARGE, image));
    if let (0, Some(before), Some(after)) = (verdict.answer, before, after) {
        if holds(&after) && !holds(&before) {
            return Verdict::new(cause, 255);
        }
    }
    image.copy_from_slice(&own);
    verdict
}

/// The large card has the small one's limits: of packages, of services that are added, and of each list.
pub fn eight_packages(image: &mut [u8], bytes: &[u8]) -> Verdict {
    refused_if(7, image, bytes, |tables| tables.packages.iter().flatten().count() > SMALL.packages)
}

pub fn eight_services(image: &mut [u8], bytes: &[u8]) -> Verdict {
    if bytes.get(3) != Some(&3) {
        return BYTES.judge(image, bytes);
    }
    refused_if(7, image, bytes, |tables| {
        let provided = |services: &[Option<_>]| services.iter().flatten().count();
        tables.packages.iter().flatten().any(|package| provided(&package.services) > SMALL.services)
    })
}

pub fn sixteen_unmet_calls(image: &mut [u8], bytes: &[u8]) -> Verdict {
    refused_if(10, image, bytes, |tables| tables.unmet.len() > SMALL.listed)
}

pub fn sixteen_waiting_grants(image: &mut [u8], bytes: &[u8]) -> Verdict {
    refused_if(11, image, bytes, |tables| tables.waiting.len() > SMALL.listed)
}

/// The high byte of a count is not looked at, so that bytes are left over.
pub fn counts_of_a_byte(image: &mut [u8], bytes: &[u8]) -> Verdict {
    let read = record::read(in_force(image), bytes);
    let long = read.is_some_and(|record| match record.change {
        Change::Load(lists) | Change::Replace(lists) => {
            [lists.calls, lists.grants, lists.needs].iter().any(|rows| rows.len() > 255)
        }
        _ => false,
    });
    match long && BYTES.check(image).answer == 0 {
        true => Verdict::new(2, 255),
        false => BYTES.judge(image, bytes),
    }
}

/// A row more than a record may have is read.
pub fn row_273_read(image: &mut [u8], bytes: &[u8]) -> Verdict {
    const MORE: Sizes = Sizes { rows: Sizes::LARGE.rows + 1, ..Sizes::LARGE };
    let too_long = record::read(ON_LARGE, bytes).is_none() && record::read(ON_LARGE.on(&MORE), bytes).is_some();
    match BYTES.judge(image, bytes) {
        Verdict { answer: 2, .. } if too_long && is_large(image) => Verdict::new(10, 255),
        verdict => verdict,
    }
}

/// The check knows the small card alone; or it does not look at the version of the large one.
pub fn small_alone(image: &[u8]) -> Verdict {
    match is_large(image) {
        true => Verdict::new(1, 255),
        false => BYTES.check(image),
    }
}

pub fn version_unchecked(image: &[u8]) -> Verdict {
    let mut image = image.to_vec();
    if is_large(&image) {
        image[2] = FORM.header[2];
    }
    BYTES.check(&image)
}

/// The empty image is written for the small card alone.
pub fn empties_small_alone(image: &mut [u8]) -> Verdict {
    match is_large(image) {
        true => Verdict::new(1, 255),
        false => BYTES.empty(image),
    }
}

/// What is read out of the large card has the small one's version; or numbers past the small one's are not used.
pub fn reads_out_version_01(image: &[u8], number: u32, out: &mut [u8]) -> Verdict {
    let verdict = BYTES.read_out(image, number, out);
    if verdict.answer == 0 {
        out[2] = SMALL.record_version;
    }
    verdict
}

pub fn reads_out_numbers_to_7(image: &[u8], number: u32, out: &mut [u8]) -> Verdict {
    match number as usize {
        n if n >= SMALL.packages && BYTES.check(image).answer == 0 => Verdict::new(5, 0),
        _ => BYTES.read_out(image, number, out),
    }
}

/// Enlarges rightly, and changes the tables.
fn enlarged(image: &[u8], large: &mut [u8], change: impl FnOnce(&mut Tables)) -> Verdict {
    let verdict = BYTES.enlarge(image, large);
    if let (0, Some(mut tables)) = (verdict.answer, Tables::of(ON_LARGE, large)) {
        change(&mut tables);
        large.copy_from_slice(&tables.write(ON_LARGE));
    }
    verdict
}

/// Package numbers are closed up.
pub fn closes_up(image: &[u8], large: &mut [u8]) -> Verdict {
    enlarged(image, large, |tables| {
        let used: Vec<usize> = (0..tables.packages.len()).filter(|n| tables.at(*n).is_some()).collect();
        let new = |number: &mut usize| *number = used.iter().position(|old| old == number).expect("a used number");
        tables.packages.retain(Option::is_some);
        for bit in [&mut tables.calls, &mut tables.grants, &mut tables.needs].into_iter().flatten() {
            new(&mut bit.caller);
            new(&mut bit.callee);
        }
        tables.unmet.iter_mut().for_each(|row| new(&mut row.caller));
        tables.waiting.iter_mut().for_each(|row| new(&mut row.callee));
    })
}

/// Service numbers are closed up.
pub fn closes_up_services(image: &[u8], large: &mut [u8]) -> Verdict {
    enlarged(image, large, |tables| {
        for package in 0..tables.packages.len() {
            let Some(services) = tables.at(package).map(|own| own.services.clone()) else { continue };
            tables.renumber(package, |old| services[..old].iter().flatten().count());
        }
    })
}

/// The lists are put in the order from the last row to the first.
pub fn backwards(image: &[u8], large: &mut [u8]) -> Verdict {
    enlarged(image, large, |tables| {
        tables.unmet.reverse();
        tables.waiting.reverse();
    })
}

/// Needs are left behind.
pub fn without_needs(image: &[u8], large: &mut [u8]) -> Verdict {
    enlarged(image, large, |tables| tables.needs.clear())
}

/// The bytes of the tables stand in the high bytes of the new ones.
pub fn into_high_bytes(image: &[u8], large: &mut [u8]) -> Verdict {
    let verdict = BYTES.enlarge(image, large);
    if verdict.answer == 0 {
        large[FORM.provides..FORM.unmet].chunks_mut(2).for_each(<[u8]>::reverse);
    }
    verdict
}

/// Looks at a card's size and header alone.
pub fn unsound(image: &[u8], large: &mut [u8]) -> Verdict {
    let verdict = BYTES.enlarge(image, large);
    let of_small = image.len() == IMAGE && image.starts_with(&Form::of(Rules::IN_FORCE).header);
    if verdict.answer == 1 && of_small && is_large(large) {
        BYTES.empty(large);
        return Verdict::new(0, 0);
    }
    verdict
}

/// Takes cards of version 01 too.
pub fn version_01(image: &[u8], large: &mut [u8]) -> Verdict {
    let mut converted = vec![0; IMAGE];
    match image.len() == OLD_IMAGE && BYTES.convert(image, &mut converted).answer == 0 {
        true => BYTES.enlarge(&converted, large),
        false => BYTES.enlarge(image, large),
    }
}

pub fn into_more(image: &[u8], large: &mut [u8]) -> Verdict {
    let size = large.len().min(LARGE_IMAGE);
    BYTES.enlarge(image, &mut large[..size])
}

pub fn with_a_count(image: &[u8], large: &mut [u8]) -> Verdict {
    match BYTES.enlarge(image, large) {
        Verdict { answer: 0, .. } => BYTES.check(large),
        refused => refused,
    }
}

/// Empties the buffer before it looks at the image.
pub fn refused_writes(image: &[u8], large: &mut [u8]) -> Verdict {
    BYTES.empty(large);
    BYTES.enlarge(image, large)
}
