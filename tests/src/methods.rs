//! Where method tokens stand in records and in images, so that they can be set, and counted by their places.

use crate::card::OLD_IMAGE;
use crate::rules::{Rules, Sizes};
use crate::tables::Form;
use std::fmt;

/// A part of records that has tokens: one of the lists of kind 1 or 11, or a kind of update.
#[derive(Clone, Copy, Debug, PartialEq, Eq, PartialOrd, Ord)]
pub enum Place {
    Provides(u8),
    Calls(u8),
    Grants(u8),
    Needs(u8),
    /// 3 to 10.
    Kind(u8),
}

impl Place {
    /// Every place in records that the rules in force read, in the order of the kinds.
    pub fn all() -> impl Iterator<Item = Place> {
        let updates = (3..=10).filter(|kind| Rules::IN_FORCE.reads(*kind)).map(Place::Kind);
        Place::lists(1).into_iter().chain(updates).chain(Place::lists(11))
    }

    /// The lists of a whole contract.
    fn lists(kind: u8) -> [Place; 4] {
        [Place::Provides, Place::Calls, Place::Grants, Place::Needs].map(|list| list(kind))
    }
}

impl fmt::Display for Place {
    fn fmt(&self, f: &mut fmt::Formatter) -> fmt::Result {
        match self {
            Place::Provides(kind) => write!(f, "kind {kind} provides"),
            Place::Calls(kind) => write!(f, "kind {kind} calls"),
            Place::Grants(kind) => write!(f, "kind {kind} grants"),
            Place::Needs(kind) => write!(f, "kind {kind} needs"),
            Place::Kind(kind) => write!(f, "kind {kind}"),
        }
    }
}

/// The byte of each method token of a record whose form is right; of another, of as many as are there.
pub fn of_record(record: &[u8]) -> Vec<(Place, usize)> {
    let mut found = Vec::new();
    walk(record, &mut found);
    found.retain(|(_, at)| *at < record.len());
    found
}

fn walk(record: &[u8], found: &mut Vec<(Place, usize)>) -> Option<()> {
    let after_aid = |at: usize| Some(at + 1 + usize::from(*record.get(at)?));
    let [.., version, kind] = *record.first_chunk::<4>()?;
    let sizes = Sizes::ALL.into_iter().find(|sizes| sizes.record_version == version).unwrap_or(&Sizes::SMALL);
    let mut at = after_aid(4)?;
    match kind {
        1 | 11 => {
            let [provides, lists @ ..] = Place::lists(kind);
            let services = usize::from(*record.get(at)?);
            found.extend((1..=services).map(|n| (provides, at + 2 * n)));
            at += 1 + 2 * services;
            for list in lists {
                let count = record.get(at..at + sizes.count_bytes)?;
                at += count.len();
                for _ in 0..count.iter().fold(0, |rows, byte| 256 * rows + usize::from(*byte)) {
                    at = after_aid(at)? + 2;
                    found.push((list, at - 1));
                }
            }
        }
        3 | 4 => found.push((Place::Kind(kind), at + 1)),
        5..=10 => found.push((Place::Kind(kind), after_aid(at)? + 1)),
        _ => {}
    }
    Some(())
}

/// A part of images that has tokens.
#[derive(Clone, Copy, Debug, PartialEq, Eq, PartialOrd, Ord)]
pub enum Held {
    Provided,
    Unmet,
    /// Since version 02.
    Waiting,
}

impl fmt::Display for Held {
    fn fmt(&self, f: &mut fmt::Formatter) -> fmt::Result {
        f.write_str(match self {
            Held::Provided => "services",
            Held::Unmet => "unmet calls",
            Held::Waiting => "waiting grants",
        })
    }
}

/// The byte of each method token that an image of any version holds.
pub fn of_image(image: &[u8]) -> Vec<(Held, usize)> {
    let form = Form::of_image(image);
    let rows = |list: usize| 0..usize::from(image[list]).min(form.sizes.listed);
    let services = |package: usize| (0..form.sizes.services).map(move |service| (package, service));
    let provided = (0..form.sizes.packages).flat_map(services);
    let provided = provided.filter(|(package, service)| form.provided_bit(*package, *service).is_set(image));
    let provided = provided.map(|(package, service)| (Held::Provided, form.token_pair(package, service) + 1));
    // A method token is the last byte but one of an unmet call, and the last of a waiting grant.
    let unmet = rows(form.unmet).map(|n| (Held::Unmet, form.unmet_at(n + 1) - 2));
    let waiting = rows(form.waiting).filter(|_| image.len() != OLD_IMAGE);
    let waiting = waiting.map(|n| (Held::Waiting, form.waiting_at(n + 1) - 1));
    provided.chain(unmet).chain(waiting).collect()
}

#[cfg(test)]
mod tests {
    use super::*;
    use crate::write::{add_service, remove, remove_service, update, Writer};

    #[test]
    fn every_place_is_found() {
        let (own, other) = ([0xF0; 5], vec![0xF1; 16]);
        let row = |method| (other.clone(), (0, method));
        for (kind, sizes) in [(1, &Sizes::SMALL), (11, &Sizes::SMALL), (1, &Sizes::LARGE), (11, &Sizes::LARGE)] {
            let whole = Writer(sizes).contract(kind, &own, &[(0, 1), (0, 2)], &[row(3)], &[row(4), row(5)], &[row(6)]);
            let found: Vec<(Place, u8)> = of_record(&whole).into_iter().map(|(place, at)| (place, whole[at])).collect();
            let [provides, calls, grants, needs] = Place::lists(kind);
            assert_eq!(found, [(provides, 1), (provides, 2), (calls, 3), (grants, 4), (grants, 5), (needs, 6)]);
            assert_eq!(of_record(&whole[..12]), []);
        }
        let mut records = vec![add_service(&own, (0, 9), std::slice::from_ref(&other)), remove_service(&own, (0, 9))];
        records.extend((5..=10).map(|kind| update(kind, &own, &other, (0, 9))));
        for (kind, record) in (3..).zip(records) {
            let [(place, at)] = of_record(&record)[..] else { panic!("kind {kind} has one token pair") };
            assert_eq!((place, record[at]), (Place::Kind(kind), 9));
        }
        assert_eq!(of_record(&remove(&own)), []);
    }
}
