//! Whether an image is sound.

use super::layout::*;
use super::relation::Relation;
use crate::rules::Rules;

pub fn sound<V: Version>(rules: Rules, image: &[u8]) -> bool {
    // What stands before the lists.
    let Some(tables) = image.get(..V::UNMET) else { return false };
    image.len() == V::SIZE
        && image[..HEADER_BYTES] == V::HEADER
        && packages_sound::<V>(rules, tables)
        && bits_sound::<V>(tables)
        && list_sound::<V>(rules, image, Relation::Calls)
        && list_sound::<V>(rules, image, Relation::Grants)
}

/// Used AIDs are valid and differ, tokens provided by one package are allowed and differ, unused places are zero.
fn packages_sound<V: Version>(rules: Rules, image: &Image) -> bool {
    V::packages().all(|n| {
        let own = V::aid(image, n);
        if has(V::used(image), n) {
            valid(own) && (0..n).all(|m| V::aid(image, m) != own) && services_sound::<V>(rules, image, n)
        } else {
            let services = &image[V::tokens_at(n, 0)..V::tokens_at(n + 1, 0)];
            zero(own) && zero(services) && V::provides(image, n) == 0
        }
    })
}

fn services_sound<V: Version>(rules: Rules, image: &Image, package: usize) -> bool {
    let provides = V::provides(image, package);
    (0..V::SIZES.services).all(|n| {
        let own = V::tokens(image, package, n);
        if has(provides, n) {
            own[1] <= rules.most_method && (0..n).all(|m| !has(provides, m) || V::tokens(image, package, m) != own)
        } else {
            zero(&own)
        }
    })
}

/// Needs are among calls, calls among grants (which is lawfulness), grants among the services
/// provided. A package number that is unused, or the same twice, has no bits.
fn bits_sound<V: Version>(image: &Image) -> bool {
    V::packages().all(|caller| {
        V::packages().all(|callee| {
            let callable = if caller != callee && has(V::used(image), caller) { V::provides(image, callee) } else { 0 };
            let grants = V::grants(image, callee, caller);
            let calls = V::calls(image, caller, callee);
            let needs = V::needs(image, caller, callee);
            needs & !calls == 0 && calls & !grants == 0 && grants & !callable == 0
        })
    })
}

/// At most so many rows as the list has places, each of them once, and zeros after them. Each is an unmet call, or a grant
/// that waits, of a used package and with another valid AID. In version 01 each waiting grant names a service provided.
fn list_sound<V: Version>(rules: Rules, image: &Image, relation: Relation) -> bool {
    let (start, size) = relation.list::<V>();
    let (count, places) = (usize::from(image[start]), &image[start + 1..start + 1 + size * V::SIZES.listed]);
    if count > V::SIZES.listed || !zero(&places[size * count..]) {
        return false;
    }
    let differ = match size {
        ROW => places_differ::<ROW>(&places[..size * count]),
        _ => places_differ::<OLD_WAITING_ROW>(&places[..size * count]),
    };
    differ
        && relation.rows::<V>(image).count() == count
        && relation.rows::<V>(image).all(|row| {
            row.own < V::SIZES.packages
                && has(V::used(image), row.own)
                && valid(row.other)
                && row.other != V::aid(image, row.own)
                && row.tokens[1] <= rules.most_method
                && relation.bit::<V>(image, row.own, row.row()).is_none()
        })
}

/// Whether no row of so many bytes stands twice.
fn places_differ<const ROW: usize>(places: &[u8]) -> bool {
    let places: &[[u8; ROW]] = places.as_chunks().0;
    places.iter().enumerate().all(|(n, place)| !places[..n].contains(place))
}

/// A length that AIDs have, and zeros after the AID's bytes.
fn valid(aid: &[u8; AID]) -> bool {
    (SHORTEST_AID..=LONGEST_AID).contains(&aid[0]) && zero(&aid[1 + usize::from(aid[0])..])
}

fn zero(bytes: &[u8]) -> bool {
    bytes.iter().all(|&byte| byte == 0)
}
