//! Reading a package's contract out of an image, as a record of kind 1.

use super::layout::*;
use super::record::HEAD;
use super::relation::{Listed, Relation};

/// Writes the record and gives its length; 12 when the buffer is shorter.
pub fn read_out<V: Version>(image: &Image, number: usize, out: &mut [u8]) -> Result<usize, u32> {
    let mut length = HEAD;
    each_part::<V>(image, number, &mut |part| length += part.len());
    let out = out.get_mut(..length).ok_or(12u32)?;
    let [high, low] = (length as u16).to_be_bytes();
    out[..HEAD].copy_from_slice(&[high, low, V::SIZES.record_version, 1]);
    let mut at = HEAD;
    each_part::<V>(image, number, &mut |part| {
        out[at..at + part.len()].copy_from_slice(part);
        at += part.len();
    });
    Ok(length)
}

/// Hands over, in order, the parts of the record after its head.
fn each_part<V: Version>(image: &Image, number: usize, put: &mut impl FnMut(&[u8])) {
    let own = |row: &Listed| row.own == number;
    put(written(V::aid(image, number)));

    put(&[V::provides(image, number).count_ones() as u8]);
    for service in V::numbers(V::provides(image, number)) {
        put(&V::tokens(image, number, service));
    }

    let unmet = || Relation::Calls.rows::<V>(image).filter(own);
    put_count::<V>(bits_set::<V>(image, V::CALLS, number) + unmet().count(), put);
    for callee in V::packages() {
        for service in V::numbers(V::calls(image, number, callee)) {
            put(written(V::aid(image, callee)));
            put(&V::tokens(image, callee, service));
        }
    }
    for row in unmet() {
        put(written(row.other));
        put(&row.tokens);
    }

    let waiting = || Relation::Grants.rows::<V>(image).filter(own);
    put_count::<V>(bits_set::<V>(image, V::GRANTS, number) + waiting().count(), put);
    for caller in V::packages() {
        for service in V::numbers(V::grants(image, number, caller)) {
            put(written(V::aid(image, caller)));
            put(&V::tokens(image, number, service));
        }
    }
    for row in waiting() {
        put(written(row.other));
        put(&row.tokens);
    }

    put_count::<V>(bits_set::<V>(image, V::NEEDS, number), put);
    for callee in V::packages() {
        for service in V::numbers(V::needs(image, number, callee)) {
            put(written(V::aid(image, callee)));
            put(&V::tokens(image, callee, service));
        }
    }
}

/// Of the package's row in a table, how many bits are set.
fn bits_set<V: Version>(image: &Image, table: usize, number: usize) -> usize {
    let row = &image[V::cell(table, number, 0)..V::cell(table, number + 1, 0)];
    row.iter().map(|byte| byte.count_ones() as usize).sum()
}

/// The count of calls, grants or needs.
fn put_count<V: Version>(count: usize, put: &mut impl FnMut(&[u8])) {
    let bytes = count.to_be_bytes();
    put(&bytes[bytes.len() - V::SIZES.count_bytes..]);
}
