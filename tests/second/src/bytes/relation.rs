//! Calls and grants. Each of them has a table of bits, for what is on the card at both ends, and a list for the rest:
//! unmet calls and waiting grants. A list is a count byte and places of rows.

use super::layout::*;
use super::record::Row;

#[derive(Clone, Copy)]
pub enum Relation {
    /// Of a caller, on callees; the list has the unmet ones.
    Calls,
    /// Of a callee, to callers; the list has the waiting ones.
    Grants,
}

/// A row of a list, of the contract that the package with the number `own` has.
#[derive(Clone, Copy)]
pub struct Listed<'a> {
    pub own: usize,
    pub other: &'a [u8; AID],
    pub tokens: [u8; TOKENS],
}

impl<'a> Listed<'a> {
    pub fn is(&self, own: usize, row: Row) -> bool {
        self.own == own && self.tokens == row.tokens && is_aid(self.other, row.aid)
    }

    /// As records write it. The AID is valid.
    pub fn row(&self) -> Row<'a> {
        Row { aid: written(self.other), tokens: self.tokens }
    }
}

impl Relation {
    /// Where the list begins, and how many bytes a row of it has.
    pub fn list<V: Version>(self) -> (usize, usize) {
        match self {
            Relation::Calls => (V::UNMET, ROW),
            Relation::Grants => (V::WAITING, V::WAITING_ROW),
        }
    }

    /// How many rows the list has.
    pub fn count<V: Version>(self, image: &Image) -> usize {
        usize::from(image[self.list::<V>().0])
    }

    /// The rows of the list, in order.
    pub fn rows<V: Version>(self, image: &Image) -> impl Iterator<Item = Listed<'_>> {
        let (start, size) = self.list::<V>();
        let places = image[start + 1..].chunks_exact(size).take(usize::from(image[start]));
        places.filter_map(move |place| self.listed::<V>(image, place))
    }

    /// What the bytes of a row say. In version 01 a waiting grant has its service's number, and it says nothing where its
    /// callee provides no such service.
    fn listed<'a, V: Version>(self, tables: &[u8], place: &'a [u8]) -> Option<Listed<'a>> {
        let (other, rest) = place.split_first_chunk()?;
        let provided = |own: usize, service: usize| {
            own < V::SIZES.packages && service < V::SIZES.services && has(V::provides(tables, own), service)
        };
        let (own, tokens) = match (self, rest) {
            (Relation::Calls, &[interface, method, own]) => (own.into(), [interface, method]),
            (Relation::Grants, &[own, interface, method]) => (own.into(), [interface, method]),
            (Relation::Grants, &[own, service]) if provided(own.into(), service.into()) => {
                (own.into(), V::tokens(tables, own.into(), service.into()))
            }
            _ => return None,
        };
        Some(Listed { own, other, tokens })
    }

    /// The place of the bit row and the bit of a row whose caller, callee and service are on the card; `None` while it
    /// belongs in the list.
    pub fn bit<V: Version>(self, image: &Image, own: usize, row: Row) -> Option<(usize, Bits)> {
        match self {
            Relation::Calls => {
                let (callee, service) = V::provided(image, row.aid, row.tokens)?;
                Some((V::cell(V::CALLS, own, callee), 1 << service))
            }
            Relation::Grants => {
                let service = V::service(image, own, row.tokens)?;
                Some((V::cell(V::GRANTS, own, V::package(image, row.aid)?), 1 << service))
            }
        }
    }

    /// Whether the contract has the row, as a bit or in the list.
    pub fn has<V: Version>(self, image: &Image, own: usize, row: Row) -> bool {
        match self.bit::<V>(image, own, row) {
            Some((at, bit)) => V::entry(image, at) & bit != 0,
            None => self.rows::<V>(image).any(|listed| listed.is(own, row)),
        }
    }

    /// Adds a row: its bit, or at the end of the list.
    pub fn put<V: Version>(self, image: &mut Image, own: usize, row: Row) {
        match self.bit::<V>(image, own, row) {
            Some((at, bit)) => V::set(image, at, bit),
            None => self.append::<V>(image, own, row),
        }
    }

    /// Takes a row out: its bit, or out of the list.
    pub fn take<V: Version>(self, image: &mut Image, own: usize, row: Row) {
        match self.bit::<V>(image, own, row) {
            Some((at, bit)) => V::clear(image, at, bit),
            None => self.close_up::<V>(image, |_, listed| listed.is(own, row)),
        }
    }

    /// Turns the rows of the list that have a bit by now into bits, and closes up the others in order.
    pub fn settle<V: Version>(self, image: &mut Image) {
        self.close_up::<V>(image, |tables, listed| match self.bit::<V>(tables, listed.own, listed.row()) {
            Some((at, bit)) => {
                V::set(tables, at, bit);
                true
            }
            None => false,
        });
    }

    /// Takes out of the list the rows that `leaves` names, and closes up the others in order. With each row it gets the
    /// tables, which stand before the lists.
    pub fn close_up<V: Version>(self, image: &mut Image, mut leaves: impl FnMut(&mut [u8], Listed) -> bool) {
        let (start, size) = self.list::<V>();
        let (tables, list) = image.split_at_mut(start);
        let (count, rows) = list.split_first_mut().unwrap();
        let end = size * usize::from(*count);
        let mut kept = 0;
        for at in (0..end).step_by(size) {
            if !self.listed::<V>(tables, &rows[at..at + size]).is_some_and(|listed| leaves(tables, listed)) {
                rows.copy_within(at..at + size, kept);
                kept += size;
            }
        }
        rows[kept..end].fill(0);
        *count = (kept / size) as u8;
    }

    /// Puts a row at the end of the list. The place there is zero, so the AID needs no fill.
    pub fn append<V: Version>(self, image: &mut Image, own: usize, row: Row) {
        let (start, size) = self.list::<V>();
        let at = start + 1 + size * usize::from(image[start]);
        let ([interface, method], number) = (row.tokens, own as u8);
        let rest: &[u8] = match self {
            Relation::Calls => &[interface, method, number],
            Relation::Grants if size == ROW => &[number, interface, method],
            // In version 01 a grant waits for its caller alone.
            Relation::Grants => &[number, V::service(image, own, row.tokens).expect("a service provided") as u8],
        };
        image[at..at + row.aid.len()].copy_from_slice(row.aid);
        image[at + AID..at + size].copy_from_slice(rest);
        image[start] += 1;
    }
}
