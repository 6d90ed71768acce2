//! The seven entries of a card engine, so that engines can be compared and timed alike.

use crate::bytes;
use crate::machine::Aid;
use crate::rules::{Rules, Sizes};
use crate::tables::Form;
use std::fmt;

/// The rules in force on the large card.
pub const ON_LARGE: Rules = Rules::IN_FORCE.on(&Sizes::LARGE);

/// The bytes of an image, and of one of the large card.
pub const IMAGE: usize = Form::of(Rules::IN_FORCE).size;
pub const LARGE_IMAGE: usize = Form::of(ON_LARGE).size;
/// The bytes of an image of version 01, which a converter takes over.
pub const OLD_IMAGE: usize = Form::of(Rules::R_7).size;
/// The bytes of the longest record, and of the large card's longest.
pub const LONGEST_RECORD: usize = longest_record(&Sizes::SMALL);
pub const LONGEST_LARGE_RECORD: usize = longest_record(&Sizes::LARGE);

/// A load whose AIDs have as many bytes as they may, and its lists as many rows.
pub const fn longest_record(sizes: &Sizes) -> usize {
    let aid = 1 + *Aid::LENGTHS.end();
    let provides = 1 + 2 * sizes.services;
    let rows = sizes.count_bytes + sizes.rows * (aid + 2);
    4 + aid + provides + 3 * rows
}

/// What an entry gives: the answer (0, or the cause of a refusal) and the second number.
#[derive(Clone, Copy, PartialEq, Eq)]
pub struct Verdict {
    pub answer: u32,
    pub second: u32,
}

impl fmt::Debug for Verdict {
    fn fmt(&self, f: &mut fmt::Formatter) -> fmt::Result {
        write!(f, "{} with {}", self.answer, self.second)
    }
}

impl fmt::Display for Verdict {
    /// As the programs print what judging gives: the answer, and the package number or `-` on a refusal.
    fn fmt(&self, f: &mut fmt::Formatter) -> fmt::Result {
        match self.answer {
            0 => write!(f, "0 {}", self.second),
            cause => write!(f, "{cause} -"),
        }
    }
}

impl Verdict {
    pub const fn new(answer: u32, second: u32) -> Verdict {
        Verdict { answer, second }
    }
}

pub trait Card {
    fn name(&self) -> &'static str;
    fn check(&self, image: &[u8]) -> Verdict;
    fn empty(&self, image: &mut [u8]) -> Verdict;
    fn convert(&self, old: &[u8], image: &mut [u8]) -> Verdict;
    fn enlarge(&self, image: &[u8], large: &mut [u8]) -> Verdict;
    fn judge(&self, image: &mut [u8], record: &[u8]) -> Verdict;
    fn read_out(&self, image: &[u8], number: u32, out: &mut [u8]) -> Verdict;
    fn aid<'a>(&self, record: &'a [u8]) -> &'a [u8];

    /// The engine by the rules before the last so many changes, 1 at least; `None` when it has those in force alone.
    fn before(&self, _changes: usize) -> Option<&dyn Card> {
        None
    }
}

/// The byte engine of this project, by some rules.
pub struct Bytes(pub Rules);

/// The byte engine by the rules in force.
pub const BYTES: Bytes = Bytes(Rules::IN_FORCE);
/// The same by the rules before each change, the last change first.
const BEFORE: &[Bytes; Rules::CHANGES] =
    &[Bytes(Rules::before(1)), Bytes(Rules::before(2)), Bytes(Rules::before(3)), Bytes(Rules::before(4))];

impl Card for Bytes {
    fn name(&self) -> &'static str {
        "bytes"
    }

    fn check(&self, image: &[u8]) -> Verdict {
        verdict(bytes::check(self.0, image))
    }

    fn empty(&self, image: &mut [u8]) -> Verdict {
        verdict(bytes::empty(self.0, image))
    }

    fn convert(&self, old: &[u8], image: &mut [u8]) -> Verdict {
        verdict(bytes::convert(old, image))
    }

    fn enlarge(&self, image: &[u8], large: &mut [u8]) -> Verdict {
        verdict(bytes::enlarge(image, large))
    }

    fn judge(&self, image: &mut [u8], record: &[u8]) -> Verdict {
        verdict(bytes::judge(self.0, image, record))
    }

    fn read_out(&self, image: &[u8], number: u32, out: &mut [u8]) -> Verdict {
        verdict(bytes::read_out(self.0, image, number, out))
    }

    fn aid<'a>(&self, record: &'a [u8]) -> &'a [u8] {
        bytes::aid(self.0, record)
    }

    fn before(&self, changes: usize) -> Option<&dyn Card> {
        Some(&BEFORE[changes - 1])
    }
}

fn verdict((answer, second): (u32, u32)) -> Verdict {
    Verdict { answer, second }
}

#[cfg(feature = "engine")]
impl From<card::exact::Verdict> for Verdict {
    fn from(verdict: card::exact::Verdict) -> Verdict {
        Verdict::new(verdict.answer, verdict.second)
    }
}

/// The proved engine, out of its archive.
#[cfg(feature = "engine")]
pub struct Engine;

#[cfg(feature = "engine")]
impl Card for Engine {
    fn name(&self) -> &'static str {
        "engine"
    }

    fn check(&self, image: &[u8]) -> Verdict {
        card::exact::check(image).into()
    }

    fn empty(&self, image: &mut [u8]) -> Verdict {
        card::exact::empty(image).into()
    }

    fn convert(&self, old: &[u8], image: &mut [u8]) -> Verdict {
        card::exact::convert(old, image).into()
    }

    fn enlarge(&self, image: &[u8], large: &mut [u8]) -> Verdict {
        card::exact::enlarge(image, large).into()
    }

    fn judge(&self, image: &mut [u8], record: &[u8]) -> Verdict {
        card::exact::judge(image, record).into()
    }

    fn read_out(&self, image: &[u8], number: u32, out: &mut [u8]) -> Verdict {
        card::exact::read_out(image, number, out).into()
    }

    fn aid<'a>(&self, record: &'a [u8]) -> &'a [u8] {
        card::exact::aid(record)
    }
}

/// Their names, as the programs say what they compare.
pub fn names(cards: &[&dyn Card]) -> String {
    cards.iter().map(|card| card.name()).collect::<Vec<_>>().join(" and ")
}

/// Every engine that is linked. The byte engine comes first; the others are held to it.
pub fn linked() -> Vec<&'static dyn Card> {
    vec![
        &BYTES,
        #[cfg(feature = "engine")]
        &Engine,
    ]
}

#[cfg(test)]
mod tests {
    use super::*;

    #[test]
    fn the_sizes_are_the_papers() {
        assert_eq!((OLD_IMAGE, IMAGE, LONGEST_RECORD), (1094, 1110, 4145));
        assert_eq!((LARGE_IMAGE, LONGEST_LARGE_RECORD), (3639, 15_564));
    }

    /// The wrapper's own numbers for the large card.
    #[cfg(feature = "engine")]
    #[test]
    fn the_wrapper_has_the_same_sizes() {
        assert_eq!((card::LARGE_IMAGE_SIZE, card::LARGE_RECORD_SIZE), (LARGE_IMAGE, LONGEST_LARGE_RECORD));
    }
}
