//! A contract: four sets written in full AIDs and tokens.

use std::collections::BTreeSet;
use std::fmt;
use std::ops::RangeInclusive;

/// The bytes that name a package. Equal only if length and bytes are equal: what is after the length is zero.
#[derive(Clone, Copy, PartialEq, Eq, PartialOrd, Ord)]
pub struct Aid {
    length: u8,
    bytes: [u8; *Aid::LENGTHS.end()],
}

impl Aid {
    /// "5 to 16 bytes."
    pub const LENGTHS: RangeInclusive<usize> = 5..=16;

    pub fn new(bytes: &[u8]) -> Aid {
        let mut aid = Aid { length: bytes.len() as u8, bytes: [0; *Aid::LENGTHS.end()] };
        aid.bytes[..bytes.len()].copy_from_slice(bytes);
        aid
    }

    pub fn bytes(&self) -> &[u8] {
        &self.bytes[..usize::from(self.length)]
    }
}

impl fmt::Debug for Aid {
    fn fmt(&self, f: &mut fmt::Formatter) -> fmt::Result {
        write!(f, "{:02X?}", self.bytes())
    }
}

/// Which of a package's services: its interface and its method.
#[derive(Clone, Copy, Debug, PartialEq, Eq, PartialOrd, Ord)]
pub struct Tokens {
    pub interface: u8,
    pub method: u8,
}

/// A row of calls or needs (`other` is the callee) or of grants (`other` is the caller).
#[derive(Clone, Copy, Debug, PartialEq, Eq, PartialOrd, Ord)]
pub struct Row {
    pub other: Aid,
    pub tokens: Tokens,
}

#[derive(Clone, Debug, Default, PartialEq, Eq)]
pub struct Contract {
    pub provides: BTreeSet<Tokens>,
    pub calls: BTreeSet<Row>,
    pub grants: BTreeSet<Row>,
    pub needs: BTreeSet<Row>,
}

impl Contract {
    /// The tokens of every row of its four sets.
    pub fn tokens(&self) -> impl Iterator<Item = &Tokens> {
        let rows = self.calls.iter().chain(&self.grants).chain(&self.needs);
        self.provides.iter().chain(rows.map(|row| &row.tokens))
    }

    /// Whether the contract grants this service of its own to this caller.
    pub fn grants_to(&self, caller: Aid, tokens: Tokens) -> bool {
        self.grants.contains(&Row { other: caller, tokens })
    }
}
